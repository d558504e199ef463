"""The master, and MUPDATE (RFC 3656, in the profile of docs/formats.md): Master(world, name, backends) has the table of names, takes the commands of nodes,
and tells each change to those that sent UPDATE. A client that connects from outside is a Talk: it is greeted in `given`, and the bytes of its lines are
read here. Nothing here knows the program.
"""
import re

from entries import Active, Deleted, Inactive, Reserved
from mailboxes import MAILBOX_LIMIT
from table import Table

TAG = re.compile(rb'[A-Za-z0-9-]{1,41} ')
WORD = re.compile(rb'[A-Za-z]+')
QUOTED = re.compile(rb'"((?:[\x01-\x09\x0b\x0c\x0e-\x21\x23-\x5b\x5d-\x7f]|\\["\\])*)"')
HEADER = re.compile(rb'\{(\d+)\+?\}\r\n')
SHORT = rb'[A-Za-z0-9_-]{1,64}'
STRING_LIMIT = 65_536
# the arguments of each command (RFC 3656, 4); LIST may stand alone
ARGUMENTS = {b'ACTIVATE': ('name', 'place', 'string'), b'DEACTIVATE': ('name', 'place'), b'DELETE': ('name',), b'FIND': ('name',),
             b'LIST': ('string',), b'LOGOUT': (), b'NOOP': (), b'RESERVE': ('name', 'place'), b'UPDATE': ()}
BACKENDS_ALONE = (b'RESERVE', b'ACTIVATE', b'DEACTIVATE', b'DELETE')
SERIAL_LIMIT = 4_294_967_295


class Unspelled(Exception):
    """No line begins so."""


class Unfinished(Exception):
    """A line begins so, and needs more bytes."""


def is_name(name):
    try:
        name.decode()
    except UnicodeDecodeError:
        return False
    return 0 < len(name) <= 255 and not re.search(rb'[\x00-\x1f\x7f"\\%*]', name) and b'' not in name.split(b'.')


def is_place(place):
    return re.fullmatch(rb'%s!%s' % (SHORT, SHORT), place) is not None


FORMS = {'name': (is_name, 1, 255), 'place': (is_place, 3, 129), 'string': (lambda text: len(text) <= STRING_LIMIT, 0, STRING_LIMIT)}


def argument(line, at, kind):
    """Reads an argument, and gives it and the place behind it. The line ends with an LF, which only a literal of any text may hold."""
    fits, least, most = FORMS[kind]
    quoted = QUOTED.match(line, at)
    if quoted:
        value = re.sub(rb'\\(["\\])', rb'\1', quoted[1])
        if not fits(value) or (kind != 'string' and b'\\' in quoted[1]):
            raise Unspelled
        return value, quoted.end()
    header = HEADER.match(line, at)
    if not header or not least <= int(header[1]) <= most:
        raise Unspelled
    size, begins = int(header[1]), header.end()
    octets = line[begins:begins + size]
    if len(octets) < size:
        if octets and kind != 'string':
            raise Unspelled
        raise Unfinished
    if not fits(octets):
        raise Unspelled
    return octets, begins + size


def command_of(line):
    """The tag, the name and the arguments of the command that the bytes up to an LF are the line of."""
    tag = TAG.match(line)
    word = tag and WORD.match(line, tag.end())
    name = word and word[0].upper()
    if name not in ARGUMENTS:
        raise Unspelled
    at, kinds, values = word.end(), ARGUMENTS[name], []
    if name == b'LIST' and not line.startswith(b' ', at):
        kinds = ()
    for kind in kinds:
        if not line.startswith(b' ', at):
            raise Unspelled
        value, at = argument(line, at + 1, kind)
        values.append(value)
    if at == len(line):
        raise Unfinished
    if line[at:] != b'\r\n':
        raise Unspelled
    return tag[0][:-1], name, values


def is_whole(line):
    """Whether the line ends with this LF: no line goes on behind it."""
    try:
        command_of(line)
    except Unfinished:
        return False
    except Unspelled:
        pass
    return True


def printed_argument(text):
    if len(text) <= 1_024 and re.fullmatch(rb'[\x01-\x09\x0b\x0c\x0e-\x21\x23-\x5b\x5d-\x7f]*', text):
        return b'"' + text + b'"'
    return b'{%d+}\r\n' % len(text) + text


def response_line(tag, word, *arguments):
    return b' '.join([tag, word, *map(printed_argument, arguments)]) + b'\r\n'


def record_line(name, record):
    return (b'MAILBOX', name, record.place, record.acl) if record.is_active else (b'RESERVE', name, record.place)


def record_lines(name, record):
    """As UPDATE has it: a reserved name with an access list is told so by two lines."""
    active = [(b'MAILBOX', name, record.place, record.acl)] if record.acl is not None else []
    return active if record.is_active else active + [(b'RESERVE', name, record.place)]


CHANGES = {b'ACTIVATE': Active, b'DEACTIVATE': Inactive, b'DELETE': Deleted}
DONE, SYNTAX, NOT_YOURS = (b'OK', b'done'), (b'BAD', b'syntax'), (b'NO', b'5 not yours')


class Talk:
    """A client from outside: the bytes of a line that has begun, and what it was given."""

    def __init__(self, me):
        self.begun, self.over = b'', False
        self.given = [b'* AUTH\r\n* OK MUPDATE "' + me + b'" "murder" "1" "(master)"\r\n']

    def lines_of(self, data):
        """The lines that end in these bytes."""
        for byte in data:
            if self.over:
                return
            self.begun += bytes([byte])
            if byte == 10 and is_whole(self.begun):
                line, self.begun = self.begun, b''
                yield line


class Master:
    def __init__(self, world, name, backends, entries):
        self.world, self.name, self.backends, self.table = world, name, backends, Table(entries)
        self.streams, self.talks = {}, {}  # `streams`: who sent UPDATE, a node or the number of a connection, and its tag

    def opened(self, conn):
        """What the client of a connection is given stands in this list."""
        self.talks[conn] = Talk(self.name.encode())
        return self.talks[conn].given

    def piece(self, conn, data):
        for line in self.talks[conn].lines_of(data):
            self.line(conn, line)

    def hung(self, conn):
        self.talks[conn].over = True
        self.streams.pop(conn, None)

    def line(self, conn, line):
        try:
            tag, word, arguments = command_of(line)
        except Unspelled:
            tag = TAG.match(line)
            return self.tell(conn, tag[0][:-1] if tag else b'*', SYNTAX)
        self.command(conn, tag, word, *arguments)

    def take(self, sender, kind, *message):
        if kind == 'end':
            self.streams.pop(sender, None)
        elif kind == 'command':
            tag, word, *arguments = message
            counts = self.command(sender, tag, word, *arguments)
            if counts and b'-' in tag:
                self.world.mark(*map(int, tag.split(b'-')), counts)

    def tell(self, to, tag, response):
        if to in self.talks:
            self.world.give(to, response_line(tag, *response))
        else:
            self.world.send(self.name, to, ('response', tag, *response))

    def command(self, sender, tag, word, *arguments):
        """Answers a command, and tells its change to each stream; whether the step counts for the client's command that the tag tells."""
        if sender in self.streams and word not in (b'NOOP', b'LOGOUT'):
            return self.tell(sender, tag, SYNTAX)
        refusal = self.refusal(sender, word, *arguments) if word in BACKENDS_ALONE else None
        if refusal:
            self.tell(sender, tag, (b'NO', refusal))
            return 'if answered' if word == b'ACTIVATE' or refusal[:1] in (b'1', b'7') else None
        if word in BACKENDS_ALONE:
            return self.changed(sender, tag, word, *arguments)
        for response in self.told(word, *arguments):
            self.tell(sender, tag, response)
        if word == b'UPDATE':
            self.streams[sender] = tag
        if word == b'LOGOUT' and sender in self.talks:
            self.hung(sender)
        return 'if answered' if word == b'NOOP' else None

    def refusal(self, sender, word, name, place=None, acl=None):
        """Why a change is refused, the first cause that holds."""
        record, mine = self.table.records.get(name), b'%s!' % str(sender).encode()
        is_mine = record is None or record.place.startswith(mine)
        is_here = place is None or place.startswith(mine)
        if sender not in self.backends:
            return NOT_YOURS[1]
        if word == b'RESERVE':
            causes = [(not is_here, b'5 not yours'), (record and record.is_active, b'1 exists'), (record, b'2 reserved'),
                      (self.table.serial == SERIAL_LIMIT, b'7 serials spent')]
        elif word == b'ACTIVATE':
            is_new = record is None or record.acl is None
            causes = [(not (is_mine if record else is_here), b'5 not yours'), (is_new and self.table.mailboxes >= MAILBOX_LIMIT, b'6 full')]
        else:
            causes = [(record is None, b'4 no such name'), (not is_mine or not is_here, b'5 not yours'),
                      (word == b'DEACTIVATE' and not record.is_active if record else False, b'3 not active')]
        return next((text for holds, text in causes if holds), None)

    def changed(self, sender, tag, word, *what):
        """Makes the change. ACTIVATE and DELETE are the steps in which a CREATE and a DELETE are done."""
        entry = Reserved(*what, self.table.serial + 1) if word == b'RESERVE' else CHANGES[word](*what)
        self.table.take(entry)
        self.world.write(entry)
        name, record = entry.name, self.table.records.get(entry.name)
        self.tell(sender, tag, (b'OK', b'%d' % entry.serial) if word == b'RESERVE' else DONE)
        for stream, its_tag in self.streams.items():
            self.tell(stream, its_tag, record_line(name, record) if record else (b'DELETE', name))
        return 'always' if word in (b'ACTIVATE', b'DELETE') else None

    def told(self, word, text=None):
        """The answer to a command that changes no record."""
        if word == b'LOGOUT':
            return [(b'OK', b'bye')]
        records = self.table.records
        if word == b'FIND':
            return ([record_line(text, records[text])] if text in records else []) + [DONE]
        if word == b'LIST':
            return [record_line(name, records[name]) for name in sorted(records) if records[name].place.startswith(text or b'')] + [DONE]
        if word == b'UPDATE':
            return [line for name in sorted(records) for line in record_lines(name, records[name])] + [DONE]
        return [DONE]
