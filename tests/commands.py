"""Which command a client's frame spells (RFC 9051, 9, in the profile of docs/imap.md): command_of(frame) gives its tag, name and arguments.

A command is read from its front to its end by one function a name; what doesn't fit raises Unspelled. Nothing here knows a state or a mailbox.
"""
import re, sys

sys.set_int_max_str_digits(0)  # a number may be as long as a line
SYSTEM = (b'\\Answered', b'\\Flagged', b'\\Deleted', b'\\Seen', b'\\Draft')
MONTHS = (b'jan', b'feb', b'mar', b'apr', b'may', b'jun', b'jul', b'aug', b'sep', b'oct', b'nov', b'dec')
LEFT_OUT = (b'NAMESPACE', b'RENAME', b'MOVE', b'SUBSCRIBE', b'UNSUBSCRIBE', b'LSUB', b'UID MOVE')
KEYS_ROUND = 64  # this many keys may stand round a search key
NUMBER_LIMIT = 2**63  # that of RFC 9051's number64


class Unspelled(Exception):
    pass


def form(text):
    return re.compile(text, re.I)


ATOM_BYTES = rb'!#$&\'+,\-./0-9:;<=>?@A-Z\[^_`a-z|}~'  # a `]` isn't one of them
TAG = form(rb'([!#$&\',\-./0-9:;<=>?@A-Z\[\]^_`a-z|}~]{1,32}) ')
NAME = form(rb'(?:UID )?[A-Z]+')
ATOM = form(rb'[' + ATOM_BYTES + rb']+')
ASTRING_ATOM = form(rb'[\]' + ATOM_BYTES + rb']+')
PATTERN_ATOM = form(rb'[%*\]' + ATOM_BYTES + rb']+')
QUOTED = form(rb'"((?:[\x01-\x09\x0b\x0c\x0e-\x21\x23-\x5b\x5d-\x7f\x80-\xff]|\\["\\])*)"')
LITERAL = form(rb'\{(\d+)\+?\}\r\n')
KEYWORD = form(rb'[' + ATOM_BYTES + rb']+')
FLAG = form(rb'\\(?:answered|flagged|deleted|seen|draft)|[' + ATOM_BYTES + rb']+')
DATE = form(rb'"((?: [1-9]|0[1-9]|[12]\d|3[01])-(?:%s)-\d{4} (?:[01]\d|2[0-3]):[0-5]\d:[0-5]\d [+-]\d{4})"' % b'|'.join(MONTHS))
DAY = form(rb'("?)(\d{1,2})-(%s)-(\d{4})\1' % b'|'.join(MONTHS))
SET_END = form(rb'[1-9]\d*|\*')
NUMBER = form(rb'\d+')
PARTIAL = form(rb'<(\d+)\.([1-9]\d*)>')
ITEM = form(rb'FLAGS|UID|INTERNALDATE|RFC822\.SIZE|BODY\[\]|BODY\.PEEK\[\]')
STATUS_ITEM = form(rb'MESSAGES|UIDNEXT|UIDVALIDITY|UNSEEN|DELETED|SIZE')
MODE = form(rb'([+-]?)FLAGS(\.SILENT)? ')
BASE64 = form(rb'[A-Za-z0-9+/=]+')
FAST = ((b'FLAGS', None), (b'INTERNALDATE', None), (b'RFC822.SIZE', None))


class Text:
    """A frame, and how far it was read."""

    def __init__(self, frame, at):
        self.frame, self.at = frame, at

    def next_is(self, text):
        return self.frame[self.at:self.at + len(text)].upper() == text

    def passes(self, text):
        """Whether this text stands next, in any case; it is read then."""
        found = self.next_is(text)
        self.at += len(text) if found else 0
        return found

    def read(self, text):
        if not self.passes(text):
            raise Unspelled

    def take(self, form):
        found = form.match(self.frame, self.at)
        if not found:
            raise Unspelled
        self.at = found.end()
        return found

    def number(self):
        value = int(self.take(NUMBER)[0])
        if value >= NUMBER_LIMIT:
            raise Unspelled
        return value

    def literal(self):
        size = int(self.take(LITERAL)[1])
        value = self.frame[self.at:self.at + size]
        self.at += size
        if b'\0' in value:
            raise Unspelled
        return value

    def string(self, atom=ASTRING_ATOM):
        """A quoted string, a literal or such an atom."""
        if self.next_is(b'{'):
            return self.literal()
        if not self.next_is(b'"'):
            return self.take(atom)[0]
        value = self.take(QUOTED)[1]
        if not is_utf8(value):
            raise Unspelled
        return re.sub(rb'\\(["\\])', rb'\1', value)

    def list_of(self, member):
        """One member or more between parentheses, with a space between two."""
        self.read(b'(')
        members = [member(self)]
        while not self.passes(b')'):
            self.read(b' ')
            members.append(member(self))
        return members


def is_utf8(text):
    try:
        text.decode('utf-8')
    except UnicodeDecodeError:
        return False
    return True


def keywords(flags):
    return sorted(flag for flag in flags if flag[:1] != b'\\')


# The parts of commands.

def keyword(text):
    found = text.take(KEYWORD)[0]
    if len(found) > 64:
        raise Unspelled
    return found


def flag(text):
    spelled_so = {name.lower(): name for name in SYSTEM}
    found = text.take(FLAG)[0]
    if len(found) > 64:
        raise Unspelled
    return spelled_so.get(found.lower(), found)


def flag_set(flags):
    """These flags, each once; at most 16 of them are keywords."""
    if len(keywords(set(flags))) > 16:
        raise Unspelled
    return frozenset(flags)


def flag_list(text):
    if text.passes(b'()'):
        return frozenset()
    return flag_set(text.list_of(flag))


def bare_flags(text):
    flags = [flag(text)]
    while text.passes(b' '):
        flags.append(flag(text))
    return flag_set(flags)


def set_end(text):
    """A number, or None for `*`."""
    found = text.take(SET_END)[0]
    if found != b'*' and int(found) >= 2**32:
        raise Unspelled
    return None if found == b'*' else int(found)


def set_part(text):
    first = set_end(text)
    return first, set_end(text) if text.passes(b':') else first


def number_set(text):
    """The two ends of each range."""
    parts = [set_part(text)]
    while text.passes(b','):
        parts.append(set_part(text))
    return parts


def partial(text):
    origin, count = map(int, text.take(PARTIAL).groups())
    if origin >= NUMBER_LIMIT or count >= NUMBER_LIMIT:
        raise Unspelled
    return origin, count


def item(text):
    name = text.take(ITEM)[0].upper()
    return name, partial(text) if name.startswith(b'BODY') and text.next_is(b'<') else None


def items(text):
    """Each item once, where it comes first."""
    if text.passes(b'FAST'):
        return list(FAST)
    return list(dict.fromkeys(text.list_of(item) if text.next_is(b'(') else [item(text)]))


def day(text):
    """A year, month and day, so that earlier ones are less."""
    _, number, month, year = text.take(DAY).groups()
    if not 1 <= int(number) <= 31:
        raise Unspelled
    return int(year), MONTHS.index(month.lower()), int(number)


# The search keys: a name and what stands behind it.

PLAIN_KEYS = (b'ALL', b'ANSWERED', b'DELETED', b'DRAFT', b'FLAGGED', b'SEEN', b'UNANSWERED', b'UNDELETED', b'UNDRAFT', b'UNFLAGGED', b'UNSEEN')
KEYS_OF = {b'KEYWORD': keyword, b'UNKEYWORD': keyword, b'LARGER': Text.number, b'SMALLER': Text.number,
           b'BEFORE': day, b'ON': day, b'SINCE': day, b'UID': number_set}
KEY_NAME = form(rb'[A-Z]+')


def key(text, room=KEYS_ROUND):
    """A key round which as many keys may stand as there is room for less."""
    if text.next_is(b'('):
        return b'AND', text.list_of(inner(room))
    if SET_END.match(text.frame, text.at):
        return b'NUMBERS', number_set(text)
    name = text.take(KEY_NAME)[0].upper()
    if name in PLAIN_KEYS:
        return name, None
    text.read(b' ')
    if name in KEYS_OF:
        return name, KEYS_OF[name](text)
    if name == b'NOT':
        return name, [inner(room)(text)]
    if name != b'OR':
        raise Unspelled
    first = inner(room)(text)
    text.read(b' ')
    return name, [first, inner(room)(text)]


def inner(room):
    """The reader of a key within another one."""
    if not room:
        raise Unspelled
    return lambda text: key(text, room - 1)


def keys(text):
    """The keys behind SEARCH; what its RETURN may ask for is what is answered without it."""
    text.read(b' ')
    if text.passes(b'RETURN (ALL) ') or text.passes(b'RETURN () '):
        pass
    found = [key(text)]
    while text.passes(b' '):
        found.append(key(text))
    return found


# The commands, each from behind its name.

def bare(text):
    return {}


def named(text):
    text.read(b' ')
    return {'name': text.string()}


def strings(text):
    """Two strings: a user and a password."""
    text.read(b' ')
    first = text.string()
    text.read(b' ')
    return {'name': first, 'more': text.string()}


def listing(text):
    text.read(b' ')
    reference = text.string()
    text.read(b' ')
    return {'name': reference, 'pattern': text.string(PATTERN_ATOM)}


def transfer(text):
    asks = strings(text)
    return asks | {'partition': text.string() if text.passes(b' ') else None}


def plain(text):
    text.read(b' PLAIN')
    return {'response': text.take(BASE64)[0] if text.passes(b' ') else None}


def enabling(text):
    text.read(b' ')
    text.take(ATOM)
    while text.passes(b' '):
        text.take(ATOM)
    return {}


def counts(text):
    asks = named(text)
    text.read(b' ')
    return asks | {'items': text.list_of(lambda text: text.take(STATUS_ITEM)[0].upper())}


def message(text):
    asks = named(text) | {'flags': frozenset(), 'date': None}
    text.read(b' ')
    if text.next_is(b'('):
        asks['flags'] = flag_list(text)
        text.read(b' ')
    if text.next_is(b'"'):
        asks['date'] = text.take(DATE)[1]
        text.read(b' ')
    return asks | {'message': text.literal()}


def of_set(text):
    text.read(b' ')
    return {'set': number_set(text)}


def fetching(text):
    asks = of_set(text)
    text.read(b' ')
    return asks | {'items': items(text)}


def storing(text):
    asks = of_set(text)
    text.read(b' ')
    mode, silent = text.take(MODE).groups()
    return asks | {'mode': mode, 'silent': silent, 'flags': flag_list(text) if text.next_is(b'(') else bare_flags(text)}


def searching(text):
    return {'keys': keys(text)}


def copying(text):
    asks = of_set(text)
    return asks | named(text)


def left_out(text):
    """What a name that is left out has behind it: a space and anything, or nothing."""
    if not text.next_is(b' ') and text.frame[text.at:] != b'\r\n':
        raise Unspelled
    text.at = len(text.frame) - 2
    return {}


COMMANDS = {
    b'CAPABILITY': bare, b'NOOP': bare, b'LOGOUT': bare, b'LOGIN': strings, b'AUTHENTICATE': plain,
    b'ENABLE': enabling, b'SELECT': named, b'EXAMINE': named, b'CREATE': named, b'DELETE': named, b'LIST': listing, b'STATUS': counts,
    b'APPEND': message, b'IDLE': bare, b'XFER': transfer,
    b'CLOSE': bare, b'UNSELECT': bare, b'EXPUNGE': bare, b'UID EXPUNGE': of_set, b'SEARCH': searching, b'UID SEARCH': searching,
    b'FETCH': fetching, b'UID FETCH': fetching, b'STORE': storing, b'UID STORE': storing, b'COPY': copying, b'UID COPY': copying,
} | dict.fromkeys(LEFT_OUT, left_out)


def first_tag(frame):
    tag = TAG.match(frame)
    return tag[1] if tag else None


def command_of(frame):
    """The tag of a frame, its command's name and what that asks for; the name is None where no command is spelled."""
    tag = first_tag(frame)
    if tag is None:
        return b'*', None, {}
    text = Text(frame, len(tag) + 1)
    try:
        name = text.take(NAME)[0].upper()
        asks = COMMANDS[name](text) if name in COMMANDS else None
    except Unspelled:
        asks = None
    return (tag, name, asks) if asks is not None and frame[text.at:] == b'\r\n' else (tag, None, {})
