"""A frontend: its clients' bytes become commands, one at a time (RFC 9051, 5.5), and each command that needs a mailbox is asked of a backend.

Connection(session) cuts bytes into requests. Frontend(world, ..) decides whom it asks: the server of the name's record in its replica of the master's table
(RFC 3656, 4.11). Before it tells that a name is missing or reserved, or lists names, it sends the master a NOOP, whose OK comes behind all that the
master told before. A command for which a link is needed that is down is refused; one whose backend is lost while it waits ends its connection.
"""
import re
from collections import deque, namedtuple

from commands import command_of, first_tag
from mailboxes import LIMIT, LOST, MISSING, NOT_NOW, Moved, Unreached
from sessions import Reply, Session, levels_above, printed_reply
from table import Record, server_of

GREETING = b'* OK [CAPABILITY IMAP4rev2 AUTH=PLAIN] murder ready\r\n'
LOST_BYE = b'* BYE [UNAVAILABLE] server lost\r\n'
LINE_LIMIT, MESSAGE_LIMIT, LITERALS_LIMIT, PLUS_LIMIT = 8_192, 1_048_576, 1_056_768, 4_096


class Frames:
    """The bytes of one connection, cut into frames: ('whole', bytes), ('wait',), ('big', bytes), ('bye', text)."""

    def __init__(self):
        self.rest, self.ended = bytearray(), False
        self.new()

    def new(self):
        self.frame, self.text, self.literals, self.wanted = b'', 0, 0, 0

    def feed(self, data):
        self.rest += data
        frames = []
        while not self.ended:
            if self.wanted > len(self.rest):
                break
            if self.wanted:
                self.frame += bytes(self.rest[:self.wanted])
                del self.rest[:self.wanted]
                self.wanted = 0
            end = self.rest.find(b'\r\n')
            length = end if end >= 0 else len(self.rest) - self.rest.endswith(b'\r')
            if self.text + length > LINE_LIMIT:
                frames.append(('bye', b'line too long'))
                self.ended = True
            elif end < 0:
                break
            else:
                self.line(bytes(self.rest[:end]), frames)
        return frames

    def line(self, line, frames):
        del self.rest[:len(line) + 2]
        self.text += len(line)
        self.frame += line + b'\r\n'
        literal = re.search(rb'\{(\d+)(\+?)\}\Z', line)
        if not literal:
            frames.append(('whole', self.frame))
            return self.new()
        size, plus = int(literal[1]), literal[2]
        if plus and (size > PLUS_LIMIT or self.literals + size > LITERALS_LIMIT):
            frames.append(('bye', b'literal too long'))
            self.ended = True
        elif size > MESSAGE_LIMIT or self.literals + size > LITERALS_LIMIT:
            frames.append(('big', self.frame))
            self.new()
        else:
            self.literals += size
            self.wanted = size
            if not plus:
                frames.append(('wait',))


class Connection:
    """A client's: its session, the frames that wait, and what it was given."""

    def __init__(self, setting):
        self.session, self.frames, self.waiting, self.given = Session(setting), Frames(), deque(), [GREETING]
        self.held, self.asked, self.answered, self.over = None, None, 0, False

    def next_request(self):
        """The next whole request: its tag, and its command, or the reply to it. None where there is none, or the connection has ended."""
        while self.waiting and not self.over:
            kind, *frame = self.waiting.popleft()
            if kind == 'wait':
                self.given.append(b'+ ready\r\n')
            elif kind == 'bye':
                self.given.append(b'* BYE ' + frame[0] + b'\r\n')
                self.over = True
            else:
                request = self.request(kind, frame[0])
                if request:
                    return request

    def request(self, kind, frame):
        """The request that a frame is, or ends; none where its command waits for a line more."""
        if self.held:
            (tag, word, asks), self.held = self.held, None
            return tag, word, asks | {'line': frame[:-2]}
        if kind == 'big':
            return first_tag(frame) or b'*', Reply(LIMIT), None
        tag, word, asks = command_of(frame)
        continuation = self.session.waits_for_line(word, asks)
        if not continuation:
            return tag, word, asks
        self.given.append(continuation)
        self.held = tag, word, asks

    def need(self, word, asks):
        """The reply to a request, or what it asks for."""
        return word if isinstance(word, Reply) else self.session.begin(word, asks)

    def reply(self, tag, reply):
        self.given.append(printed_reply(tag, reply))
        self.answered += 1
        self.over = self.over or reply.ends

    def lose(self):
        """Whether its command was carried out can't be known."""
        self.given.append(LOST_BYE)
        self.over = True


# A command that waits: its tag, what it asks for, and of whom: of a backend, or of the master and why.
Waits = namedtuple('Waits', 'tag ask home barrier')


class Frontend:
    def __init__(self, world, name, setting):
        self.world, self.name, self.setting = world, name, setting
        self.master, self.first = world.first('master'), world.first('backend')
        self.connections, self.replica, self.ups = {}, {}, set()
        self.asks = []  # what the step asks of backends

    def opened(self, conn):
        """What the client of a connection is given stands in this list."""
        self.connections[conn] = Connection(self.setting)
        return self.connections[conn].given

    def piece(self, conn, data):
        connection = self.connections[conn]
        if not connection.over:
            connection.waiting.extend(connection.frames.feed(data))
            self.work(conn, connection)
            self.send_asks()

    def hung(self, conn):
        self.connections[conn].over = True

    def work(self, conn, connection):
        """Takes up what came, up to a command that waits."""
        while not connection.asked:
            request = connection.next_request()
            if not request:
                return
            tag, *command = request
            need = connection.need(*command)
            if isinstance(need, Reply):
                self.told(conn, connection, tag, need, 'here')
            else:
                self.goes_on(conn, connection, tag, need, *self.first_way(need))

    def told(self, conn, connection, tag, reply, how):
        connection.asked = None
        connection.reply(tag, reply)
        self.world.mark(conn, connection.answered, how)

    # Whom it asks: ways are ('home', server), ('barrier', why), ('done', outcome), ('reserved', None), ('unreached', node) and ('lost', None).

    def first_way(self, ask):
        if ask.word == b'LIST':
            return 'barrier', 'list'
        if ask.word == b'CREATE':
            return 'home', self.home_for(ask.name)
        record = self.replica.get(ask.name)
        return ('home', server_of(record.place)) if record else ('barrier', 'missing')

    def home_for(self, name):
        """The backend of a new mailbox: that of the nearest name above which has a record, else the first one."""
        places = [self.replica[level].place for level in levels_above(name) if level in self.replica]
        return server_of(places[-1]) if places else self.first

    def way_behind_ok(self, ask, why):
        if why == 'list':
            return 'done', [name for name, record in self.replica.items() if record.acl is not None]
        record = self.replica.get(ask.name)
        if record is None:
            return ('home', self.home_for(ask.name)) if ask.word == b'CREATE' else ('done', MISSING)
        if why == 'not now' and not record.is_active:
            return 'reserved', None
        return 'home', server_of(record.place)

    @staticmethod
    def way_behind(outcome):
        if isinstance(outcome, Moved):
            return 'home', outcome.server
        if isinstance(outcome, Unreached):
            return 'unreached', outcome.node
        return ('barrier', 'not now') if outcome == NOT_NOW else ('lost', None) if outcome == LOST else ('done', outcome)

    def goes_on(self, conn, connection, tag, ask, way, what):
        """One way on; where the link that it needs is down, the command is refused."""
        needed = {'home': what, 'barrier': self.master}.get(way)
        if needed and needed not in self.ups:
            way, what = 'unreached', needed
        session = connection.session
        if way == 'home':
            connection.asked = Waits(tag, ask, what, None)
            self.asks.append((what, conn, connection.answered + 1, ask))
        elif way == 'barrier':
            connection.asked = Waits(tag, ask, None, what)
            self.world.send(self.name, self.master, ('command', b'%d-%d' % (conn, connection.answered + 1), b'NOOP'))
        elif way == 'lost':
            connection.lose()
            self.world.cut_off(conn)
        elif way == 'done':
            self.told(conn, connection, tag, session.finish(tag, ask, what), 'behind')
        else:
            how = way if way == 'reserved' else 'unreached ' + what
            self.told(conn, connection, tag, session.relocated(ask, way), how)

    def send_asks(self):
        """The asks of one step go in the order of their names."""
        for server, conn, number, ask in sorted(self.asks, key=lambda it: (it[3].name, *it[1:3])):
            self.world.send(self.name, server, ('ask', conn, number, ask))
        self.asks = []

    # What comes on links.

    def take(self, sender, kind, *message):
        if kind == 'up':
            self.comes_up(sender)
        elif kind == 'end':
            self.goes_down(sender)
        elif kind == 'answer':
            self.answered(sender, *message)
        elif kind == 'response' and message[0] == b'u':
            self.heard(*message[1:])
        elif kind == 'response':
            self.barrier_over(*map(int, message[0].split(b'-')))
        self.send_asks()

    def comes_up(self, node):
        self.ups.add(node)
        if node == self.master:
            self.replica = {}
            self.world.send(self.name, self.master, ('command', b'u', b'UPDATE'))

    def goes_down(self, node):
        """Each command that waits for something from the node, in the order of connections, is refused or lost; its connection then goes on."""
        self.ups.discard(node)
        for conn in sorted(self.connections):
            waits = self.connections[conn].asked
            if waits and (waits.home or self.master) == node:
                self.waits_on(conn, self.connections[conn], 'lost' if waits.home else 'unreached', node)

    def waits_on(self, conn, connection, way, what):
        """A command that waited goes on, and then what came behind it."""
        if not connection.over:
            self.goes_on(conn, connection, connection.asked.tag, connection.asked.ask, way, what)
            self.work(conn, connection)

    def waiting(self, conn, number):
        """The connection whose command of this number waits, and how it does."""
        connection = self.connections.get(conn)
        is_it = connection and not connection.over and connection.answered + 1 == number and connection.asked
        return (connection, connection.asked) if is_it else (None, None)

    def answered(self, sender, conn, number, outcome):
        connection, waits = self.waiting(conn, number)
        if waits and waits.home == sender:
            self.waits_on(conn, connection, *self.way_behind(outcome))

    def barrier_over(self, conn, number):
        connection, waits = self.waiting(conn, number)
        if waits and waits.barrier:
            self.waits_on(conn, connection, *self.way_behind_ok(waits.ask, waits.barrier))

    def heard(self, word, name=None, place=None, acl=None):
        """A line of the master's table. A name that is reserved keeps the access list that it had."""
        if word == b'MAILBOX':
            self.replica[name] = Record(place, acl, True)
        elif word == b'RESERVE':
            old = self.replica.get(name)
            self.replica[name] = Record(place, old.acl if old else None, False)
        elif word == b'DELETE':
            del self.replica[name]
