"""Whether a run's clients were given the replies of one store that takes the printed history's commands one at a time:

    wrongs(cluster, schedule)     what is wrong with a run, as texts

The store is a map from names to mailboxes, and knows no link, table or phase: only the commands that the schedule's bytes spell, and the points. A session of
sessions.py replies for it, as it does at a frontend. Besides it is shown that each point stands in time, that a UIDVALIDITY is new, that a refusal has its
cause: a name that was reserved then, or a node that wasn't reached; that the store is what the disks of the table's homes have in the end; and that each
replica is the table where no message is on a link. A connection whose frontend crashed ends silently, one whose backend was lost with a BYE.
"""
import re

from entries import Gone, Reserved
from frontend import LOST_BYE, Connection
from history import history, is_told
from mailboxes import CREATED, EXISTS, LIMIT, MAILBOX_LIMIT, MISSING, Box, served
from model import events_of, unspelled
from rules import arguments_of
from sessions import Reply
from table import Table, server_of

DELETED = b'OK DELETE completed'
APPENDED = re.compile(rb'OK \[APPENDUID (\d+) (\d+)\] APPEND completed\r\n')


class Wrong(Exception):
    pass


class Store:
    def __init__(self, date):
        self.date, self.boxes, self.given = date, {}, {}
        self.gone = set()  # UIDVALIDITY and UID of each message that a command took away

    def make(self, name, serial):
        if name in self.boxes:
            return EXISTS
        if len(self.boxes) >= MAILBOX_LIMIT:
            return LIMIT
        if not serial or serial in self.given.values() or serial <= self.given.get(name, 0):
            raise Wrong('UIDVALIDITY %s isn\'t new' % serial)
        self.given[name] = serial
        self.boxes[name] = Box(serial, 'open')
        return CREATED

    def act(self, ask, serial):
        """What comes of an ask; a new mailbox has this UIDVALIDITY."""
        if ask.word == b'LIST':
            return list(self.boxes)
        if ask.word == b'CREATE':
            return self.make(ask.name, serial)
        if ask.name not in self.boxes:
            return MISSING
        box = self.boxes[ask.name]
        if ask.word == b'DELETE':
            del self.boxes[ask.name]
            self.gone |= {(box.serial, uid) for uid in box.messages}
            return DELETED
        outcome, entry = served(box, ask, self.date)
        if type(entry) is Gone:
            self.gone |= {(box.serial, uid) for uid in entry.uids}
        return outcome


class Client:
    """A connection at a frontend, which hears it or is down: all frames of its client's bytes, and the step in which each came."""

    def __init__(self, front, setting, is_heard):
        self.front, self.connection, self.came, self.is_heard = front, Connection(setting), [], is_heard
        if not is_heard:
            self.connection.given.clear()

    def hears(self, step, text):
        if self.is_heard:
            frames = self.connection.frames.feed(text)
            self.connection.waiting.extend(frames)
            self.came += [step] * len(frames)

    def came_at(self):
        """The step in which the last frame came that was taken."""
        return self.came[-len(self.connection.waiting) - 1]


def clients_of(cluster, schedule):
    """The clients by connection. One that hangs up, or whose frontend crashes, is heard no more."""
    clients, down = {}, set()
    for line, step in zip(events_of(schedule), cluster.line_ends, strict=True):
        word, arguments = arguments_of(line)
        first, *rest = arguments or [None]
        if word == b'open' and cluster.kinds[first] == 'frontend':
            clients[rest[0]] = Client(first, cluster.setting, first not in down)
        elif word == b'data' and first in clients:
            clients[first].hears(step, unspelled(rest[0]))
        elif word == b'hang' and first in clients:
            clients[first].is_heard = False
        elif word == b'crash':
            down.add(first)
            for client in clients.values():
                client.is_heard = client.is_heard and client.front != first
        elif word == b'start':
            down.discard(first)
    return clients


class Records:
    """What the master's disk has of names at each step."""

    def __init__(self, disk):
        self.rows, table = {}, Table()
        for step, entry in zip(disk.steps, disk.entries(), strict=True):
            table.take(entry)
            self.rows.setdefault(entry.name, []).append((step, entry, table.records.get(entry.name)))

    def serial(self, name, step):
        """The UIDVALIDITY that a name was reserved with last before a step, or 0."""
        return max((entry.serial for at, entry, _ in self.rows.get(name, []) if type(entry) is Reserved and at < step), default=0)

    def is_reserved(self, name, step):
        """Whether a name is reserved behind a step."""
        records = [record for at, _, record in self.rows.get(name, []) if at <= step]
        return bool(records and records[-1] and not records[-1].is_active)


def mailboxes(cluster):
    """What the disks of the homes have of the mailboxes of the table."""
    held = {backend: cluster.boxes(backend) for backend in cluster.names_of('backend')}
    return {name: held[server_of(record.place)].get(name) for name, record in cluster.table().records.items() if record.acl is not None}


class Course:
    """The points of a run, taken one after the other."""

    def __init__(self, cluster, schedule):
        self.cluster, self.store = cluster, Store(cluster.setting.date)
        self.records = Records(cluster.disks[cluster.first('master')])
        self.clients = clients_of(cluster, schedule)
        self.told_at = {(mark.conn, mark.number): mark.step for mark in cluster.marks if is_told(mark.kind)}
        self.lost = set()

    def begun_at(self, conn, number):
        """The step in which a command was taken."""
        return max(self.clients[conn].came_at(), self.told_at.get((conn, number - 1), 0))

    def was_unreached(self, conn, number, node, last):
        return self.cluster.reach.was_unreached(self.clients[conn].front, conn, number, node, self.begun_at(conn, number), last)

    def take(self, point):
        step, conn, number, what = point
        client = self.clients[conn].connection
        if number != client.answered + 1 or conn in self.lost:
            raise Wrong('not the next command')
        request = client.next_request()
        if not request:
            raise Wrong('no command')
        if not self.clients[conn].came_at() <= step <= self.told_at.get((conn, number), step):
            raise Wrong('not in time')
        tag, *command = request
        need = client.need(*command)
        if what == 'lost':
            self.lost.add(conn)
            if isinstance(need, Reply) or (conn, number) in self.told_at:
                raise Wrong('lost, and needs no mailbox or was told')
            self.act(need, step)
        elif what == 'reply':
            client.reply(tag, need if isinstance(need, Reply) else client.session.finish(tag, need, self.act(need, step)))
        else:
            _, why, *node = what.split(' ')
            if isinstance(need, Reply) or not (self.was_unreached(conn, number, *node, step) if node else self.records.is_reserved(need.name, step)):
                raise Wrong('refused without a cause')
            client.reply(tag, client.session.relocated(need, why))

    def act(self, ask, step):
        return self.store.act(ask, self.records.serial(ask.name, step))

    def told_otherwise(self, conn, client):
        """What is wrong with what a client was told, behind the last point."""
        given = b''.join(self.cluster.given[conn])
        request = None if conn in self.lost else client.connection.next_request()
        if request and client.is_heard and isinstance(client.connection.need(*request[1:]), Reply):
            yield 'client %d isn\'t answered' % conn
        wanted, over_at = b''.join(client.connection.given), self.cluster.over_at.get(conn)
        if over_at:
            wanted += LOST_BYE
            nodes = self.cluster.kinds if request or conn in self.lost else ()
            if not any(self.was_unreached(conn, client.connection.answered + 1, node, over_at) for node in nodes):
                yield 'client %d is cut off without a cause' % conn
        if given != wanted:
            yield 'client %d is given other bytes: %r, wanted %r' % (conn, given[-300:], wanted[-300:])

    def differing(self):
        """Behind the last point: which clients were given other bytes, and which mailboxes are others."""
        for conn, client in sorted(self.clients.items()):
            yield from self.told_otherwise(conn, client)
        homes = mailboxes(self.cluster)
        if sorted(homes) != sorted(self.store.boxes):
            yield 'mailboxes are %r, wanted %r' % (sorted(homes), sorted(self.store.boxes))
        for name in homes.keys() & self.store.boxes.keys():
            box, wanted = homes[name], self.store.boxes[name]
            if not box or (box.serial, box.next, box.messages) != (wanted.serial, wanted.next, wanted.messages):
                yield 'mailbox %r is another one' % name
        kept = {(box.serial, uid) for box in homes.values() if box for uid in box.messages} | self.store.gone
        for conn in self.clients:
            for serial, uid in APPENDED.findall(b''.join(self.cluster.given[conn])):
                if (int(serial), int(uid)) not in kept:
                    yield 'message %s of %s, which was appended for client %d, isn\'t there' % (uid, serial, conn)


def at_rest(cluster):
    """What is wrong where no message is on a link."""
    records = cluster.table().records
    for frontend in cluster.of_kind('frontend'):
        if frontend.master in frontend.ups and frontend.replica != records:
            yield 'a replica isn\'t the table'


def wrongs(cluster, schedule):
    course = Course(cluster, schedule)
    last = 0
    for point in history(cluster.marks):
        try:
            if point.step < last:
                raise Wrong('steps fall')
            course.take(point)
        except Wrong as why:
            return ['point %d %d.%d %s: %s' % (*point, why)]
        last = point.step
    return list(course.differing()) + ([] if any(cluster.links.queues.values()) else list(at_rest(cluster)))
