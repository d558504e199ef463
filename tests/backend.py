"""A backend: the mailboxes at it, and how they are made and deleted, by flows of lines to the master (RFC 3656, 4): RESERVE, ACTIVATE; DEACTIVATE, DELETE.

When its link with the master comes up it asks which records name it, by LIST, and brings its mailboxes and these records together: a resync. What is
asked of names meanwhile waits for its end.
"""
from collections import deque, namedtuple

from entries import Closing, Forget, Make, Opened, Pointer
from mailboxes import CREATED, EXISTS, LIMIT, LOST, NOT_NOW, Boxes, Moved, Unreached, served
from table import server_of

DELETED = b'OK DELETE completed'
# Who asks that a name be made or deleted; the line that such a flow waits for; and a line whose last answer hasn't come.
Asked = namedtuple('Asked', 'front conn number name word')
Flow = namedtuple('Flow', 'asked line')
Line = namedtuple('Line', 'tag word name')
# A resync: the names that were listed so far, and what waits for its end.
Resync = namedtuple('Resync', 'listed waiting')
RESYNC_LINE, FIND_LINE = b'r0', b'r2'  # the tags of lines that are sent for no client's command


def first_acl(name):
    """`user.NAME` and what is below it belong to NAME (RFC 4314, 2.1)."""
    return name.split(b'.')[1] + b'\tlrswipkxtea\t' if name.startswith(b'user.') else b''


class Backend:
    def __init__(self, world, name, partition, date, entries):
        self.world, self.name, self.place, self.date = world, name, ('%s!%s' % (name, partition)).encode(), date
        self.master, self.is_up, self.boxes = world.first('master'), False, Boxes(entries)
        self.clear()

    def clear(self):
        """Nothing is under way with the master."""
        self.flows, self.lines, self.resync, self.is_found = {}, deque(), None, False

    def write(self, entry):
        self.boxes.take(entry)
        self.world.write(entry)

    def say(self, tag, word, name, *more):
        self.lines.append(Line(tag, word, name))
        self.world.send(self.name, self.master, ('command', tag, word, *([name] if name else []), *more))

    def answer(self, front, conn, number, outcome):
        self.world.send(self.name, front, ('answer', conn, number, outcome))

    def answer_all(self, answers):
        """Answers of one step go by connection and command."""
        for asked, outcome in sorted(answers, key=lambda it: it[0][:3]):
            self.answer(*asked[:3], outcome)

    def take(self, sender, kind, *message):
        if kind in ('up', 'end') and sender == self.master:
            self.comes_up() if kind == 'up' else self.goes_down()
        elif kind == 'response':
            self.heard(*message)
        elif kind == 'ask':
            conn, number, ask = message
            if ask.word in (b'CREATE', b'DELETE'):
                self.takes_up(Asked(sender, conn, number, ask.name, ask.word))
            else:
                self.serve(sender, conn, number, ask)

    def serve(self, front, conn, number, ask):
        box, phase, outcome = self.boxes.get(ask.name), self.boxes.phase(ask.name), NOT_NOW
        if phase == 'pointer':
            outcome = Moved(box.server)
        elif phase == 'open':
            outcome, entry = served(box, ask, self.date)
            self.world.mark(conn, number, 'always')
            if entry:
                self.world.write(entry)
        self.answer(front, conn, number, outcome)

    # Flows.

    def takes_up(self, asked):
        if self.resync:
            self.resync.waiting.append(asked)
            return
        refusal = self.refusal(asked)
        if refusal:
            self.answer(*asked[:3], refusal)
        else:
            self.begins(asked)

    def refusal(self, asked, begun=()):
        """Why an ask is refused, the first cause that holds. What becomes of a mailbox that is closed isn't known, so its name isn't made again."""
        phase, has_flow = self.boxes.phase(asked.name), asked.name in self.flows or asked.name in begun
        if asked.word == b'DELETE' and phase == 'pointer':
            return Moved(self.boxes[asked.name].server)
        if has_flow or asked.word == b'DELETE' and phase != 'open':
            return NOT_NOW
        if not self.is_up:
            return Unreached(self.master)
        return NOT_NOW if asked.word == b'CREATE' and phase == 'closing' and not self.world.makes_closed_names else None

    def begins(self, asked):
        self.goes_on(asked, b'RESERVE' if asked.word == b'CREATE' else b'DEACTIVATE', self.place)

    def goes_on(self, asked, line, *more):
        self.flows[asked.name] = Flow(asked, line)
        self.say(b'%d-%d' % asked[1:3], line, asked.name, *more)

    def ends(self, name, outcome):
        self.answer(*self.flows.pop(name).asked[:3], outcome)

    # The link with the master.

    def comes_up(self):
        self.is_up, self.resync = True, Resync(set(), [])
        self.say(b'l', b'LIST', None, self.name.encode() + b'!')

    def goes_down(self):
        """Whether a line was taken behind which the command is carried out isn't known."""
        answers = [(flow.asked, LOST if flow.line in (b'ACTIVATE', b'DELETE') else Unreached(self.master)) for flow in self.flows.values()]
        answers += [(asked, Unreached(self.master)) for asked in (self.resync.waiting if self.resync else [])]
        self.is_up = False
        self.clear()
        self.answer_all(answers)

    # Answers of the master, each to the first of the lines whose last answer hasn't come.

    def heard(self, tag, answer, *told):
        line = self.lines[0]
        assert line.tag == tag, (self.lines, tag, answer, told)
        if answer in (b'MAILBOX', b'RESERVE'):
            self.record(line, told[0], told[1], answer == b'MAILBOX')
        else:
            self.lines.popleft()
            self.done(line, told[0]) if answer == b'OK' else self.refused(line, told[0])
            self.is_found = False

    def record(self, line, name, place, is_active):
        if line.word == b'LIST':
            self.listed(name, is_active)
        elif self.boxes.phase(name) == 'closing':
            self.write(Pointer(name, server_of(place)))
        self.is_found = True

    def listed(self, name, is_active):
        phase = self.boxes.phase(name)
        self.resync.listed.add(name)
        if is_active:
            if phase in ('creating', 'closing'):
                self.write(Opened(name))
        elif phase in ('open', 'closing'):
            self.say(RESYNC_LINE, b'ACTIVATE', name, self.place, first_acl(name))
        else:
            self.say(RESYNC_LINE, b'DELETE', name)

    def resync_ends(self):
        """What isn't listed is forgotten, or looked for where it is closed. What waited is tested in the order in which it came. Lines go in the order of
        their names, a FIND before another of its name."""
        listed, waiting = self.resync
        self.resync = None
        unlisted = [name for name in self.boxes if name not in listed]
        forgotten = sorted(name for name in unlisted if self.boxes.phase(name) == 'creating')
        if forgotten:
            self.write(Forget(forgotten))
        lost = {name for name in unlisted if self.boxes.phase(name) == 'closing'}
        begun, refused = self.tested(waiting)
        for name in sorted(lost.union(begun)):
            if name in lost:
                self.say(FIND_LINE, b'FIND', name)
            if name in begun:
                self.begins(begun[name])
        self.answer_all(refused)

    def tested(self, waiting):
        """Of these the flows that begin, by their names, and the answers to the others."""
        begun, refused = {}, []
        for asked in waiting:
            refusal = self.refusal(asked, begun)
            if refusal:
                refused.append((asked, refusal))
            else:
                begun[asked.name] = asked
        return begun, refused

    def done(self, line, told):
        word, name = line.word, line.name
        is_asked, phase = b'-' in line.tag, self.boxes.phase(name)
        if word == b'LIST':
            self.resync_ends()
        elif word == b'RESERVE':
            self.write(Make(name, int(told), first_acl(name)))
            self.goes_on(self.flows[name].asked, b'ACTIVATE', self.place, first_acl(name))
        elif word == b'DEACTIVATE':
            self.write(Closing(name))
            self.goes_on(self.flows[name].asked, b'DELETE')
        elif word == b'ACTIVATE' and (is_asked or phase == 'closing'):
            self.write(Opened(name))
        elif word == b'DELETE' and (is_asked or phase == 'creating') or word == b'FIND' and phase == 'closing' and not self.is_found:
            self.write(Forget([name]))
        if is_asked and word in (b'ACTIVATE', b'DELETE'):
            self.ends(name, CREATED if word == b'ACTIVATE' else DELETED)

    def refused(self, line, told):
        """A CREATE is refused; no other line is in a run."""
        if line.word == b'RESERVE':
            self.ends(line.name, EXISTS if told[:1] == b'1' else NOT_NOW)
        elif line.word == b'ACTIVATE' and b'-' in line.tag:
            self.write(Forget([line.name]))
            self.ends(line.name, LIMIT)
            self.say(RESYNC_LINE, b'DELETE', line.name)
