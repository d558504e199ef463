"""Links that break and nodes that crash, for random schedules. Breaks(dice, frontends, backends) gives lines of cuts, joins and heals of the links of frontends
with the first backend most of all, and with the master; now and then of one of the master with a backend, by which the program changes nothing. Faults(..)
gives also those of the latter as often, and crashes and what mends them, at the first backend and the master most of all; both give the lines behind which
all is mended. narrow(dice, config) gives schedules about one name or two, in which a message comes only where one is on its way, so that rare orders of the
master's lines come often.
"""
import json

from cluster import Cluster
from model import spelled, take


class Breaks:
    CHANCE = 12  # of a hundred turns

    def __init__(self, dice, frontends, backends):
        self.dice, self.fronts, self.backs = dice, frontends, backends

    def one(self, *some):
        return self.dice.choice(some)

    def links(self):
        """Links, of which one is taken."""
        front, back = self.one(*self.fronts), self.one(self.backs[0], self.backs[0], *self.backs)
        return [(front, self.backs[0])] * 4 + [(front, back)] * 4 + [('m', front)] * 4 + [('m', back)] + self.between_backends()

    def between_backends(self):
        others = [(a, b) for a in self.backs for b in self.backs if a != b]
        return [self.one(*others)] if others else []

    def link(self):
        """The two ends of a link, in either order."""
        ends = self.one(*self.links())
        return self.one(ends, ends[::-1])

    def kept(self):
        return self.one(0, 0, 0, 1, 1, 2, 3, 2**64 - 1)

    def cut(self):
        return 'cut %s %s %d %d' % (*self.link(), self.kept(), self.kept())

    def joins(self):
        return self.one(['heal'], ['flow 40', 'heal'], ['flow 40', 'heal'], ['join %s %s' % self.link()])

    def lines(self):
        """A link breaks, or comes up if it may."""
        return self.joins() if self.dice.randrange(100) < 45 else [self.cut(), *self.one([], [], ['flow 2'], ['flow 40', 'heal'])]

    def mends(self):
        return ['flow 2000', 'heal', 'flow 2000']


class Faults(Breaks):
    CHANCE = 15

    def __init__(self, dice, frontends, backends):
        super().__init__(dice, frontends, backends)
        self.down = []

    def links(self):
        front, back = self.one(*self.fronts), self.one(self.backs[0], self.backs[0], *self.backs)
        return [('m', back), ('m', back), ('m', front), (front, back), (front, back), *(self.between_backends() or [('m', back)])]

    def choice(self):
        return self.one(0, 1, 2, 3, 0, 1, self.dice.randrange(2**64))

    def node(self):
        return self.one(self.backs[0], self.backs[0], 'm', 'm', self.one(*self.backs), self.one(*self.fronts))

    def crash(self):
        node = self.node()
        self.down.append(node)
        return 'crash %s %d %d' % (node, self.choice(), self.kept())

    def arm(self):
        node = self.node()
        self.down.append(node)
        return 'arm %s %d %d %d' % (node, self.one(0, 1, 2, 2, 3, 3, 4, 4, 5), self.choice(), self.kept())

    def start(self):
        return 'start %s' % self.down.pop(self.dice.randrange(len(self.down)))

    def lines(self):
        """A fault, or what mends one."""
        kind = self.dice.randrange(100)
        if self.down and kind < 40:
            return [self.start(), *self.one([], ['flow 40', 'heal'])]
        if kind < 60:
            return [self.cut(), *self.one([], ['flow 40', 'heal'])]
        if kind < 85:
            return self.joins()
        return [self.crash() if kind < 92 else self.arm()]

    def mends(self):
        """A crash inside a call that no step makes takes the place of the one for which a node is armed."""
        nodes = ['m', *self.fronts, *self.backs]
        return [*['arm %s 9 0 0' % node for node in nodes], 'flow 300', *['start ' + node for node in nodes], 'flow 300', 'heal', 'flow 2000']


COMMANDS = ['CREATE %s', 'DELETE %s', 'APPEND %s {2+}\r\nhi', 'APPEND %s {2+}\r\nhi', 'APPEND %s (\\Deleted) {2+}\r\nho', 'STATUS %s (MESSAGES UIDVALIDITY)',
            'SELECT %s', 'SELECT %s', 'NOOP', 'STORE 1 +FLAGS (\\Seen)', 'EXPUNGE', 'LIST "" *']


class Narrow:
    """Makes a schedule beside the run of its lines."""

    def __init__(self, dice, config):
        self.dice, self.cluster, self.lines, self.number = dice, Cluster(json.loads(config), has_faults=True), [], 0
        self.names = ['box', 'user.bob'][:dice.choice([1, 1, 1, 2])]
        fronts, backs = (self.cluster.names_of(kind) for kind in ('frontend', 'backend'))
        self.fronts, self.faults = fronts, Faults(dice, fronts, backs)

    def add(self, *lines):
        for line in lines:
            self.lines.append(line)
            take(self.cluster, line.encode())

    def comes(self, count):
        """Messages come on links that have some, most of them between the master and the first backend."""
        for _ in range(count):
            ready = [pair for pair in self.cluster.pairs if self.cluster.links.queues[pair]]
            of_names = [pair for pair in ready if set(pair) == {'m', self.faults.backs[0]}]
            if ready:
                self.add('deliver %s %s' % self.dice.choice(ready + of_names * 2))

    def says(self):
        """A client's command; a new client where none can be heard."""
        heard = [conn for conn in self.cluster.given if self.cluster.node_of(conn) and conn not in self.cluster.over_at]
        if len(heard) < 2 or self.dice.randrange(12) == 0:
            conn = len(self.cluster.given) + 1
            self.add('open %s %d' % (self.dice.choice(self.fronts), conn), 'data %d a LOGIN adm x\\r\\n' % conn)
            heard.append(conn)
        self.number += 1
        name = self.dice.choice(self.names)
        command = self.dice.choice([*COMMANDS, *['DELETE %s' if name.encode() in self.cluster.table().records else 'CREATE %s'] * 12])
        text = 't%d %s\r\n' % (self.number, command.replace('%s', name))
        self.add('data %d %s' % (self.dice.choice(heard), spelled(text.encode())))

    def breaks(self):
        """The link of the master with the first backend breaks, often where lines were taken whose answers are lost."""
        back = self.faults.backs[0]
        for _ in range(self.dice.choice([0, len(self.cluster.links.queues[back, 'm'])])):
            self.add('deliver %s m' % back)
        self.add('cut m %s %d %d' % (back, self.faults.kept(), self.faults.kept()), 'flow 3', *self.dice.choice([['heal'], ['heal'], ['heal'], []]))

    def schedule(self):
        self.add('flow %d' % self.dice.choice([0, 1, 1000]))
        for _ in range(self.dice.choice([20, 40, 80])):
            kind = self.dice.randrange(100)
            if kind < 30:
                self.says()
            elif kind < 84:
                self.comes(self.dice.choice([1, 2, 3, 4]))
            elif kind < 96:
                self.breaks()
            else:
                self.add(*self.faults.lines())
        self.add(*self.dice.choice([[], self.faults.mends(), self.faults.mends()]))
        return ('\n'.join(self.lines) + '\n').encode()


def narrow(dice, config):
    return Narrow(dice, config).schedule()
