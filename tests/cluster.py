"""A cluster and what events make of it: the nodes that run, the disks of the master and the backends, and the messages on the links between them.

A step is one node's. What the node lets out goes on its way behind the entry that it writes, if it writes one. A step that a crash stops inside a call of
its disk lets out nothing, and says what it says of commands exactly where its entry is on the disk.
"""
from backend import Backend
from disks import Arm, NodeDisk
from frontend import Frontend
from history import Mark
from links import UP, Links
from mailboxes import Boxes
from mupdate import Master
from reach import Reach
from sessions import Setting
from table import Table


class Step:
    """What a node lets out in a step: an entry, messages, bytes for clients, and what it says of commands."""

    def __init__(self):
        self.entry, self.sends, self.gives, self.marks = None, [], [], []


class Cluster:
    """Steps are counted, what they say of commands is noted. `watch` is called behind each step. Without faults, as in the program, the links of the master
    with backends don't break: a cut of one is a step that changes nothing. Where names of closed mailboxes may be made again, a rule of backends is left
    out."""

    def __init__(self, config, watch=None, has_faults=False, makes_closed_names=False):
        self.config = {node['name']: node for node in config['nodes']}
        self.kinds = {name: node['kind'] for name, node in self.config.items()}
        self.pairs = [(a, b) for a in self.kinds for b in self.kinds if a != b and self.linked(a, b)]
        self.setting, self.watch, self.has_faults, self.makes_closed_names = Setting(config), watch, has_faults, makes_closed_names
        self.links, self.reach = Links(self.pairs), Reach(self.pairs)
        self.disks = {name: NodeDisk() for name, kind in self.kinds.items() if kind != 'frontend'}
        self.nodes, self.homes, self.given, self.over_at = {}, {}, {}, {}
        self.marks, self.steps, self.step, self.line_ends = [], 0, None, []
        for name in self.kinds:
            self.nodes[name] = self.made(name)
        for a, b in self.pairs:
            self.step_of(b, a, *UP)

    def first(self, kind):
        return next(name for name in self.kinds if self.kinds[name] == kind)

    def linked(self, a, b):
        kinds = {self.kinds[a], self.kinds[b]}
        return kinds != {'frontend'} and kinds != {'master'}

    def names_of(self, kind):
        return [name for name in self.kinds if self.kinds[name] == kind]

    def of_kind(self, kind):
        """The nodes of this kind that run."""
        return [self.nodes[name] for name in self.names_of(kind) if name in self.nodes]

    def made(self, name):
        """A node as it starts from its disk."""
        kind = self.kinds[name]
        if kind == 'frontend':
            return Frontend(self, name, self.setting)
        entries = self.disks[name].entries()
        if kind == 'master':
            return Master(self, name, self.names_of('backend'), entries)
        return Backend(self, name, self.config[name]['partition'], self.setting.date, entries)

    # What is on the disks.

    def table(self):
        return Table(self.disks[self.first('master')].entries())

    def boxes(self, backend):
        return Boxes(self.disks[backend].entries())

    # What a node lets out.

    def write(self, entry):
        assert self.step.entry is None
        self.step.entry = entry

    def send(self, a, b, message):
        self.step.sends.append((a, b, message))

    def give(self, conn, text):
        self.step.gives.append((conn, text))

    def mark(self, conn, number, kind):
        self.step.marks.append(Mark(self.steps, conn, number, kind))

    def cut_off(self, conn):
        """A client is told that its connection ends, since its command may be carried out or not."""
        self.over_at[conn] = self.steps

    # A step of a node.

    def step_of(self, name, *message):
        self.works(name, lambda: self.nodes[name].take(*message))

    def works(self, name, act):
        self.step = step = Step()
        act()
        disk = self.disks.get(name)
        arm = disk.write(self.steps, step.entry) if step.entry else None
        if arm:
            self.falls(name, arm.choice, arm.kept)
        else:
            for send in step.sends:
                self.links.send(*send)
            for conn, text in step.gives:
                self.given[conn].append(text)
        if not arm or self.steps in disk.steps[-1:]:
            self.marks += step.marks

    def falls(self, name, choice, kept):
        """A crash: a node is gone, with its connections, and so is what goes to it."""
        del self.nodes[name]
        self.links.crash(name, kept)
        if name in self.disks:
            self.disks[name].crash(choice)

    def ends(self):
        if self.watch:
            self.watch(self)

    # Events.

    def open(self, node, conn):
        self.steps += 1
        self.homes[conn], self.given[conn] = self.nodes.get(node), []
        if node in self.nodes:
            self.given[conn] = self.nodes[node].opened(conn)
        self.ends()

    def node_of(self, conn):
        """The node of a connection, unless it has crashed since; it may run again without it."""
        node = self.homes[conn]
        return node if node and self.nodes.get(node.name) is node else None

    def data(self, conn, text):
        self.steps += 1
        node = self.node_of(conn)
        if node:
            self.works(node.name, lambda: node.piece(conn, text))
        self.ends()

    def hang(self, conn):
        self.steps += 1
        if self.node_of(conn):
            self.node_of(conn).hung(conn)
        self.ends()

    def deliver(self, a, b):
        self.steps += 1
        message = self.links.take(a, b)
        if message:
            self.reach.note(self.steps, a, b, message)
            self.step_of(b, a, *message)
        self.ends()

    def flow(self, count):
        while count:
            before = count
            for a, b in self.pairs:
                if count and self.links.queues[a, b]:
                    self.deliver(a, b)
                    count -= 1
            if count == before:
                break

    def may_cut(self, a, b):
        return self.has_faults or {self.kinds[a], self.kinds[b]} != {'master', 'backend'}

    def cut(self, a, b, kept, kept_back):
        self.steps += 1
        if self.may_cut(a, b):
            self.links.cut(a, b, kept, kept_back)
        self.ends()

    def may_join(self, a, b):
        return a in self.nodes and b in self.nodes and self.links.may_join(a, b)

    def join(self, a, b):
        self.steps += 1
        if self.may_join(a, b):
            self.links.join(a, b)
        self.ends()

    def heal(self):
        """Joins what may be joined, each a step."""
        places = list(self.kinds)
        for a, b in self.pairs:
            if places.index(a) < places.index(b) and self.may_join(a, b):
                self.join(a, b)

    def crash(self, name, choice, kept):
        self.steps += 1
        if name in self.nodes:
            self.falls(name, choice, kept)
        self.ends()

    def arm(self, name, call, choice, kept):
        self.steps += 1
        if name in self.nodes and name in self.disks:
            self.disks[name].armed = Arm(call, choice, kept)
        self.ends()

    def start(self, name):
        self.steps += 1
        if name not in self.nodes:
            self.nodes[name] = self.made(name)
            self.reach.starts(self.steps, name)
        self.ends()
