"""What holds of the disks behind each step of a run, also of those of nodes that are down: a name is open at one backend at most, where its record is; a
mailbox of the table is at the backend of its record; no record of a backend stays reserved where nothing is under way between it and the master; and no command
waits where no message is on a link.

A Watch is called behind each step, and keeps what is wrong in `wrongs`.
"""
from mailboxes import Boxes
from table import Table, server_of

# the phases that a name has at the backend of its record, by whether that is active
PHASES = {True: ('creating', 'open', 'closing'), False: ('open', 'closing')}
EVERY = 16  # so many steps apart what the nodes hold is compared with what their disks make


def contents(boxes):
    return {name: vars(box) for name, box in boxes.items()}


class Watch:
    def __init__(self):
        self.wrongs, self.kept = [], {}

    def __call__(self, cluster):
        found = [*self.wrong_homes(cluster), *self.wrong_records(cluster), *self.wrong_reserved(cluster), *self.wrong_waits(cluster)]
        if cluster.steps % EVERY == 0:
            found += self.wrong_nodes(cluster)
        self.wrongs += ['step %d: %s' % (cluster.steps, what) for what in found]

    # What a node's disk makes: that of a node which runs is what it holds.

    def made_of(self, cluster, name, kind):
        disk = cluster.disks[name]
        if self.kept.get(name, (None,))[0] is not disk.disk:
            self.kept[name] = disk.disk, kind(disk.entries())
        return self.kept[name][1]

    def boxes(self, cluster, name):
        return cluster.nodes[name].boxes if name in cluster.nodes else self.made_of(cluster, name, Boxes)

    def records(self, cluster):
        name = cluster.first('master')
        return (cluster.nodes[name].table if name in cluster.nodes else self.made_of(cluster, name, Table)).records

    @staticmethod
    def wrong_nodes(cluster):
        for backend in cluster.of_kind('backend'):
            if contents(backend.boxes) != contents(cluster.boxes(backend.name)):
                yield 'backend %s holds other mailboxes than its disk' % backend.name
        for master in cluster.of_kind('master'):
            if vars(master.table) != vars(cluster.table()):
                yield 'the master holds another table than its disk'

    # The laws.

    def wrong_homes(self, cluster):
        records, homes = self.records(cluster), {}
        for backend in cluster.names_of('backend'):
            boxes = self.boxes(cluster, backend)
            for name in boxes:
                if boxes.phase(name) == 'open':
                    homes.setdefault(name, []).append(backend)
        for name, backends in homes.items():
            record = records.get(name)
            if len(backends) > 1:
                yield 'mailbox %r is open at %s' % (name, backends)
            if not record or record.acl is None or server_of(record.place) not in backends:
                yield 'mailbox %r is open at %s, its record is %s' % (name, backends, record)

    def wrong_records(self, cluster):
        for name, record in self.records(cluster).items():
            phase = self.boxes(cluster, server_of(record.place)).phase(name)
            if record.acl is not None and phase not in PHASES[record.is_active]:
                yield 'mailbox %r is %s at the backend of its record %s' % (name, phase, record)

    def wrong_reserved(self, cluster):
        for backend in cluster.of_kind('backend'):
            links, master = cluster.links, backend.master
            is_quiet = links.is_whole(backend.name, master) and links.is_empty(backend.name, master) and not backend.flows and not backend.resync
            for name, record in self.records(cluster).items() if is_quiet else []:
                if not record.is_active and server_of(record.place) == backend.name:
                    yield 'name %r stays reserved' % name

    @staticmethod
    def wrong_waits(cluster):
        if not any(cluster.links.queues.values()):
            for frontend in cluster.of_kind('frontend'):
                yield from ('client %d waits for nothing' % conn for conn, client in frontend.connections.items() if client.asked and not client.over)


def unrecovered(cluster):
    """What is wrong where all nodes run, all links were joined, and messages flowed."""
    if cluster.links.broken or any(cluster.links.queues.values()):
        yield 'the links don\'t come to rest'
    for name, record in cluster.table().records.items():
        if not record.is_active:
            yield 'name %r is reserved' % name
    for backend in cluster.names_of('backend'):
        for name, box in cluster.boxes(backend).items():
            if box.phase != 'open':
                yield 'mailbox %r is %s at %s' % (name, box.phase, backend)
