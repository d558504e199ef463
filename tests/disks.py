"""The disk of a node: a journal of entries, and the crash for which the node is armed. What its bytes are is journal.py's; an entry's are Python's own."""
import pickle
from collections import namedtuple

from journal import Disk, Journal, entries_of, journal_of

APPEND_CALLS = 4  # the device calls of an append
# A crash that waits for a step with so many device calls: which one it stops, what it leaves of the disk, and how many messages of each link.
Arm = namedtuple('Arm', 'call choice kept')


class NodeDisk:
    """The journal of a node, and the step of each entry."""

    def __init__(self):
        self.steps, self.armed = [], None
        self.holds(journal_of([]))

    def holds(self, image):
        self.disk = Disk(image)
        self.journal = Journal(self.disk)

    def write(self, step, entry):
        """Appends the entry of a step. Where a crash stops the step in it or behind it, gives that crash."""
        arm = self.armed if self.armed and self.armed.call <= APPEND_CALLS else None
        self.disk.left = arm.call if arm else None
        self.journal.append([pickle.dumps(entry)])
        self.steps.append(step)
        return arm

    def crash(self, choice):
        """The image of this choice is left."""
        self.holds(self.disk.crashed(choice))
        self.armed = None
        del self.steps[len(entries_of(self.disk.seen)[0]):]

    def entries(self):
        return [pickle.loads(entry) for entry in entries_of(self.disk.seen)[0]]
