"""The links between nodes: each is a queue in each direction, whole or broken. Nothing here knows what a message means, but for the two marks: UP stands
first on a link that has come up, END last on one that broke.
"""
from collections import deque

UP, END = ('up',), ('end',)


class Links:
    """What is on its way between these pairs of nodes, and which links are broken."""

    def __init__(self, pairs):
        self.queues, self.broken = {pair: deque() for pair in pairs}, set()

    def is_whole(self, a, b):
        return (a, b) not in self.broken

    def is_empty(self, a, b):
        return not self.queues[a, b] and not self.queues[b, a]

    def send(self, a, b, message):
        """What is sent on a broken link is lost."""
        if self.is_whole(a, b):
            self.queues[a, b].append(message)

    def take(self, a, b):
        """The first message from one to the other, if there is one."""
        return self.queues[a, b].popleft() if self.queues[a, b] else None

    def shorten(self, a, b, kept):
        """At most so many messages stay, and behind them the END of a link that breaks, or that of a broken one if it wasn't taken."""
        queue = self.queues[a, b]
        messages = [message for message in queue if message != END]
        ends = self.is_whole(a, b) or END in queue
        self.queues[a, b] = deque(messages[:kept] + [END] * ends)

    def breaks(self, a, b):
        self.broken |= {(a, b), (b, a)}

    def cut(self, a, b, kept, kept_back):
        """A whole link breaks."""
        if self.is_whole(a, b):
            self.shorten(a, b, kept)
            self.shorten(b, a, kept_back)
            self.breaks(a, b)

    def crash(self, node, kept):
        """What goes to the node is lost, and of what it sent on each link at most so many messages stay."""
        for a, b in self.queues:
            if a == node:
                self.shorten(a, b, kept)
                self.queues[b, a].clear()
                self.breaks(a, b)

    def may_join(self, a, b):
        """Whether a broken link may come up: both nodes have taken their marks."""
        return not self.is_whole(a, b) and self.is_empty(a, b)

    def join(self, a, b):
        self.broken -= {(a, b), (b, a)}
        for pair in ((a, b), (b, a)):
            self.queues[pair].append(UP)
