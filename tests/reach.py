"""Which links were down when, as the nodes found them: a link is up to a node from the step that takes the mark that it came up to the one that takes the
mark that it ended. So it can be told whether a node wasn't reached while a client's command was under way.
"""


class Reach:
    def __init__(self, pairs):
        self.changes = {(b, a): [(0, True)] for a, b in pairs}  # by node and other node: the steps, and whether the link was up to it from then on
        self.took = {}  # by command: the steps in which backends took an ask of it

    def note(self, step, a, b, message):
        """A node takes a message of another one."""
        kind = message[0]
        if kind in ('up', 'end'):
            self.changes[b, a].append((step, kind == 'up'))
        elif kind == 'ask':
            self.took.setdefault(message[1:3], []).append((step, b))

    def starts(self, step, name):
        for node, other in self.changes:
            if node == name:
                self.changes[node, other].append((step, False))

    def was_down(self, node, other, first, last):
        """Whether a node had its link with another one down before or behind one of these steps."""
        changes = self.changes.get((node, other), [])
        before = [is_up for step, is_up in changes if step < first][-1:]
        return False in before + [is_up for step, is_up in changes if first <= step <= last]

    def was_unreached(self, front, conn, number, other, first, last):
        """Whether a node wasn't reached in a command: by its frontend, or by a backend that took its ask."""
        nodes = {front} | {node for step, node in self.took.get((conn, number), []) if first <= step <= last}
        return any(self.was_down(node, other, first, last) for node in nodes)
