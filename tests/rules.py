"""The rules of a schedule (docs/formats.md): which one a line breaks. Nothing here knows what an event does."""
import re

# What follows each word: a number, a node, the two nodes of a link, a text. FAULTS are the words of nodes that crash and start, which the
# program doesn't know yet.
WORDS = {b'open': 'node conn', b'data': 'conn text', b'hang': 'conn', b'deliver': 'node node', b'cut': 'node node number number', b'join': 'node node',
         b'flow': 'count', b'heal': ''}
FAULTS = {b'crash': 'node number number', b'arm': 'node number number number', b'start': 'node'}
KINDS = {word: kinds.split() for word, kinds in (WORDS | FAULTS).items()}
NUMBER_ENDS = {'conn': 2**64, 'number': 2**64, 'count': 2**32}
TEXT = re.compile(rb'(?:[ -\[\]-~]|\\(?:[rn\\]|x[0-9a-f]{2}))*')


def lines_of(schedule):
    """The lines, each with its number; the CR before an LF is no part of one."""
    *ended, last = schedule.split(b'\n')
    return list(enumerate([line.removesuffix(b'\r') for line in ended] + [last], 1))


def is_event(line):
    return line and not line.startswith(b'#')


def arguments_of(line):
    """The word of a line that breaks no rule, and what follows it, numbers as such."""
    word, *rest = line.split(b' ', 2 if line.startswith(b'data ') else -1)
    taken = {'text': bytes, 'node': bytes.decode}
    return word, [taken.get(kind, int)(text) for kind, text in zip(KINDS[word], rest, strict=True)]


class Rules:
    """The rules of a schedule over nodes of these kinds and pairs of them that are linked, the connections that its lines opened, and whether it may have
    the words of nodes that crash and start."""

    def __init__(self, kinds, pairs, has_faults):
        self.kinds, self.pairs, self.words, self.opened = kinds, pairs, WORDS | FAULTS if has_faults else WORDS, set()

    def broken_by(self, line):
        """The first rule that a line breaks, or None."""
        word, *rest = line.split(b' ', 1)
        if word not in self.words:
            return 1
        words, kinds = rest[0].split(b' ', 1 if word == b'data' else -1) if rest else [], KINDS[word]
        if len(words) != len(kinds) or not all(text or kind == 'text' for text, kind in zip(words, kinds)):
            return 2
        for text, kind in zip(words, kinds):
            if kind in NUMBER_ENDS and (not re.fullmatch(rb'[0-9]+', text) or int(text) >= NUMBER_ENDS[kind]):
                return 3
        return self.node_broken(word, words) or self.connection_broken(word, dict(zip(kinds, words)).get('conn')) or self.text_broken(word, words)

    def node_broken(self, word, words):
        names = tuple(name.decode('latin-1') for name, kind in zip(words, KINDS[word]) if kind == 'node')
        is_there = names in self.pairs if len(names) == 2 else all(name in self.kinds for name in names)
        if not is_there or word == b'open' and self.kinds[names[0]] == 'backend':
            return 4

    def connection_broken(self, word, conn):
        number = int(conn or 0)
        if word == b'open':
            is_broken = number in self.opened
            self.opened.add(number)
            return 5 if is_broken else None
        if conn and number not in self.opened:
            return 5

    def text_broken(self, word, words):
        if word == b'data' and not TEXT.fullmatch(words[1]):
            return 7
