"""The history of a run, read off what its steps said of commands.

A step says something of a client's command: `always` and `if answered` that a backend or the master took it, the second so that it counts only if its
client is told behind it; `here`, `behind`, `reserved` and `unreached NODE` that the client is told: by the frontend alone, behind such a step, or of a refusal.
"""
from collections import namedtuple

Mark = namedtuple('Mark', 'step conn number kind')
Point = namedtuple('Point', 'step conn number what')


def is_told(kind):
    """Whether the client is told, which is the end of its command."""
    return kind not in ('always', 'if answered')


def counts_as(kind, later):
    """What a mark counts as, by the next one of its command."""
    if kind == 'here':
        return 'reply'
    if kind.startswith('unreached'):
        return 'refused ' + kind
    if is_told(kind):
        return None
    return {'behind': 'reply', 'reserved': 'refused reserved', None: 'lost' if kind == 'always' else None}.get(later)


def in_order(marks):
    """Those of one step by connection and command. What is said of a command whose client was told counts for nothing."""
    told, kept = set(), []
    for mark in marks:
        if (mark.conn, mark.number) not in told:
            kept.append(mark)
        if is_told(mark.kind):
            told.add((mark.conn, mark.number))
    return sorted(kept, key=lambda mark: mark[:3])


def history(marks):
    """The points of a run."""
    points, later = [], {}
    for step, conn, number, kind in reversed(in_order(marks)):
        what = counts_as(kind, later.get((conn, number)))
        later[conn, number] = kind
        if what:
            points.append(Point(step, conn, number, what))
    return points[::-1]
