#!/usr/bin/env python3
"""The drill of docs/formats.md, without any code of the program; model.py says what its events do:

    tests/drill.py                                         compares the lines of drills in tests/calls.txt with its own
    tests/drill.py [--faults] NUMBER SIZE                  prints the line of a drill
    tests/drill.py [--faults] NUMBER SIZE CONFIG SCHEDULE  and writes its cluster, and those of its events that have a word, to these files

Without `--faults` a crash and a start are steps that change nothing, and have no word, so they are no lines of the schedule.
"""
import json, os, re, sys

sys.dont_write_bytecode = True
from cluster import Cluster
from model import output_of, spelled

NODES = [{'name': 'm', 'kind': 'master'}, {'name': 'f1', 'kind': 'frontend'}, {'name': 'f2', 'kind': 'frontend'}]
NODES += [{'name': 'b%d' % backend, 'kind': 'backend', 'partition': 'p'} for backend in (1, 2, 3)]
USERS = [{'name': 'adm', 'password': 'x', 'admin': True}] + [{'name': 'u%d' % user, 'password': 'p'} for user in range(1, 9)]
CONFIG = {'nodes': NODES, 'users': USERS, 'date': '17-Jul-1996 02:44:25 -0700'}
OTHERS = ['EXPUNGE', 'NOOP', 'LIST "" "*"', 'UID SEARCH FLAGGED']


def values(number):
    while True:
        number = (6364136223846793005 * number + 1442695040888963407) % 2**64
        yield number // 2**33


def command(value):
    kind = value // 8 % 16
    if kind < 6:
        size = 1 + value // 128 % 200
        return 'APPEND INBOX {%d+}\r\n%s' % (size, 'x' * size)
    if kind < 9:
        return 'UID FETCH 1:* (FLAGS)'
    if kind < 11:
        return 'UID STORE 1:* +FLAGS (\\Flagged)'
    if kind == 11:
        return 'UID STORE %d +FLAGS.SILENT (\\Deleted)' % (1 + value // 128 % 20)
    return OTHERS[kind - 12]


def sessions(round_):
    for user in range(1, 9):
        conn = 1 + user + 8 * round_
        yield 'open', 'f1' if user % 2 else 'f2', conn
        yield 'data', conn, 's LOGIN u%d p\r\ns SELECT INBOX\r\n' % user
    yield 'flow', 10_000


def crash(value):
    backend = 'b%d' % (1 + value // 1_048_576 % 3)
    yield 'crash', backend, value % 4, 1
    yield 'flow', 10_000
    yield 'start', backend
    yield 'heal',
    yield 'flow', 10_000


def events(number, size):
    """The events of a drill: each is its word and its arguments."""
    yield 'open', 'f1', 1
    yield 'data', 1, 'a LOGIN adm x\r\n' + ''.join('a CREATE user.u%d\r\n' % user for user in range(1, 9))
    yield 'flow', 10_000
    round_ = 0
    yield from sessions(round_)
    for turn, value in zip(range(1, size + 1), values(number)):
        session = 1 + value % 8
        yield 'data', 1 + session + 8 * round_, 't %s\r\n' % command(value)
        yield 'flow', value // 32_768 % 12
        if turn % 40 == 0:
            yield 'open', 'f1', 1_000 + turn
            yield 'data', 1_000 + turn, 'x LOGIN adm x\r\nx XFER user.u%d b%d\r\n' % (session, 1 + value // 1_048_576 % 3)
        if turn % 100 == 0:
            yield from crash(value)
            round_ += 1
            yield from sessions(round_)
    yield 'flow', 100_000


def take(cluster, word, *rest):
    if word == 'data':
        cluster.data(rest[0], rest[1].encode())
    elif cluster.has_faults or word not in ('crash', 'start'):
        getattr(cluster, word)(*rest)
    else:
        cluster.steps += 1


def counts(output):
    """The counts of a drill's line, of an output as `replay` prints it."""
    lines = [re.match(r'to \d+ (\S+) (\S+)', line) for line in output.split('\n') if line.startswith('to ')]
    steps, points = re.search(r'^end (\d+) (\d+)$', output, re.MULTILINE).groups()
    tagged = [line[2] for line in lines if line and line[1] not in ('*', '+')]
    byes = sum(line[1] == '*' and line[2].removesuffix(r'\r\n') == 'BYE' for line in lines if line)
    boxes = len(re.findall(r'^box \S+ \S+ open ', output, re.MULTILINE))
    return 'steps %s points %s ok %d no %d bad %d bye %d boxes %d' % (
        steps, points, *[tagged.count(verdict) for verdict in ('OK', 'NO', 'BAD')], byes, boxes)


def line_of(number, size, has_faults=False):
    cluster = Cluster(CONFIG, has_faults=has_faults)
    for event in events(number, size):
        take(cluster, *event)
    return 'drill %d %d %s\n' % (number, size, counts(output_of(cluster)))


def schedule_of(number, size, has_faults):
    for word, *rest in events(number, size):
        if word == 'data':
            yield 'data %d %s\n' % (rest[0], spelled(rest[1].encode()))
        elif has_faults or word in ('open', 'flow', 'heal'):
            yield ' '.join(map(str, [word, *rest])) + '\n'


def compared():
    """Compares the line of each drill that tests/calls.txt has, and prints what differs."""
    with open(os.path.join(os.path.dirname(os.path.abspath(__file__)), 'calls.txt')) as file:
        calls = re.findall(r'^drill (?:-- )?(\d+) (\d+) => 0 (.*\n)', file.read(), re.MULTILINE)
    differing = [line for number, size, line in calls if line != line_of(int(number), int(size))]
    print(''.join(differing) + '%d drills, %d differ' % (len(calls), len(differing)))
    return 1 if differing or not calls else 0


def main(words):
    if not words:
        return compared()
    has_faults = words[0] == '--faults'
    number, size, *files = words[has_faults:]
    number, size = int(number), int(size)
    if files:
        with open(files[0], 'w') as config, open(files[1], 'w') as schedule:
            json.dump(CONFIG, config)
            schedule.writelines(schedule_of(number, size, has_faults))
    sys.stdout.write(line_of(number, size, has_faults))
    return 0


if __name__ == '__main__':
    sys.exit(main(sys.argv[1:]))
