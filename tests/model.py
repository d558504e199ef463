#!/usr/bin/env python3
"""What docs/formats.md, docs/imap.md and docs/master.md say that a schedule prints, worked out beside the program:

    tests/model.py [--faults] CONFIG SCHEDULE
    tests/model.py

With `--faults` a schedule may have the words by which nodes crash and start, and the links of the master with backends break too, as the program's don't.
Without arguments it compares each stored output of examples/ and tests/replays/ with its own. It is written from these pages, examples/, RFC 9051 and RFC
3656 alone, and knows no proof and no code of the program. It keeps every byte of a connection and cuts it anew, so it is slow and plain. What a frame spells
is in commands.py, what a client is replied in sessions.py, what mailboxes hold in mailboxes.py, the nodes in frontend.py, backend.py and mupdate.py, what
joins them in cluster.py, links.py, disks.py and history.py, the rules of schedules in rules.py. `.ci/large` and `tests/random_schedules` compare the program
with it, and the outputs of tests/replays were worked out by it and read.
"""
import glob, json, os, re, sys

sys.dont_write_bytecode = True
from cluster import Cluster
from history import history
from rules import Rules, arguments_of, is_event, lines_of


def spelled(data):
    known = {0x0D: '\\r', 0x0A: '\\n', 0x5C: '\\\\'}
    return ''.join(known.get(b) or (chr(b) if 0x20 <= b <= 0x7E else '\\x%02x' % b) for b in data)


def unspelled(text):
    take = lambda m: {'r': b'\r', 'n': b'\n', '\\': b'\\'}.get(m[1].decode()) or bytes([int(m[1][1:], 16)])
    return re.sub(rb'\\(r|n|\\|x[0-9a-f]{2})', take, text)


# The output.

def client_lines(cluster):
    for conn in sorted(cluster.given):
        for line in re.findall(rb'[^\n]*\n|[^\n]+\Z', b''.join(cluster.given[conn])):
            yield 'to %d %s\n' % (conn, spelled(line))


def box_line(backend, box):
    if box.phase == 'pointer':
        return '%s pointer %s' % (backend, box.server)
    return '%s %s %d %d %d' % (backend, box.phase, box.serial, box.next, len(box.messages))


def name_lines(cluster):
    """What is on the disks."""
    printed = lambda name: spelled(name).replace(' ', '\\x20')
    for name, record in sorted(cluster.table().records.items()):
        yield 'master %s %s %s\n' % (printed(name), 'active' if record.is_active else 'reserved', record.place.decode())
    boxes = {backend: cluster.boxes(backend) for backend in cluster.names_of('backend')}
    for name in sorted({name for held in boxes.values() for name in held}):
        for backend, held in boxes.items():
            if name in held:
                yield 'box %s %s\n' % (printed(name), box_line(backend, held[name]))


def output_of(cluster):
    points = history(cluster.marks)
    told = ['point %d %d.%d %s\n' % point for point in points]
    return ''.join([*client_lines(cluster), *told, *name_lines(cluster), 'end %d %d\n' % (cluster.steps, len(points))])


# Schedules.

def take(cluster, line):
    word, arguments = arguments_of(line)
    if word == b'data':
        arguments[1] = unspelled(arguments[1])
    getattr(cluster, word.decode())(*arguments)
    cluster.line_ends.append(cluster.steps)


def events_of(schedule):
    return [line for _, line in lines_of(schedule) if is_event(line)]


def refusal(config, schedule, has_faults=False):
    """The number of the first bad line of a schedule and the first rule that it breaks, or None."""
    cluster = Cluster(json.loads(config))
    rules = Rules(cluster.kinds, cluster.pairs, has_faults)
    for number, line in lines_of(schedule):
        rule = rules.broken_by(line) if is_event(line) else None
        if rule:
            return number, rule


def cluster_after(config, schedule, **setting):
    cluster = Cluster(json.loads(config), **setting)
    for line in events_of(schedule):
        take(cluster, line)
    return cluster


def run(config, schedule, **setting):
    return output_of(cluster_after(config, schedule, **setting))


def printed_by(config, schedule, has_faults=False):
    """The output, the line on the error output and the status."""
    broken = refusal(config, schedule, has_faults)
    if broken:
        return '', 'murder: schedule refused: line %d rule %d\n' % broken, 3
    return run(config, schedule, has_faults=has_faults), '', 0


def stored(name, otherwise=''):
    return open(name, newline='').read() if os.path.exists(name) else otherwise


def differing(folder):
    """What a folder holds that this model doesn't print."""
    config, schedule = (open(os.path.join(folder, name), 'rb').read() for name in ('config.json', 'schedule'))
    wanted = [stored(os.path.join(folder, name)) for name in ('stdout', 'stderr')] + [int(stored(os.path.join(folder, 'status'), '0'))]
    if printed_by(config, schedule) != tuple(wanted):
        yield folder
    for line in stored(os.path.join(folder, 'refusals')).splitlines():
        kind, _, rest = line.partition(' | ')
        text, _, rule = rest.rpartition(' => ')
        if kind == 'schedule' and printed_by(config, unspelled(text.encode()))[1] != 'murder: schedule refused: %s\n' % rule:
            yield folder + ': ' + line


def compared():
    """Compares each stored output, and prints what differs."""
    top = os.path.dirname(os.path.dirname(os.path.abspath(__file__)))
    folders = sorted(glob.glob(top + '/examples/*/') + glob.glob(top + '/tests/replays/*/'))
    found = [what for folder in folders for what in differing(folder)]
    print(*found, '%d folders, %d differ' % (len(folders), len(found)), sep='\n')
    return 1 if found else 0


def main(names):
    has_faults = names[:1] == ['--faults']
    if not names:
        return compared()
    output, error, status = printed_by(*(open(name, 'rb').read() for name in names[has_faults:]), has_faults)
    sys.stdout.write(output)
    sys.stderr.write(error)
    return status


if __name__ == '__main__':
    sys.exit(main(sys.argv[1:]))
