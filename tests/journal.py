#!/usr/bin/env python3
"""The journal of a disk, read and torn beside the program:

    tests/journal.py IMAGE             the entries of a file, one a line, or where it shows that the file is no journal
    tests/journal.py --check FILE..    works out each case of these tables anew, and says which want something else
    tests/journal.py --write FOLDER    writes the tables of case_disk

It is written from the pages that say what the bytes of a journal are (the head of crates/mur_journal/src/lib.rt) and what a crash leaves
(`MemDisk::crash`, `StopDisk`), and knows no code of the program. A journal's status is 0, that of another file 1, and that of one that can't be
read 2. The tables of crates/case_disk are those that it writes; what a row's fields are is said at the head of each.
"""
import os, re, sys

MAGIC = b'MURDERJ1'
OPEN, CLOSED = b'\x01', b'\x00'


def text_of(data):
    known = {0x0D: '\\r', 0x0A: '\\n', 0x5C: '\\\\'}
    return ''.join(known.get(b) or (chr(b) if 0x20 <= b <= 0x7E else '\\x%02x' % b) for b in data)


def bytes_of(text):
    take = lambda m: {b'r': b'\r', b'n': b'\n', b'\\': b'\\'}.get(m[1]) or bytes([int(m[1][1:], 16)])
    return re.sub(rb'\\(r|n|\\|x[0-9a-f]{2})', take, text.encode('ascii'))


# A journal.

class NotAJournal(Exception):
    """The bytes are no journal, which shows at this offset."""

    def __init__(self, offset):
        super().__init__('no journal at %d' % offset)
        self.offset = offset


def entries_of(image):
    """The entries of a journal, and the place of its closed gate."""
    for at, byte in enumerate(MAGIC):
        if image[at:at + 1] != bytes([byte]):
            raise NotAJournal(at)
    entries, gate = [], len(MAGIC)
    while image[gate:gate + 1] == OPEN:
        length = image[gate + 1:gate + 5]
        first = gate + 5
        after = first + int.from_bytes(length, 'big')
        if len(length) < 4 or len(image) <= after:
            raise NotAJournal(gate)
        entries.append(image[first:after])
        gate = after
    if gate == len(image):
        raise NotAJournal(gate)
    return entries, gate


def block_of(entries):
    """What an append writes after the last gate: each entry after its length, open gates between them and a closed one at the end."""
    return OPEN.join(len(entry).to_bytes(4, 'big') + entry for entry in entries) + CLOSED


def journal_of(entries, tail=b''):
    return MAGIC + (OPEN + block_of(entries) if entries else CLOSED) + tail


# A disk, what a crash leaves of it, and one that stops.

class Stopped(Exception):
    pass


def carry_out(how, call, image):
    """A write is for 0 not made, for 1 done, for 2 done with its first half, for 3 done with as many bytes FF; a cut is done for 1. What lies between the
    end of the image and the place of a write holds zeros."""
    kind, *what = call
    if kind == 'cut' and how == 1:
        del image[what[0]:]
    elif kind == 'write' and how != 0:
        at, piece = what
        piece = {1: piece, 2: piece[:len(piece) // 2], 3: b'\xff' * len(piece)}[how]
        image.extend(bytes(max(0, at - len(image))))
        image[at:at + len(piece)] = piece


class Disk:
    """A disk that stops inside its device call of this number, counted from 0, or never."""

    def __init__(self, image=b'', call=None):
        self.synced, self.pending, self.left, self.stopped = bytearray(image), [], call, False

    def counted(self):
        if self.left == 0:
            self.stopped = True
            raise Stopped
        if self.left is not None:
            self.left -= 1

    def change(self, *call):
        """A write or a cut is carried out and pending, also the one that the disk stops inside."""
        if self.stopped:
            raise Stopped
        self.pending.append(call)
        self.counted()

    def write(self, at, piece):
        self.change('write', at, piece)

    def cut(self, length):
        self.change('cut', length)

    def sync(self):
        if self.stopped:
            raise Stopped
        self.counted()
        for call in self.pending:
            carry_out(1, call, self.synced)
        self.pending = []

    def left_by(self, hows):
        image = bytearray(self.synced)
        for how, call in zip(hows, self.pending):
            carry_out(how, call, image)
        return bytes(image)

    @property
    def seen(self):
        """What is read: each pending call is done."""
        return self.left_by([1] * len(self.pending))

    def crashed(self, choice):
        """What a crash leaves: of each pending call two bits of the choice say what was done, the lowest two of the first."""
        return self.left_by(choice >> 2 * number & 3 for number in range(len(self.pending)))


class Journal:
    """Appends to a disk that holds a journal. One that was refused spends it."""

    def __init__(self, disk):
        self.disk, self.spent = disk, False
        self.gate = entries_of(disk.seen)[1]

    def append(self, entries):
        if self.spent:
            return 'spent'
        block = block_of(entries)
        try:
            self.disk.write(self.gate + 1, block)
            self.disk.sync()
            self.disk.write(self.gate, OPEN)
            self.disk.sync()
        except Stopped:
            self.spent = True
            return 'disk'
        self.gate += len(block)
        return 'ok'


def made_on(disk):
    try:
        disk.write(0, MAGIC + CLOSED)
        disk.sync()
    except Stopped:
        return 'disk'
    return 'ok'


# Cases.

def bracketed(data):
    return '[%s]' % text_of(data)


def opened(image):
    try:
        entries, _ = entries_of(image)
    except NotAJournal as fault:
        return ['none at %d' % fault.offset]
    return ['journal'] + [bracketed(entry) for entry in entries]


def left(disk, choice):
    image = disk.crashed(choice)
    return [bracketed(image)] + opened(image)


def step_of(text):
    """The entries of a step: `one ENTRY`, or `all ENTRY,ENTRY ..`."""
    word, entries = text.split(' ', 1)
    return [bytes_of(entry) for entry in (entries.split(',') if word == 'all' else [entries])]


def changed(disk, text):
    word, *what = text.split(' ', 2)
    if word == 'write':
        disk.write(int(what[0]), bytes_of(what[1]))
    elif word == 'cut':
        disk.cut(int(what[0]))
    else:
        disk.sync()


def disk_case(image, call, choice, *steps):
    disk, answers = Disk(bytes_of(image), int(call)), []
    for step in steps:
        try:
            changed(disk, step)
            answers.append('ok')
        except Stopped:
            answers.append('failed')
    return answers + [bracketed(disk.seen), bracketed(disk.crashed(int(choice)))]


def stopped_case(image, call, *steps):
    disk, answers = Disk(bytes_of(image), int(call)), ['runs']
    for step in steps:
        try:
            changed(disk, step)
            answers.append('ok')
        except Stopped:
            answers.append('failed')
        answers.append('stopped' if disk.stopped else 'runs')
    return answers


def format_case(call, choice):
    disk = Disk(b'', int(call))
    return [made_on(disk)] + left(disk, int(choice))


def open_case(image):
    return opened(bytes_of(image))


def append_case(image, call, choice, *steps):
    disk = Disk(bytes_of(image), int(call))
    journal = Journal(disk)
    return [journal.append(step_of(step)) for step in steps] + left(disk, int(choice))


KINDS = {'disk': disk_case, 'stopped': stopped_case, 'format': format_case, 'open': open_case, 'append': append_case}


def wanted(given):
    kind, *fields = given.split(' | ')
    return ' | '.join(KINDS[kind](*fields))


# The tables.

def row(kind, *fields):
    given = ' | '.join([kind, *(text_of(field) if isinstance(field, bytes) else str(field) for field in fields)])
    return '%s => %s' % (given, wanted(given))


def stops(image, calls, *steps, choices=range(4)):
    """A row for each call and choice, and one in which the disk doesn't stop."""
    rows = [row('append', image, call, choice, *steps) for call in range(calls) for choice in choices]
    return rows + [row('append', image, calls, 0, *steps)]


def format_rows():
    return [
        '# format | CALL | CHOICE => the answer; the image that is left; and what is opened of it: `journal` and its entries, or `none` and the place',
        '# at which it shows. The disk stops inside its device call of this number, counted from 0, and a crash leaves the image of the choice.',
        *(row('format', call, choice) for call in range(2) for choice in range(4)),
        '# It makes two calls. The write is the first that is pending, so that it has the lowest two bits of the choice.',
        *(row('format', call, choice) for call in (2, 3, 2**64 - 1) for choice in (0, 3)),
        *(row('format', call, choice) for call in range(2) for choice in (4, 5, 6, 7, 253, 2**64 - 1)),
    ]


def disk_rows():
    zeros = 'write 0 \\x00'
    many = ['write %d %s' % (at, chr(0x61 + at % 26)) for at in range(34)]
    every = 0x5555555555555555
    return [
        '# disk | IMAGE | CALL | CHOICE | STEP | .. => the answer to each step; what is then read; and the image that a crash leaves. A step is',
        '# `write PLACE BYTES`, `cut LENGTH` or `sync`. The disk stops inside its call of this number.',
        '# A write over bytes, past the end, and at the end, each as every choice leaves it.',
        *(row('disk', b'abcdef', 9, choice, step) for step in ('write 1 XYZ', 'write 4 XYZ', 'write 6 XYZ', 'write 0 ', 'write 2 X') for choice in range(4)),
        '# A cut is done for 1 alone.',
        *(row('disk', b'abcdef', 9, choice, step) for step in ('cut 2', 'cut 0', 'cut 6') for choice in range(4)),
        '# Two calls: the second is after the first. Where the first is lost, zeros lie between the old end and the place of the second.',
        *(row('disk', b'ab', 9, choice, 'write 2 cdef', 'write 6 ghi') for choice in range(16)),
        *(row('disk', b'abcdef', 9, choice, 'cut 2', 'write 2 XY') for choice in range(16)),
        *(row('disk', b'abcdef', 9, choice, 'write 4 XYZ', 'cut 5') for choice in range(16)),
        '# A sync makes all before it durable.',
        *(row('disk', b'ab', 9, choice, 'write 1 xy', 'sync', 'write 0 Z') for choice in range(8)),
        *(row('disk', b'ab', 9, choice, 'write 1 xy', 'cut 1', 'sync') for choice in (0, 3, 15)),
        '# Inside a write or a cut it is carried out and pending, inside a sync nothing is done; then each call fails.',
        *(row('disk', b'abc', call, choice, 'write 2 xy', 'sync', 'cut 1', 'sync', 'write 0 Q') for call in range(6) for choice in range(4)),
        '# The choice has two bits for each of thirty-two calls; a later one is never done.',
        row('disk', b'a', 99, every, *many),
        row('disk', b'a', 99, every & ~(3 << 62), *many),
        row('disk', b'a', 99, 2**64 - 1, *many),
        row('disk', b'a', 99, 3 << 62, *many),
        row('disk', b'', 9, 0, zeros),
    ]


def stopped_rows():
    steps = ['write 0 ab', 'cut 1', 'sync', 'write 0 c']
    return [
        '# stopped | IMAGE | CALL | STEP | .. => whether the disk, which stops inside its call of this number, has stopped; and then the answer to each',
        '# step, and whether it has stopped after it.',
        *(row('stopped', b'x', call, *steps) for call in range(5)),
        row('stopped', b'', 0),
        row('stopped', b'', 0, 'sync', 'sync'),
        row('stopped', b'', 2**64 - 1, 'write 0 ', 'sync'),
    ]


def open_rows():
    two = journal_of([b'ab', b'cde'])
    length = lambda n: n.to_bytes(4, 'big')
    gate = lambda byte: MAGIC + bytes([byte]) + length(2) + b'ab' + CLOSED
    return [
        '# open | IMAGE => what is opened of the image: `journal` and its entries, or `none` and the place at which it shows.',
        '# The first byte that differs from the magic.',
        row('open', b''),
        row('open', b'XURDERJ1'),
        row('open', b'XURDERJ1\x00'),
        *(row('open', MAGIC[:at] + bytes([MAGIC[at] ^ 0x20]) + MAGIC[at + 1:] + CLOSED) for at in range(8)),
        row('open', b'MURDERJ2\x00'),
        row('open', b'\x00' * 9),
        row('open', b'\xff' * 9),
        row('open', b'\x00MURDERJ1\x00'),
        '# Each front of a journal with two entries.',
        *(row('open', two[:end]) for end in range(len(two) + 1)),
        '# Each gate but 01 is closed, and what is after it is free.',
        *(row('open', gate(byte)) for byte in [0, 1, 2, 3, 0x10, 0x31, 0x7F, 0x80, 0x81, 0xFE, 0xFF]),
        *(row('open', MAGIC + OPEN + length(1) + b'a' + bytes([byte]) + length(1) + b'b' + CLOSED) for byte in [0, 1, 2, 0x80, 0xFF]),
        *(row('open', journal_of([b'ab'], tail)) for tail in [b'\x01', b'\x00', b'\xff\xff\xff', length(1), length(3) + b'cde' + CLOSED, OPEN + length(1) + b'c', MAGIC + CLOSED]),
        *(row('open', journal_of([], tail)) for tail in [b'\x01', b'\x00', b'\xff\xff\xff', length(1) + b'a' + CLOSED, OPEN + length(1) + b'a' + CLOSED, b'\xff' * 12]),
        '# The length has four bytes, the highest first, and as many bytes and a gate have to follow.',
        *(row('open', MAGIC + OPEN + length(n) + b'ab' + CLOSED) for n in [0, 1, 2, 3, 4, 256, 512, 65_536, 131_072, 2**24, 2**25, 2**30, 2**31, 2**32 - 1]),
        row('open', MAGIC + OPEN + length(2) + b'ab'),
        row('open', MAGIC + OPEN + length(0)),
        row('open', MAGIC + OPEN + length(0) + CLOSED),
        row('open', MAGIC + OPEN + length(0) + OPEN),
        row('open', MAGIC + OPEN + length(0) + OPEN + length(0) + CLOSED),
        *(row('open', MAGIC + OPEN + length(n) + b'z' * m + CLOSED) for n, m in [(255, 255), (256, 256), (258, 258), (258, 257), (256, 255), (255, 256), (65_536, 256), (1, 256)]),
        '# The place is that of the open gate, also after entries.',
        *(row('open', journal_of([b'ab'] * n)[:-1] + OPEN + tail) for n in range(4) for tail in [b'', b'\x00\x00\x00', length(1), length(1) + b'x', length(2) + b'x\x00']),
        '# Entries whose bytes are gates, lengths or the magic.',
        *(row('open', journal_of(entries)) for entries in [[b''], [b'', b''], [b'', b'a', b''], [b'\x00'], [b'\x01'], [b'\x01\x00\x00\x00\x01'], [MAGIC + CLOSED], [journal_of([b'x'])], [b'\x00\x01', b'\x01\x00'], [b'\xff' * 5], [bytes(20)]]),
        row('open', journal_of([bytes([n]) for n in range(9)])),
        row('open', journal_of([b'a' * n for n in range(9)])),
    ]


def append_rows():
    blank = journal_of([])
    cases = [
        ('An append to a journal without entries.', blank, 'one ab'),
        ('An entry without bytes.', blank, 'one '),
        ('An entry of one byte, which is an open gate.', blank, 'one \\x01'),
        ('An entry after others.', journal_of([b'xyz', b'']), 'one abc'),
        ('An entry over a tail that an earlier crash left, longer than its block.', journal_of([], b'\xff' * 14), 'one ab'),
        ('An entry over a tail that is shorter than its block.', journal_of([b'x'], b'\x00\x00\x00'), 'one abc'),
        ('The tail is a block that was written whole: it is written over.', journal_of([b'x'], b'\x00\x00\x00\x03old\x00'), 'one n'),
        ('The tail begins with an open gate.', journal_of([b'x'], b'\x01\x00\x00\x00\x01y\x00'), 'one z'),
        ('The closed gate holds FF, as a torn write leaves it.', MAGIC + b'\xff\x00\x00\x00\x02ab\x00', 'one c'),
        ('An entry that is a journal.', journal_of([b'a']), 'one ' + text_of(journal_of([b'b']))),
        ('An entry of 258 bytes.', blank, 'one ' + 'k' * 258),
    ]
    rows = [
        '# append | IMAGE | CALL | CHOICE | STEP | .. => the answer to each step; the image that is left; and what is opened of it: `journal` and its',
        '# entries, or `none` and the place at which it shows. A step is `one ENTRY`, or `all ENTRY,ENTRY,..` for several entries after one gate. The disk',
        '# stops inside its device call of this number, counted from 0, and a crash leaves the image of the choice.',
    ]
    for title, image, step in cases:
        rows += ['# ' + title, *stops(image, 4, step)]
    return rows + [
        '# Bits of the choice above the lowest two are those of calls that weren\'t made.',
        *(row('append', blank, call, choice, 'one ab') for call in (0, 2) for choice in (4, 5, 6, 7, 2**64 - 4, 2**64 - 1)),
    ]


def append_all_rows():
    blank = journal_of([])
    cases = [
        ('Two entries after one gate.', blank, 'all ab,c'),
        ('One entry is written as by `one`.', blank, 'all ab'),
        ('Entries without bytes.', blank, 'all ,,'),
        ('Three entries after others.', journal_of([b'x']), 'all a,,bcd'),
        ('Entries that are gates.', journal_of([b'x']), 'all \\x01,\\x00,\\x01'),
        ('Over a tail.', journal_of([b'x'], b'\x00\x00\x00\x01y\x01\x00\x00\x00\x01z\x01\x00\x00\x00\x01u\x00'), 'all a,b'),
    ]
    rows = ['# append | IMAGE | CALL | CHOICE | all ENTRY,ENTRY,.. => a crash leaves all of these entries or none.']
    for title, image, step in cases:
        rows += ['# ' + title, *stops(image, 4, step)]
    return rows


def run_rows():
    blank = journal_of([])
    return [
        '# append | IMAGE | CALL | CHOICE | STEP | .. => several appends, of which one is refused: those after it answer `spent` and touch no disk.',
        *stops(blank, 12, 'one ab', 'one ', 'one c'),
        '# Entries by one and several, to a journal with an entry and a tail.',
        *stops(journal_of([b'x'], b'\xff\xff\xff\xff\xff\xff\xff'), 12, 'all a,b', 'one c', 'all d,'),
        '# Both kinds of append are spent.',
        *stops(blank, 8, 'one a', 'all b,c', 'one d', 'all e', choices=(0, 1)),
        '# No append: nothing changes.',
        row('append', blank, 0, 0),
        row('append', journal_of([b'a'], b'\x07'), 0, 3),
    ]


TABLES = {'disk': disk_rows, 'stopped': stopped_rows, 'format': format_rows, 'open': open_rows, 'append': append_rows, 'append_all': append_all_rows, 'runs': run_rows}


def write(folder):
    for name, rows in TABLES.items():
        with open(os.path.join(folder, name + '.txt'), 'w', encoding='ascii') as file:
            file.write('\n'.join(rows()) + '\n')


def check(files):
    count = faults = 0
    for path in files:
        with open(path, encoding='ascii') as file:
            lines = file.read().split('\n')
        for number, line in enumerate(lines, 1):
            if line and not line.startswith('#'):
                count += 1
                given, want = line.split(' => ')
                if wanted(given) != want:
                    faults += 1
                    print('%s:%d: %s' % (path, number, wanted(given)))
    print('%d cases, %d differ' % (count, faults))
    return 0 if count and not faults else 1


def show(path):
    with open(path, 'rb') as file:
        image = file.read()
    try:
        entries, gate = entries_of(image)
    except NotAJournal as fault:
        print(fault)
        return 1
    for entry in entries:
        print(text_of(entry))
    print('%d entries, closed gate at %d, %d bytes after it' % (len(entries), gate, len(image) - gate - 1), file=sys.stderr)
    return 0


def carried_out(words):
    if words[:1] == ['--check'] and len(words) > 1:
        return check(words[1:])
    if words[:1] == ['--write'] and len(words) == 2:
        return write(words[1])
    if len(words) == 1 and not words[0].startswith('--'):
        return show(words[0])
    print(__doc__.strip())
    return 2


def main(words):
    try:
        return carried_out(words)
    except OSError as fault:
        print(fault, file=sys.stderr)
        return 2


if __name__ == '__main__':
    sys.exit(main(sys.argv[1:]))
