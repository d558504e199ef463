"""Mailboxes and what a home does with them: Box(serial, phase) keeps messages by UID, Boxes what the entries of a journal make, served(box, ask) carries out a
command that its session has turned into UIDs. Nothing here knows a session or a node.
"""
from collections import namedtuple

from commands import keywords
from entries import Added, Closing, Flagged, Forget, Gone, Make, Opened, Pointer

CREATED, EXISTS, LIMIT = b'OK CREATE completed', b'NO [ALREADYEXISTS] mailbox exists', b'NO [LIMIT] too large or too many'
MAILBOX_LIMIT, MESSAGE_COUNT_LIMIT = 4_096, 20_000
# what a command comes to beside a text and what it found; LOST: whether it was carried out can't be known
MISSING, GONE, NOT_NOW, LOST = 'missing', 'gone', 'not now', 'lost'
Moved = namedtuple('Moved', 'server')
Unreached = namedtuple('Unreached', 'node')

# What is asked of a mailbox: its name, the command and its arguments, with the UIDs that it names; the UIDVALIDITY of the view, if it has one.
Ask = namedtuple('Ask', 'name word asks serial', defaults=(None,))

Message = namedtuple('Message', 'flags date body')
PHASES = {Opened: 'open', Closing: 'closing'}


class Box:
    """A mailbox: its messages by UID, or of one that moved its server."""

    def __init__(self, serial, phase, server=None):
        self.serial, self.phase, self.server, self.next, self.messages = serial, phase, server, 1, {}

    def take(self, entry):
        """What an entry on its name makes of it."""
        kind = type(entry)
        if kind is Added:
            for message in entry.messages:
                self.messages[self.next] = message
                self.next += 1
        elif kind is Flagged:
            self.messages.update({uid: self.messages[uid]._replace(flags=flags) for uid, flags in entry.rows if uid in self.messages})
        elif kind is Gone:
            for uid in entry.uids:
                self.messages.pop(uid, None)
        else:
            self.phase = PHASES[kind]

    def flags(self):
        return {uid: message.flags for uid, message in self.messages.items()}

    def named(self, uids):
        return {uid: self.messages[uid] for uid in uids if uid in self.messages}

    def flagged(self, uids, change):
        """The rows that differ where the flags of messages are changed so; None where a message would get more than 16 keywords."""
        rows = [(uid, change(message.flags)) for uid, message in self.named(uids).items()]
        is_fit = all(len(keywords(flags)) <= 16 for _, flags in rows)
        return [(uid, flags) for uid, flags in rows if flags != self.messages[uid].flags] if is_fit else None

    def deleted(self, uids):
        """The UIDs, among these if there are any, of the messages that an EXPUNGE takes away."""
        return [uid for uid in (self.messages if uids is None else uids) if uid in self.messages and b'\\Deleted' in self.messages[uid].flags]


class Boxes(dict):
    """The mailboxes of a backend by name, as the entries of its journal make them."""

    def __init__(self, entries=()):
        super().__init__()
        for entry in entries:
            self.take(entry)

    def take(self, entry):
        kind = type(entry)
        if kind is Make:
            self[entry.name] = Box(entry.serial, 'creating')
        elif kind is Pointer:
            self[entry.name] = Box(0, 'pointer', entry.server)
        elif kind is Forget:
            for name in entry.names:
                self.pop(name, None)
        elif self.phase(entry.name) not in (None, 'pointer'):
            self[entry.name].take(entry)

    def phase(self, name):
        return self[name].phase if name in self else None


def status_counts(messages, serial, uidnext):
    flags = [message.flags for message in messages.values()]
    return {b'MESSAGES': len(messages), b'UIDNEXT': uidnext, b'UIDVALIDITY': serial,
            b'UNSEEN': sum(b'\\Seen' not in each for each in flags), b'DELETED': sum(b'\\Deleted' in each for each in flags),
            b'SIZE': sum(len(message.body) for message in messages.values())}


MODES = {b'': lambda new: lambda old: new, b'+': lambda new: lambda old: old | new, b'-': lambda new: lambda old: old - new}


def change_by(box, ask):
    """What a command on the messages that are there finds, and the entry of what it changes, if it changes anything."""
    name, word, asks, _ = ask
    if word.endswith((b'FETCH', b'SEARCH')):
        rows = box.flagged(asks['uids'], lambda old: old | {b'\\Seen'}) if asks['is_seen'] else None
        return box.named(asks['uids']), Flagged(name, rows) if rows else None
    if word.endswith(b'STORE'):
        rows = box.flagged(asks['uids'], MODES[asks['mode']](asks['flags']))
        return rows is not None, Flagged(name, rows) if rows else None
    if word in (b'CLOSE', b'EXPUNGE', b'UID EXPUNGE'):
        uids = box.deleted(asks['uids'] if word == b'UID EXPUNGE' else None)
        return None, Gone(name, uids) if uids else None
    return (status_counts(box.messages, box.serial, box.next) if word == b'STATUS' else None), None


def served(box, ask, date):
    """Carries out a command. Gives a text, or what it found in the mailbox and the mailbox behind it; and the entry of what it changed, if it changed anything.
    A message without a date has this one."""
    name, word, asks, serial = ask
    if serial not in (None, box.serial):
        return GONE, None
    if word == b'APPEND':
        if len(box.messages) >= MESSAGE_COUNT_LIMIT:
            return LIMIT, None
        entry = Added(name, [Message(asks['flags'], asks['date'] or date, asks['message'])])
        box.take(entry)
        return b'OK [APPENDUID %d %d] APPEND completed' % (box.serial, box.next - 1), entry
    found, entry = change_by(box, ask)
    if entry:
        box.take(entry)
    return (found, box.flags(), box.serial, box.next), entry
