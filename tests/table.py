"""The master's table: the record of each name, as the entries of its journal make it."""
from collections import namedtuple

from entries import Active, Deleted, Inactive, Reserved

# The record of a name: active, or reserved with the access list that it had when it was active, if it was.
Record = namedtuple('Record', 'place acl is_active')


def server_of(place):
    return place.split(b'!')[0].decode()


class Table:
    """The records by name, the last UIDVALIDITY, and how many names are those of mailboxes."""

    def __init__(self, entries=()):
        self.records, self.serial, self.mailboxes = {}, 0, 0
        for entry in entries:
            self.take(entry)

    def take(self, entry):
        old = self.records.pop(entry.name, None)
        new = self.record_by(entry, old)
        if new:
            self.records[entry.name] = new
        self.mailboxes += bool(new and new.acl is not None) - bool(old and old.acl is not None)
        self.serial = max(self.serial, entry.serial) if type(entry) is Reserved else self.serial

    @staticmethod
    def record_by(entry, old):
        """The record of its name behind an entry."""
        kind = type(entry)
        if kind is Reserved:
            return Record(entry.place, None, False)
        if kind is Active:
            return Record(entry.place, entry.acl, True)
        return Record(entry.place, old.acl, False) if kind is Inactive and old else None
