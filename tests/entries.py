"""The entries of journals: what the master writes of names, and what a backend writes of its mailboxes."""
from collections import namedtuple

# The master's: a name is reserved at a place, with its UIDVALIDITY; is a mailbox there; is reserved as what it was; has no record.
Reserved = namedtuple('Reserved', 'name place serial')
Active = namedtuple('Active', 'name place acl')
Inactive = namedtuple('Inactive', 'name place')
Deleted = namedtuple('Deleted', 'name')
# A backend's: what becomes of a mailbox, and of its messages.
Make = namedtuple('Make', 'name serial acl')
Opened = namedtuple('Opened', 'name')
Closing = namedtuple('Closing', 'name')
Pointer = namedtuple('Pointer', 'name server')
Forget = namedtuple('Forget', 'names')
Added = namedtuple('Added', 'name messages')
Flagged = namedtuple('Flagged', 'name rows')
Gone = namedtuple('Gone', 'name uids')
