"""What a client is replied (RFC 9051, 6 and 7, in the profile of docs/imap.md): Session(setting) begins a command, which is replied at once or asks for a
mailbox, and finishes it by what came of that. Nothing here knows a node, so the one store of one_store.py replies by it too.
"""
import base64, binascii, re
from collections import namedtuple

from commands import LEFT_OUT, MONTHS, SYSTEM, is_utf8, keywords
from mailboxes import GONE, LIMIT, MISSING, Ask

SYNTAX, STATE, MESSAGE = b'BAD syntax error', b'BAD not in this state', b'BAD no such message'
CANNOT, NO_RIGHT = b'NO [CANNOT] cannot be done', b'NO [NOPERM] not permitted'
REFUSALS = {'reserved': b'NO [UNAVAILABLE] mailbox is being moved', 'unreached': b'NO [UNAVAILABLE] server not reached'}
CLOSED = b'* OK [CLOSED] closed\r\n'
NOT_DONE = LEFT_OUT + (b'COPY', b'UID COPY', b'XFER')
NAMED_MAILBOX = (b'CREATE', b'DELETE', b'APPEND', b'STATUS', b'SELECT', b'EXAMINE')
ANY_STATE, LOGGED_OUT = (b'CAPABILITY', b'NOOP', b'LOGOUT'), (b'LOGIN', b'AUTHENTICATE')
LOGGED_IN = NOT_DONE + NAMED_MAILBOX + (b'LIST', b'ENABLE', b'IDLE')  # the others need a mailbox that is selected
BY_NUMBER = (b'FETCH', b'STORE', b'SEARCH')

# The lines and the text behind the tag, if there is one; and whether the connection ends.
Reply = namedtuple('Reply', 'text lines ends', defaults=(b'', False))
GONE_REPLY = Reply(None, b'* BYE mailbox is gone\r\n', True)


class Setting:
    """The users, and the date of messages without one."""

    def __init__(self, config):
        self.users = {u['name'].encode(): (u['password'].encode(), u.get('admin', False)) for u in config['users']}
        self.date = config['date'].encode()

    def is_admin(self, user):
        return self.users[user][1]

    def user_of(self, user, password):
        return user if self.users.get(user, (None,))[0] == password else None

    def user_told(self, response):
        """The user of a PLAIN response (RFC 4616, 2), or None; the empty one, which `=` is too, has none."""
        try:
            message = base64.b64decode(response, validate=True)
        except binascii.Error:
            return None
        parts = message.split(b'\0')
        is_strict = base64.b64encode(message) == response
        return self.user_of(*parts[1:]) if is_strict and len(parts) == 3 and parts[0] in (b'', parts[1]) else None


def printed_reply(tag, reply):
    return reply.lines + (b'' if reply.text is None else tag + b' ' + reply.text + b'\r\n')


def completed(word, lines=b''):
    return Reply(b'OK ' + word + b' completed', lines)


# Names, rights, and the lines of LIST.

def is_name(name):
    return is_utf8(name) and 0 < len(name) <= 255 and not re.search(rb'[\x00-\x1f\x7f"\\%*]', name) and b'' not in name.split(b'.')


def with_inbox(text, top):
    """The text with this in place of a first level that is INBOX in any case."""
    return top + text[5:] if text[:5].lower() == b'inbox' and text[5:6] in (b'', b'.') else text


def is_own(user, name):
    """Whether a name is that of the user's own mailbox, or below it."""
    return (name + b'.').startswith(b'user.' + user + b'.')


def shown_name(user, name):
    return b'INBOX' + name[len(b'user.' + user):] if is_own(user, name) else name


def levels_above(name):
    return [name[:at] for at, byte in enumerate(name) if byte == ord('.')]


def fits(pattern, text):
    """Whether a text fits a pattern: `*` stands for any bytes, `%` for any without a dot. At each byte of the pattern the places are known behind it."""
    places = {0}
    for wanted in pattern:
        if wanted not in b'*%':
            places = {place + 1 for place in places if text[place:place + 1] == bytes([wanted])}
            continue
        for place, byte in enumerate(text):
            if place in places and (wanted == ord('*') or byte != ord('.')):
                places.add(place + 1)
    return len(text) in places


def listed(names, pattern):
    """What LIST tells of the shown names of mailboxes, by name (RFC 9051, 6.3.9)."""
    told = {name: b'' for name in names if fits(pattern, name)}
    if pattern.endswith(b'%'):
        for level in {level for name in names for level in levels_above(name)}:
            if fits(pattern, level):
                told.setdefault(level, b'\\NonExistent')
    return sorted(told.items())


def missing(word):
    return b'NO [TRYCREATE] no such mailbox' if word == b'APPEND' else b'NO [NONEXISTENT] no such mailbox'


def printed_name(shown):
    """A mailbox's name in a reply: an atom where it is one and isn't NIL, else quoted."""
    return shown if shown.upper() != b'NIL' and re.fullmatch(rb'[!#$&\'+,\-./0-9:;<=>?@A-Z\[^_`a-z|}~]+', shown) else b'"' + shown + b'"'


def printed(flags):
    return b'(' + b' '.join([flag for flag in SYSTEM if flag in flags] + keywords(flags)) + b')'


def printed_set(numbers):
    """Rising numbers, those that follow one another as a range."""
    runs = []
    for number in numbers:
        if runs and runs[-1][1] + 1 == number:
            runs[-1][1] = number
        else:
            runs.append([number, number])
    return b','.join(b'%d' % low if low == high else b'%d:%d' % (low, high) for low, high in runs)


def is_in_set(number, ranges, last):
    """Whether a set has a number, `*` being the last one."""
    ranges = [sorted(last if end is None else end for end in part) for part in ranges]
    return any(low <= number <= high for low, high in ranges)


def has_numbers(ranges, count):
    """Whether each number of a set is one of a view of so many messages."""
    return all(0 < (count if end is None else end) <= count for part in ranges for end in part)


def named(uids, is_uid, ranges):
    """The UIDs of a view that a set names."""
    last = (uids[-1] if is_uid else len(uids)) if uids else 0
    return [uid for number, uid in enumerate(uids, 1) if is_in_set(uid if is_uid else number, ranges, last)]


def number_sets(keys):
    """The sets of message numbers in search keys, however deep they stand."""
    for name, rest in keys:
        if name in (b'AND', b'OR', b'NOT'):
            yield from number_sets(rest)
        elif name == b'NUMBERS':
            yield rest


def day_of(date):
    """The day of a date text, as its client wrote it."""
    return int(date[7:11]), MONTHS.index(date[3:6].lower()), int(date[:2])


FLAG_KEYS = {flag[1:].upper(): flag for flag in SYSTEM}


def matches(key, uids, uid, message):
    """Whether a search key has a message of the view with these UIDs (RFC 9051, 6.4.4)."""
    name, rest = key
    if name in (b'AND', b'OR', b'NOT'):
        inner = [matches(part, uids, uid, message) for part in rest]
        return not inner[0] if name == b'NOT' else any(inner) if name == b'OR' else all(inner)
    if name.removeprefix(b'UN') in FLAG_KEYS:
        return (FLAG_KEYS[name.removeprefix(b'UN')] in message.flags) != name.startswith(b'UN')
    if name in (b'KEYWORD', b'UNKEYWORD'):
        return (rest in message.flags) == (name == b'KEYWORD')
    if name in (b'LARGER', b'SMALLER'):
        return len(message.body) > rest if name == b'LARGER' else len(message.body) < rest
    if name == b'ALL':
        return True
    if name == b'UID':
        return is_in_set(uid, rest, uids[-1])
    if name == b'NUMBERS':
        return is_in_set(uids.index(uid) + 1, rest, len(uids))
    day = day_of(message.date)
    return {b'BEFORE': day < rest, b'ON': day == rest, b'SINCE': day >= rest}[name]


def body_text(body, partial):
    """A body, or a part of it from a place on."""
    if partial is None:
        return b'BODY[] {%d}\r\n%s' % (len(body), body)
    origin, count = partial
    octets = body[origin:origin + count]
    return b'BODY[]<%d> {%d}\r\n%s' % (origin, len(octets), octets)


class View:
    """A selected mailbox, as its client was last told of it: flags by UID, in their order."""

    def __init__(self, name, is_writable, serial, rows):
        self.name, self.is_writable, self.serial, self.rows = name, is_writable, serial, rows

    def number(self, uid):
        return list(self.rows).index(uid) + 1

    def uids_asked(self, word, asks):
        """The UIDs that a command names, or None where it has a message number that isn't there."""
        uids, is_uid = list(self.rows), word.startswith(b'UID ')
        numbers = list(number_sets(asks.get('keys', []))) + ([asks['set']] if 'set' in asks and not is_uid else [])
        if not all(has_numbers(ranges, len(uids)) for ranges in numbers):
            return None
        return named(uids, is_uid, asks['set']) if 'set' in asks else uids

    def reply(self, tag, word, asks, found, now):
        """The lines of a command, its own and then the news, and its tagged text (RFC 9051, 6.4)."""
        uids, lines, told, text = asks['uids'], b'', [], b'OK ' + word + b' completed'
        if word.endswith(b'FETCH'):
            lines = b''.join(self.fetched(uid, word, asks['items'], found[uid], now[uid]) for uid in found)
            told = [uid for uid in found if (b'FLAGS', None) in asks['items'] or found[uid].flags != now[uid]]
        elif word.endswith(b'SEARCH'):
            lines = self.searched(tag, word, asks['keys'], found)
        elif word.endswith(b'STORE') and not found:
            return self.news(now, word == b'UID STORE', []), LIMIT
        elif word.endswith(b'STORE'):
            if not asks['silent']:
                lines = b''.join(self.stored(uid, word, now[uid]) for uid in uids if uid in now)
            told = uids
        if word in BY_NUMBER and any(uid not in now for uid in uids):
            text = b'OK [EXPUNGEISSUED] ' + word + b' completed'
        return lines + self.news(now, word not in BY_NUMBER, told), text

    def fetched(self, uid, word, items, message, flags):
        """One message's line: the items in their order, UID first and FLAGS last where they come unasked."""
        if word == b'UID FETCH' and (b'UID', None) not in items:
            items = [(b'UID', None)] + items
        if message.flags != flags and (b'FLAGS', None) not in items:
            items = items + [(b'FLAGS', None)]
        parts = {b'UID': b'UID %d' % uid, b'FLAGS': b'FLAGS ' + printed(flags), b'INTERNALDATE': b'INTERNALDATE "' + message.date + b'"',
                 b'RFC822.SIZE': b'RFC822.SIZE %d' % len(message.body)}
        texts = [parts[name] if name in parts else body_text(message.body, partial) for name, partial in items]
        return b'* %d FETCH (%s)\r\n' % (self.number(uid), b' '.join(texts))

    def searched(self, tag, word, keys, found):
        """The line of a SEARCH (RFC 9051, 7.3.4)."""
        uids = list(self.rows)
        hits = [uid for uid in found if all(matches(key, uids, uid, found[uid]) for key in keys)]
        numbers = hits if word == b'UID SEARCH' else [self.number(uid) for uid in hits]
        line = b'* ESEARCH (TAG "' + tag + b'")' + (b' UID' if word == b'UID SEARCH' else b'')
        return line + (b' ALL ' + printed_set(numbers) if numbers else b'') + b'\r\n'

    def stored(self, uid, word, flags):
        named_so = b'UID %d ' % uid if word == b'UID STORE' else b''
        return b'* %d FETCH (%sFLAGS %s)\r\n' % (self.number(uid), named_so, printed(flags))

    def news(self, now, expunges, told):
        """The lines that tell of what was changed since (RFC 9051, 7.5.1, 7.4.1 and 7.5.2); of the flags of `told` they tell nothing."""
        lines, old, last = [], dict(self.rows), max(self.rows, default=0)
        for uid in old if expunges else []:
            if uid not in now:
                lines.append(b'* %d EXPUNGE\r\n' % self.number(uid))
                del self.rows[uid]
        self.rows.update({uid: flags for uid, flags in now.items() if uid in old or uid > last})
        if max(now, default=0) > last:
            lines.append(b'* %d EXISTS\r\n' % len(self.rows))
        for uid in old:
            if uid in now and uid not in told and now[uid] != old[uid]:
                lines.append(b'* %d FETCH (UID %d FLAGS %s)\r\n' % (self.number(uid), uid, printed(now[uid])))
        return b''.join(lines)


def opened(box_name, is_writable, now, serial, uidnext):
    """The lines of a SELECT or EXAMINE (RFC 9051, 6.3.2)."""
    flags = printed(frozenset(SYSTEM).union(*now.values()))
    permanent = flags[:-1] + b' \\*)' if is_writable else b'()'
    return b'\r\n'.join([b'* FLAGS ' + flags, b'* %d EXISTS' % len(now), b'* LIST () "." ' + box_name,
                         b'* OK [PERMANENTFLAGS ' + permanent + b'] flags', b'* OK [UIDNEXT %d] next' % uidnext,
                         b'* OK [UIDVALIDITY %d] validity' % serial, b''])


class Session:
    """One client's: who logged in, and the view of the mailbox that is selected."""

    def __init__(self, setting):
        self.setting, self.user, self.view = setting, None, None

    def is_in_state(self, word):
        if word in ANY_STATE:
            return True
        if word in LOGGED_OUT:
            return self.user is None
        return self.user is not None and (word in LOGGED_IN or self.view is not None)

    def waits_for_line(self, word, asks):
        """Whether a command goes on with the next line, and what its client is given before it."""
        if word == b'IDLE' and self.is_in_state(word) and 'line' not in asks:
            return b'+ idling\r\n'
        if word == b'AUTHENTICATE' and self.is_in_state(word) and not asks['response'] and 'line' not in asks:
            return b'+ \r\n'

    def begin(self, word, asks):
        """The reply to a command, or what it asks for."""
        if word is None or not self.is_in_state(word):
            return Reply(STATE if word else SYNTAX)
        if word in NOT_DONE:
            return Reply(CANNOT)
        if word in (b'CAPABILITY', b'ENABLE', b'LOGOUT'):
            return self.alone(word)
        if word == b'LOGIN':
            return self.logged_in(word, self.setting.user_of(asks['name'], asks['more']))
        if word == b'AUTHENTICATE':
            response = asks.get('line', asks['response'])
            return Reply(SYNTAX) if response == b'*' else self.logged_in(word, self.setting.user_told(response))
        if word == b'IDLE' and asks['line'].upper() != b'DONE':
            return Reply(SYNTAX)
        if word == b'LIST':
            return self.listing(asks)
        return self.of_name(word, asks) if word in NAMED_MAILBOX else self.of_view(word, asks)

    def alone(self, word):
        """A command that needs neither a user nor a mailbox."""
        lines = {b'CAPABILITY': b'* CAPABILITY IMAP4rev2 AUTH=PLAIN\r\n', b'ENABLE': b'* ENABLED\r\n', b'LOGOUT': b'* BYE bye\r\n'}
        return completed(word, lines[word])._replace(ends=word == b'LOGOUT')

    def logged_in(self, word, user):
        self.user = user
        return completed(word) if user else Reply(b'NO [AUTHENTICATIONFAILED] login failed')

    def may(self, name):
        return self.setting.is_admin(self.user) or is_own(self.user, name)

    def listing(self, asks):
        """LIST; an empty mailbox name asks for the separator of levels alone."""
        if not asks['pattern']:
            return completed(b'LIST', b'* LIST (\\Noselect) "." ""\r\n')
        return Ask(None, b'LIST', asks | {'pattern': with_inbox(asks['name'] + asks['pattern'], b'INBOX')})

    def of_name(self, word, asks):
        """A command on a mailbox that it names."""
        text, own = asks['name'], b'user.' + self.user
        if word == b'CREATE' and text.endswith(b'.'):
            text = text[:-1]
        name = with_inbox(text, own)
        if word in (b'CREATE', b'DELETE') and text.lower() == b'inbox':
            refusal = CANNOT
        elif not is_name(name):
            refusal = missing(word)
        elif not self.may(name) or word == b'CREATE' and name == own and not self.setting.is_admin(self.user):
            refusal = NO_RIGHT
        else:
            return Ask(name, word, asks)
        return Reply(refusal, self.closed(word))

    def of_view(self, word, asks):
        """A command of a selected session, by UIDs."""
        view = self.view
        if not view:
            return completed(word)
        uids = view.uids_asked(word, asks)
        if uids is None:
            return Reply(MESSAGE)
        if word.endswith((b'STORE', b'EXPUNGE')) and not view.is_writable:
            return Reply(CANNOT)
        if word == b'UNSELECT' or word == b'CLOSE' and not view.is_writable:
            self.view = None
            return completed(word)
        is_seen = view.is_writable and any(name == b'BODY[]' for name, _ in asks.get('items', []))
        return Ask(view.name, word, asks | {'uids': uids, 'is_seen': is_seen}, view.serial)

    def closed(self, word):
        """What is told of the mailbox that was selected where another one is asked for."""
        if word not in (b'SELECT', b'EXAMINE') or not self.view:
            return b''
        self.view = None
        return CLOSED

    def relocated(self, ask, why):
        """The reply where the mailbox is being moved, made or deleted, or a server isn't reached (RFC 5530, 3)."""
        return Reply(REFUSALS[why], self.closed(ask.word))

    def finish(self, tag, ask, outcome):
        """The reply by what came of an ask; of LIST came the names of mailboxes."""
        name, word, asks, serial = ask
        if word == b'LIST':
            told = listed([shown_name(self.user, name) for name in outcome if self.may(name)], asks['pattern'])
            return completed(word, b''.join(b'* LIST (%s) "." %s\r\n' % (attribute, printed_name(name)) for name, attribute in told))
        if outcome == GONE or outcome == MISSING and serial is not None:
            return GONE_REPLY
        lines = self.closed(word)
        if outcome == MISSING:
            return Reply(missing(word), lines)
        if isinstance(outcome, bytes):
            return Reply(outcome, lines)
        if word == b'STATUS':
            counts = b' '.join(b'%s %d' % (item, outcome[0][item]) for item in asks['items'])
            return completed(word, b'* STATUS %s (%s)\r\n' % (printed_name(shown_name(self.user, name)), counts))
        if word in (b'SELECT', b'EXAMINE'):
            return self.selected(ask, lines, *outcome[1:])
        if word == b'CLOSE':
            self.view = None
            return completed(word)
        lines, text = self.view.reply(tag, word, asks, *outcome[:2])
        return Reply(text, lines)

    def selected(self, ask, lines, now, serial, uidnext):
        is_writable = ask.word == b'SELECT'
        self.view = View(ask.name, is_writable, serial, now)
        text = (b'OK [READ-WRITE] ' if is_writable else b'OK [READ-ONLY] ') + ask.word + b' completed'
        return Reply(text, lines + opened(printed_name(shown_name(self.user, ask.name)), is_writable, now, serial, uidnext))
