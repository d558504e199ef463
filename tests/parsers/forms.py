"""The forms of the responses that the server writes (RFC 9051, 7, and RFC 4314, 3.6 and 3.8), told as go-imap tells them."""
import re


def text(form):
    return lambda field: isinstance(field, str) and re.fullmatch(form, field, re.A) is not None


def listed(form):
    return lambda field: isinstance(field, list) and all(map(form, field))


def pairs(values):
    """A list of names, each with a value of its own form behind it; the place that a part of a body begins at is passed over."""
    def is_pair(name, value):
        name = re.sub(r"(?<=\[\])<\d+>\Z", "", name, flags=re.A) if isinstance(name, str) else None
        return name in values and values[name](value)

    def fits(field):
        return isinstance(field, list) and len(field) % 2 == 0 and all(map(is_pair, field[::2], field[1::2]))
    return fits


def is_literal(field):
    return isinstance(field, dict)


ANY, NUMBER, POSITIVE, SET = text(r"(?s).*"), text(r"\d+"), text(r"[1-9]\d*"), text(r"[1-9]\d*(?:[:,][1-9]\d*)*")
FLAGS, PERMANENT = listed(text(r"\\?[^\\*]+")), listed(text(r"\\?[^\\*]+|\\\*"))
DATE = text(r"[ \d]\d-[A-Za-z]{3}-\d{4} \d\d:\d\d:\d\d [+-]\d{4}")
PARTS = pairs({"UID": POSITIVE, "FLAGS": FLAGS, "INTERNALDATE": DATE, "RFC822.SIZE": NUMBER, "BODY[]": is_literal})
COUNTS = pairs({"MESSAGES": NUMBER, "UIDNEXT": POSITIVE, "UIDVALIDITY": POSITIVE, "UNSEEN": NUMBER, "DELETED": NUMBER, "SIZE": NUMBER})

# Of each name: the forms of the fields behind it, and the form of any further ones.
CODES = {
    "PERMANENTFLAGS": ([PERMANENT], None), "UIDNEXT": ([POSITIVE], None), "UIDVALIDITY": ([POSITIVE], None),
    "APPENDUID": ([POSITIVE, SET], None), "COPYUID": ([POSITIVE, SET, SET], None), "CAPABILITY": ([], ANY),
}
for bare in ("", "CLOSED", "EXPUNGEISSUED", "READ-WRITE", "READ-ONLY", "AUTHENTICATIONFAILED", "ALREADYEXISTS", "NONEXISTENT", "TRYCREATE",
             "NOPERM", "CANNOT", "LIMIT", "UNAVAILABLE"):
    CODES[bare] = ([], None)
DATA = {
    "CAPABILITY": ([], ANY), "ENABLED": ([], ANY), "FLAGS": ([FLAGS], None), "LIST": ([FLAGS, ANY, ANY], None),
    "STATUS": ([ANY, COUNTS], None), "ESEARCH": ([pairs({"TAG": ANY})], text(r"UID|ALL|[\d:,]+")),
    "ACL": ([ANY], ANY), "MYRIGHTS": ([ANY, ANY], None),
}
OF_A_NUMBER = {"EXISTS": ([NUMBER], None), "EXPUNGE": ([POSITIVE], None), "FETCH": ([POSITIVE, PARTS], None)}


def fit(name, fields, forms):
    if not isinstance(name, str) or name not in forms:
        return False
    firsts, more = forms[name]
    here, rest = fields[:len(firsts)], fields[len(firsts):]
    if len(here) < len(firsts) or not all(first(field) for first, field in zip(firsts, here)):
        return False
    return all(map(more, rest)) if more else not rest


def is_known(response):
    """Whether a response is of a form above: a text of another may be well cut, and yet mean nothing."""
    kind, tag, *rest = response
    if kind == "go on":
        return True
    if kind == "status":
        return fit(rest[1], rest[2], CODES)
    fields = rest[0]
    if tag != "*" or not fields:
        return False
    if NUMBER(fields[0]) and len(fields) > 1:
        return fit(fields[1], fields[:1] + fields[2:], OF_A_NUMBER)
    return fit(fields[0], fields[1:], DATA)
