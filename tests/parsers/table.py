"""The table of replies, and what the words of its cases mean, as go-imap tells it."""
import os, re

from answers import TOP, unescaped


def text_of(field):
    return unescaped(field).decode("utf-8")


def set_of(numbers):
    """Numbers in rising order as a set."""
    runs = []
    for number in map(int, numbers):
        if runs and runs[-1][1] + 1 == number:
            runs[-1][1] = number
        else:
            runs.append([number, number])
    return ",".join(str(a) if a == b else f"{a}:{b}" for a, b in runs)


def rights_of(letters):
    return letters + ("c" if "k" in letters else "") + ("d" if set(letters) & set("xte") else "")


def part_of(text):
    name, value = text.split(" ", 1)
    literal = re.match(r"\{\d+\}\r\n", value)
    if literal:
        return [name, {"literal": value[literal.end():]}]
    if value.startswith("("):
        return [name, [flag for flag in value[1:-1].split(" ") if flag]]
    return [name, value]


ATTRIBUTES = {"None": [], "NoSelect": ["\\Noselect"], "NonExistent": ["\\NonExistent"]}
ENDS = {
    "Logout": "bye", "Gone": "mailbox is gone", "Lost": "server lost", "LineTooLong": "line too long",
    "LiteralTooLong": "literal too long",
}


def status_of(kind, rest):
    """What an untagged status means, as a code, its arguments and a text; None of another kind."""
    if kind == "closed":
        return "OK", "CLOSED", [], "closed"
    if kind == "bye":
        return "BYE", "UNAVAILABLE" if rest[0] == "Lost" else "", [], ENDS[rest[0]]
    if kind in ("permanent", "new permanent"):
        return "OK", "PERMANENTFLAGS", [rest + (["\\*"] if kind != "permanent" else [])], "flags"
    if kind in ("next", "validity"):
        return "OK", "UIDNEXT" if kind == "next" else "UIDVALIDITY", [rest[0]], kind
    return None


def fields_of(kind, rest, tag):
    """What a line with data means."""
    if kind == "capability":
        return ["CAPABILITY", "IMAP4rev2", "AUTH=PLAIN"]
    if kind == "enabled":
        return ["ENABLED"]
    if kind == "flags":
        return ["FLAGS", rest]
    if kind in ("exists", "expunge"):
        return [rest[0], kind.upper()]
    if kind == "list":
        return ["LIST", ATTRIBUTES[rest[0]], ".", rest[1]]
    if kind == "status":
        return ["STATUS", rest[0], [field for count in rest[1:] for field in ("MESSAGES", count)]]
    if kind in ("search", "uid search"):
        found = ["ALL", set_of(rest)] if rest else []
        return ["ESEARCH", ["TAG", tag], *(["UID"] if kind != "search" else []), *found]
    if kind == "fetch":
        return [rest[0], "FETCH", [field for part in rest[1:] for field in part_of(part)]]
    if kind == "acl":
        words = rest[1].split("\t")[:-1]
        return ["ACL", rest[0], *(rights_of(word) if place % 2 else word for place, word in enumerate(words))]
    assert kind == "rights", kind
    return ["MYRIGHTS", rest[0], rights_of(rest[1])]


def line_of(words, tag):
    """What one line of a table means."""
    kind, rest = words[0], [text_of(word) for word in words[1:]]
    status = status_of(kind, rest)
    return ["status", "*", *status] if status else ["data", "*", fields_of(kind, rest, tag)]


REFUSALS = {
    "AuthenticationFailed": ("AUTHENTICATIONFAILED", "login failed"), "AlreadyExists": ("ALREADYEXISTS", "mailbox exists"),
    "NonExistent": ("NONEXISTENT", "no such mailbox"), "TryCreate": ("TRYCREATE", "no such mailbox"),
    "NoPerm": ("NOPERM", "not permitted"), "Cannot": ("CANNOT", "cannot be done"), "Limit": ("LIMIT", "too large or too many"),
    "BeingMoved": ("UNAVAILABLE", "mailbox is being moved"), "NotReached": ("UNAVAILABLE", "server not reached"),
}
FAULTS = {"Syntax": "syntax error", "State": "not in this state", "Message": "no such message"}
NAMES = {"expunge issued": "EXPUNGEISSUED", "read write": "READ-WRITE", "read only": "READ-ONLY"}


def verdict_of(words, tag):
    if words[0] == "nothing":
        return []
    if words[0] == "no":
        code, info = REFUSALS[words[1]]
        return [["status", tag, "NO", code, [], info]]
    if words[0] == "bad":
        return [["status", tag, "BAD", "", [], FAULTS[words[1]]]]
    assert words[0] == "ok", words
    info, code = words[1] + " completed", words[2:]
    if not code:
        return [["status", tag, "OK", "", [], info]]
    if code[0] == "append":
        return [["status", tag, "OK", "APPENDUID", code[1:], info]]
    if code[0] == "copy":
        sets = [set_of(code[2].split(" ")), set_of(code[3].split(" "))]
        return [["status", tag, "OK", "COPYUID", [code[1]] + sets, info]]
    return [["status", tag, "OK", NAMES[code[0]], [], info]]


def table():
    """The cases of the table of replies: a name, the tag, the bytes, what is meant."""
    for line in open(os.path.join(TOP, "tests/parsers/replies.txt"), encoding="utf-8"):
        line = line.rstrip("\n")
        if not line or line.startswith("#"):
            continue
        given, text = line.split(" => ")
        tag, lines, verdict = given.split(" | ")
        tag = text_of(tag)
        meant = [line_of(one.split("/"), tag) for one in lines.split(" ; ") if one] + verdict_of(verdict.split("/"), tag)
        yield line, tag, unescaped(text), meant
