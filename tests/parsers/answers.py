"""The answers in stored replays, and what they mean: read by RFC 9051, 9, without any code of the parsers that are fed."""
import glob, os, re, sys

from forms import is_known

TOP = os.path.dirname(os.path.dirname(os.path.dirname(os.path.abspath(__file__))))
STORED = ("tests/replays/*/stdout", "examples/*/stdout")


class Unread(Exception):
    """A text that isn't a response."""


def unescaped(text):
    """The bytes that a field of a table or a printed text writes."""
    out, data, at = bytearray(), text.encode(), 0
    while at < len(data):
        if data[at] != 92:
            out.append(data[at]); at += 1
            continue
        kind = chr(data[at + 1])
        if kind in "rn\\":
            out += {"r": b"\r", "n": b"\n", "\\": b"\\"}[kind]; at += 2
        elif kind == "x":
            out.append(int(data[at + 2:at + 4], 16)); at += 4
        else:
            colon, end = data.index(b":", at), data.index(b"]", at)
            out += data[colon + 1:end] * int(data[at + 2:colon]); at = end + 1
    return bytes(out)


class Reader:
    """Reads the responses in a text, one behind the other, as go-imap tells them."""

    # an atom, a flag, a set, or the name of a body or of a part of one: a bracket ends it, except that of a section
    ATOM = rb'([^\x00-\x20\x7f-\xff(){"\[\]]+(?:\[\](?:<\d+>)?)?)'
    QUOTED = rb'"((?:[^"\\\r\n]|\\["\\])*)"'

    def __init__(self, text):
        self.text, self.at = text, 0

    def next_is(self, octets):
        return self.text.startswith(octets, self.at)

    def take(self, form):
        found = re.compile(form).match(self.text, self.at)
        if not found:
            raise Unread(f"no {form} at {self.at}, {self.text[self.at:self.at + 40]}")
        self.at = found.end()
        return found

    def literal(self):
        octets = int(self.take(rb"\{(\d+)\}\r\n")[1])
        end = self.at + octets
        if end > len(self.text):
            raise Unread(f"a literal of {octets} octets ends with the text")
        literal, self.at = self.text[self.at:end], end
        return {"literal": literal.decode(errors="replace")}

    def field(self):
        if self.next_is(b"("):
            return self.fields(b"(", b")")
        if self.next_is(b"{"):
            return self.literal()
        if self.next_is(b'"'):
            return re.sub(rb"\\(.)", rb"\1", self.take(self.QUOTED)[1]).decode()
        return self.take(self.ATOM)[1].decode()

    def fields(self, begin, end):
        """Fields with just one space between them."""
        self.take(re.escape(begin))
        fields = []
        while not self.next_is(end):
            if fields:
                self.take(b" ")
            fields.append(self.field())
        self.take(re.escape(end))
        return fields

    def status(self, tag, kind):
        name, *arguments = (self.fields(b"[", b"] ") or [None]) if self.next_is(b"[") else [""]
        return ["status", tag, kind, name, arguments, self.take(rb"([^\r\n]+)\r\n")[1].decode()]

    def response(self):
        if self.next_is(b"+"):
            return ["go on", self.take(rb"\+ ([^\r\n]*)\r\n")[1].decode()]
        tag = self.take(rb"(\*|[^\x00-\x20\x7f-\xff(){%*\"\\+]+) ")[1].decode()
        kind = self.take(rb"(?:(OK|NO|BAD|BYE) )?")[1]
        told = self.status(tag, kind.decode()) if kind else ["data", tag, self.fields(b"", b"\r\n")]
        if not is_known(told):
            raise Unread(f"no form of {told}")
        return told


def is_untagged(response):
    return response[0] != "go on" and response[1] == "*"


def answers_in(text):
    """The greeting, and each answer in a connection's text behind it: untagged responses up to a tagged one or a go-ahead."""
    reader, start, meant = Reader(text), 0, []
    while reader.at < len(text):
        meant.append(reader.response())
        if start == 0 or not is_untagged(meant[-1]):
            yield text[start:reader.at], meant
            start, meant = reader.at, []
    if meant:
        yield text[start:], meant


def texts_in(path):
    """What a replay gave each connection: its lines `to` are cut behind each LF, within a literal too."""
    texts = {}
    for line in open(path, encoding="utf-8"):
        word, _, rest = line.rstrip("\n").partition(" ")
        if word == "to":
            connection, _, piece = rest.partition(" ")
            texts[connection] = texts.get(connection, b"") + unescaped(piece)
    return texts


def replays():
    """The cases of the stored replays: a name, the tag, the bytes, what is meant. Clients at the master speak MUPDATE, which is left out."""
    for path in sorted(path for form in STORED for path in glob.glob(os.path.join(TOP, form))):
        for connection, text in texts_in(path).items():
            if text.startswith(b"* AUTH\r\n"):
                continue
            name = f"{os.path.relpath(path, TOP)}: connection {connection}"
            try:
                for number, (answer, meant) in enumerate(answers_in(text)):
                    yield f"{name}: answer {number}", meant[-1][1], answer, meant
            except Unread as error:
                sys.exit(f"{name}: {error}")
