"""What Mail::IMAPTalk makes of an answer that means such lines."""
import re


def text_of(status):
    """What it gives of a refusal: all that stands behind NO or BAD."""
    code, arguments, info = status[3:]
    return f"[{' '.join([code] + arguments)}] {info}" if code else info


def code_means(code, arguments):
    """The items that a code makes: of one that it doesn't know, what stands behind its name as a text."""
    name = code.lower()
    if name in ("permanentflags", "uidnext", "uidvalidity"):
        return {name: arguments[0]}
    if name in ("appenduid", "copyuid"):
        return {name: arguments}
    if name in ("read-write", "read-only"):
        return {name: 1, "foldermode": name}
    assert name in ("closed", "expungeissued") and not arguments, code
    return {name: ""}


def fetch_means(parts):
    """The items of one FETCH line by their names; a body's section and place are not in its name, so of its parts the last stays."""
    pairs = zip(parts[::2], parts[1::2])
    return {re.sub(r"\[\](<\d+>)?", "", name.lower()): value["literal"] if isinstance(value, dict) else value for name, value in pairs}


def search_text(fields):
    (word, tag), *rest = fields
    return " ".join([f'({word} "{tag}")', *rest])


def add_data(items, fields):
    """A line that isn't of a message: the last of its name, of LIST each, of STATUS the last of each mailbox."""
    name, rest = fields[0].lower(), fields[1:]
    if name in ("capability", "enabled"):
        items[name] = {word.lower(): 1 for word in rest}
    elif name == "list":
        items.setdefault(name, []).append(rest)
    elif name == "status":
        counts = rest[1]
        items.setdefault(name, {})[rest[0]] = {item.lower(): count for item, count in zip(counts[::2], counts[1::2])}
    elif name == "acl":
        items[name] = rest[1:]
    elif name == "esearch":
        items[name] = search_text(rest)
    else:
        assert name in ("flags", "myrights"), name
        items[name] = rest


def talk_means(meant):
    """The status and the result of the answer, its lines about messages in their order, and the items of all others."""
    items, messages, result = {}, [], None
    for kind, _, *rest in meant:
        if kind == "data" and rest[0][0].isdigit():
            number, name, *parts = rest[0]
            messages.append([name.lower(), number] + [fetch_means(part) for part in parts])
        elif kind == "data":
            add_data(items, rest[0])
        elif rest[0] == "OK":
            items.update(code_means(rest[1], rest[2]) if rest[1] else {}, remainder=rest[3])
        elif rest[0] == "BYE":
            items["bye"] = text_of([kind, "", *rest])
        else:
            result = text_of([kind, "", *rest])
    _, _, status, code, *_ = meant[-1]
    return {"status": status.lower(), "result": result or code.lower() or "ok", "messages": messages, "items": items, "left": 0}
