"""Damages of a script, line by line."""
import base64
import glob
import json
import os
from typing import NamedTuple

from . import replies, values

NEXT = b'{"next":"script"}'
NEXT_TRANSCRIPT = b'{"next":"transcript"}'
ODD_WORDS = [
    [], [b""], [b"run", b"run"], [b"run", b""], [b"Run"], [b" run"], [b"twin", b"1"], [b"make"], [b"make", b"x"], [b"make", b"0"],
    [b"make", b"07"], [b"make", b"+7"], [b"make", b"20001"], [b"make", b"4294967297"], [b"make", b"9" * 40], [b"make", b"1"],
    [b"make", b"2"], [b"make", b"40"], [b"make", b"7", b"7"], [b"\xff"], [b"run\xc3"], [b"make", b"\xd9\xa3"], [b"x" * 100_000],
]
EVENTS = [
    {"do": "abort", "call": 1}, {"do": "continue", "call": 1}, {"do": "cancel", "call": 1}, {"do": "signin", "call": 1},
    {"do": "shutwindow", "call": 1}, {"do": "idpclose", "page": 2}, {"do": "prevent", "page": 1}, {"do": "closepage", "page": 1},
    {"do": "setstatus", "page": 2, "status": "logged-in"}, {"do": "setstatus", "page": 2, "status": "logged-out"},
    {"do": "choose", "call": 1, "account": "7f3a9c"}, {"do": "load", "page": 1, "url": "https://shop.example/"},
    {"do": "at", "time": 1_800_000_000}, {"do": "at", "time": 2**64 - 1}, {"do": "reply", "call": 1, "to": "accounts", "raw": ""},
    {"do": "have", "what": "silent", "origin": "https://shop.example/"}, {"next": "script"}, {},
]


class Example(NamedTuple):
    """A script of the repository, and the words with which it is run."""

    name: str
    words: list
    text: bytes


def read(path):
    with open(path, "rb") as file:
        return file.read()


def examples(folder):
    """The inputs of the folder with their words, in the order of their names."""
    found = []
    for path in sorted(glob.glob(os.path.join(folder, "*.jsonl"))):
        stem = path.removesuffix(".jsonl")
        if not stem.endswith(".out"):
            words = read(stem + ".words").split() if os.path.exists(stem + ".words") else [b"run"]
            found.append(Example(os.path.basename(stem), words, read(path)))
    return found


class Script:
    """A script as it is damaged, line by line, and what was done to it."""

    def __init__(self, example, others):
        self.words, self.others, self.done = example.words, others, [example.name]
        self.lines = lines_of(example)

    def note(self, what, place=None):
        self.done.append(what if place is None else f"{what} at line {place + 1}")

    def text(self):
        return b"".join(line + b"\n" for line in self.lines)

    def place(self, chance):
        """The place of a line, mostly not that of the header."""
        low = 1 if len(self.lines) > 1 and chance.random() < 0.95 else 0
        return chance.randrange(low, max(len(self.lines), low + 1))

    def event(self, chance, has=lambda event: True):
        """The place of a line that is an object of which this holds, and the object; none where a few tries find none."""
        for _ in range(12):
            place = self.place(chance)
            event = object_of(self.lines[place]) if place < len(self.lines) else None
            if event is not None and has(event):
                return place, event
        return None, None

    def put(self, chance, place, event):
        self.lines[place] = values.dumped(chance, event)


def lines_of(example):
    return example.text.removesuffix(b"\n").split(b"\n")


def object_of(line):
    try:
        event = json.loads(line)
    except (ValueError, RecursionError):
        return None
    return event if isinstance(event, dict) else None


def bytes_of(event):
    """The bytes that an event brings, none where it brings none that can be read."""
    try:
        if isinstance(event.get("text"), str):
            return event["text"].encode()
        return base64.b64decode(event["raw"], validate=True)
    except (KeyError, ValueError, TypeError):
        return None


def give(chance, event, raw):
    """Lets the event bring these bytes, as a text where they are one, or in base64."""
    event.pop("raw", None)
    event.pop("text", None)
    try:
        text = raw.decode()
    except UnicodeDecodeError:
        text = None
    if text is not None and chance.random() < 0.8:
        event["text"] = text
    else:
        event["raw"] = base64.b64encode(raw).decode()


def line_dropped(chance, script):
    place = script.place(chance)
    script.note("dropped", place)
    del script.lines[place : place + chance.choice([1, 1, 1, 2, 5])]


def line_doubled(chance, script):
    place = script.place(chance)
    script.note("doubled", place)
    times = chance.choice([1, 1, 1, 2, 20])
    script.lines[place:place] = script.lines[place : place + 1] * times


def line_moved(chance, script):
    place, to = script.place(chance), script.place(chance)
    script.note(f"moved to line {to + 1}", place)
    moved = script.lines[place : place + 1]
    del script.lines[place : place + 1]
    script.lines[to:to] = moved


def lines_swapped(chance, script):
    place, other = script.place(chance), script.place(chance)
    if max(place, other) < len(script.lines):
        script.note(f"swapped with line {other + 1}", place)
        script.lines[place], script.lines[other] = script.lines[other], script.lines[place]


def lines_joined(chance, script):
    place = script.place(chance)
    script.note("joined with the next", place)
    script.lines[place : place + 2] = [chance.choice([b"", b" ", b"\r", b"\x00", b","]).join(script.lines[place : place + 2])]


def line_cut(chance, script):
    """A line ends early, or in two lines."""
    place = script.place(chance)
    script.note("cut", place)
    line = b"".join(script.lines[place : place + 1])
    at = chance.randrange(len(line) + 1)
    script.lines[place : place + 1] = [line[:at], line[at:]][: chance.choice([1, 2])]


def line_bytes(chance, script):
    place = script.place(chance)
    script.note("bytes", place)
    script.lines[place : place + 1] = [replies.bytes_damaged(chance, b"".join(script.lines[place : place + 1]))]


def line_blank(chance, script):
    place = script.place(chance)
    script.note("blank lines", place)
    blank = chance.choice([b"", b" ", b"\t", b"\r", b" \t\r", b" " * 5000, b"\x0b", b"\x0c", b"\xc2\xa0", b"\x00", b"\xef\xbb\xbf"])
    script.lines[place:place] = [blank] * chance.choice([1, 1, 2, 300])


def line_framed(chance, script):
    """White space or a mark round a line."""
    place = script.place(chance)
    script.note("framed", place)
    line = b"".join(script.lines[place : place + 1])
    front = chance.choice([b"", b" ", b"\t", b"\r", b"\xef\xbb\xbf", b"\x00", b","])
    script.lines[place : place + 1] = [front + line + chance.choice([b"", b" ", b"\r", b"\r\r", b"\x00", b",", b"}"])]


def member_damaged(chance, script):
    place, event = script.event(chance)
    if event is not None:
        script.note("a member", place)
        script.put(chance, place, values.damaged(chance, event))


def url_odd(chance, script):
    """An odd URL at a member of a line, or of its provider."""
    place, event = script.event(chance, lambda event: any(name in event for name in ("url", "origin", "config", "provider", "providers")))
    if event is None:
        return
    script.note("a URL", place)
    holder = event
    if isinstance(event.get("providers"), list) and event["providers"] and isinstance(event["providers"][0], dict):
        holder = event["providers"][0]
    names = [name for name in ("url", "origin", "config", "page", "provider") if isinstance(holder.get(name), str)]
    holder[chance.choice(names or ["url"])] = values.odd_url(chance)
    script.put(chance, place, event)


def number_other(chance, script):
    """Another page, call or provider, of those that may stand in the script."""
    place, event = script.event(chance, lambda event: "call" in event or "page" in event)
    if event is not None:
        script.note("another number", place)
        name = chance.choice([name for name in ("call", "page") if name in event] + ["provider"])
        event[name] = chance.choice([0, 1, 1, 2, 2, 3, 4, 2**32 - 1])
        script.put(chance, place, event)


def reply_damaged(chance, script):
    """Damages the reply that a line brings, once or twice."""
    place, event = script.event(chance, lambda event: bytes_of(event) is not None)
    if event is None:
        return
    if event.get("do") == "have":
        script.note("a cookie", place)
        give(chance, event, values.odd_cookie(chance))
    else:
        parts = replies.Reply(bytes_of(event))
        for damage in chance.choices(replies.DAMAGES, k=chance.choice([1, 1, 1, 2])):
            script.note(damage.__name__, place)
            damage(chance, parts)
            parts.lines = parts.lines or [b""]
        give(chance, event, parts.raw())
    script.put(chance, place, event)


def reply_form(chance, script):
    """The bytes of a reply in base64 that is none, or twice, or of another line."""
    place, event = script.event(chance, lambda event: bytes_of(event) is not None)
    _, other = script.event(chance, lambda event: bytes_of(event) is not None)
    if event is None or other is None:
        return
    script.note("the form of a reply", place)
    code = base64.b64encode(bytes_of(event)).decode()
    way = chance.randrange(4)
    if way == 0:
        give(chance, event, bytes_of(other))
    elif way == 1:
        odd = [code.rstrip("="), code + "=", code + "\n", code[:-1], " " + code, "=" + code, "-_" + code, "", "\u0100"]
        event["raw"] = chance.choice(odd)
        event.pop("text", None)
    elif way == 2:
        event["raw"], event["text"] = code, chance.choice(["", "x", None, 1])
    else:
        give(chance, event, b"")
    script.put(chance, place, event)


def login_added(chance, script):
    """A load of a page that sets statuses and cookies."""
    place, event = script.event(chance, lambda event: event.get("do") == "load")
    if event is not None:
        script.note("statuses and cookies", place)
        parts = replies.Reply(bytes_of(event) or b"HTTP/1.1 200 OK\r\n\r\n")
        replies.cookies(chance, parts)
        replies.logins(chance, parts)
        give(chance, event, parts.raw())
        script.put(chance, place, event)


def event_added(chance, script):
    place = script.place(chance)
    script.note("a line more", place)
    event = dict(chance.choice(EVENTS))
    for name in ("call", "page"):
        if name in event and chance.random() < 0.5:
            event[name] = chance.choice([0, 1, 2, 3, 9, 2**32 - 1])
    script.lines.insert(place + 1, values.dumped(chance, event))


def renumbered(lines, shift):
    """The events among lines with other numbers of pages and calls."""
    for line in lines:
        event = object_of(line)
        if event is not None and "do" in event:
            for name in ("call", "page"):
                if isinstance(event.get(name), int):
                    event[name] += shift
            yield json.dumps(event, ensure_ascii=False, separators=(",", ":")).encode("utf-8", "backslashreplace")


def spliced(chance, script):
    """The events of another example between those of this one."""
    other = chance.choice(script.others)
    script.note("spliced with " + other.name)
    shift = chance.choice([0, 10, 10, 10, 100, 2**32 - 20])
    place = 1
    for line in renumbered(lines_of(other), shift):
        place = min(len(script.lines), place + chance.choice([0, 1, 1, 2]))
        script.lines.insert(place, line)
        place += 1


def paired(chance, script):
    """The script twice, for the word twin."""
    script.note("paired")
    script.words = [b"twin"]
    script.lines = script.lines + [NEXT] + script.lines


def divided(chance, script):
    place = script.place(chance)
    script.note("a dividing line", place)
    script.lines.insert(place + 1, chance.choice([NEXT, b" " + NEXT + b"\r", b'{"next" :"script"}', NEXT + b"\x00", b'{"next":"Script"}']))
    if chance.random() < 0.5:
        script.words = [b"twin"]


def words_odd(chance, script):
    script.words = chance.choice(ODD_WORDS)
    script.note("other words")


# Each as often as the number says.
DAMAGES = {
    line_dropped: 3,
    line_doubled: 3,
    line_moved: 2,
    lines_swapped: 2,
    lines_joined: 1,
    line_cut: 2,
    line_bytes: 4,
    line_blank: 2,
    line_framed: 1,
    member_damaged: 9,
    url_odd: 6,
    number_other: 4,
    reply_damaged: 50,
    reply_form: 3,
    login_added: 5,
    event_added: 5,
    spliced: 6,
    paired: 3,
    divided: 1,
    words_odd: 1,
}
