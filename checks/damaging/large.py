"""Damages that make a script long, up to some megabytes."""
import json

from . import replies, scripts, values

CONFIG = "https://accounts.idp.example/fedcm.json"
ENDPOINTS = {"accounts_endpoint": "/accounts", "id_assertion_endpoint": "/assert", "login_url": "/login"}
OK = "HTTP/1.1 200 OK\r\nContent-Type: application/json\r\n\r\n"


def repeat(piece, size):
    return piece * (size // len(piece) + 1)


def text_long(chance, script, size):
    """A long text at a member of a line, or of its provider."""
    place, event = script.event(chance)
    if event is not None:
        script.note("a long text", place)
        texts = [(holder, key) for holder, key in values.places(event) if isinstance(holder[key], str) and key != "do"]
        holder, key = chance.choice(texts or [(event, "more")])
        front = holder.get(key, "") if chance.random() < 0.5 else ""
        holder[key] = front + values.long_text(chance, size // 4)
        script.put(chance, place, event)


def values_many(chance, script, size):
    """Many small values in a member that nobody reads, or in the body of a reply."""
    piece = chance.choice(["{}", "[]", "0", '""', "null", '{"":0}', "[[]]", '"\\\\u0041"', "1e5", "123456789012345678"])
    many = values.literal("[" + repeat(piece + ",", size) + piece + "]")
    inside = chance.random() < 0.5
    place, event = script.event(chance, lambda event: not inside or scripts.bytes_of(event) is not None)
    if event is None:
        return
    script.note("many values of " + piece, place)
    if inside:
        parts = replies.Reply(scripts.bytes_of(event))
        body = scripts.object_of(parts.body) or {}
        parts.body = values.dumped(chance, {**body, "more": many})
        scripts.give(chance, event, parts.raw())
    else:
        event["more"] = many
    script.put(chance, place, event)


def members_many(chance, script, size):
    """Many members in a line, of one name or of many."""
    place, event = script.event(chance)
    if event is not None:
        script.note("many members", place)
        one = chance.random() < 0.5
        members = ",".join('"a":0' if one else f'"a{number}":{number}' for number in range(size // 12))
        line = values.dumped(chance, event)
        script.lines[place] = line[: line.rindex(b"}")] + b"," + members.encode() + b"}"


def nested_deep(chance, script, size):
    place = script.place(chance)
    script.note("deep nesting", place)
    script.lines[place : place + 1] = [values.dumped(chance, {"do": "x", "a": values.nested(chance, size)})]


def accounts_long(chance, script, size):
    """A long list of accounts, of one id, of many, or with long lists of hints."""
    place, event = script.event(chance, lambda event: event.get("to") == "accounts")
    if event is None:
        return
    script.note("a long list of accounts", place)
    one = {"id": "7f3a9c", "name": "Ann", "email": "ann@idp.example"}
    way = chance.randrange(4)
    if way == 0:
        accounts = [one] * (size // 60)
    elif way == 1:
        accounts = [{**one, "id": f"u{number}"} for number in range(size // 60)]
    elif way == 2:
        accounts = [{**one, "login_hints": [f"h{number}" for number in range(size // 10)]}]
    else:
        accounts = [{**one, "id": f"u{number}", "approved_clients": ["shop-web"]} for number in range(size // 90)]
    body = json.dumps({"accounts": accounts}, separators=(",", ":")).encode()
    parts = replies.Reply(b"HTTP/1.1 200 OK\r\nContent-Type: application/json\r\n\r\n" + body)
    if chance.random() < 0.3:
        replies.chunked(chance, parts)
    scripts.give(chance, event, parts.raw())
    script.put(chance, place, event)


def sessions_many(chance, script, size):
    """Sessions of the examples one after another, or in between each other, each with numbers of its own."""
    script.note("many sessions")
    runs = [example for example in script.others if example.words == [b"run"]]
    # No line of what the examples had before, and no step of their clocks, so that most such scripts can be read to their end.
    skipped = (b'{"do":"have"', b'{"do":"at"')
    shift, length, sessions = 0, 0, []
    while length < size:
        shift += 1000
        lines = [line for line in scripts.lines_of(chance.choice(runs)) if not line.startswith(skipped)]
        sessions.append(list(scripts.renumbered(lines, shift)))
        length += sum(map(len, sessions[-1]))
    if chance.random() < 0.5:
        longest = max(map(len, sessions))
        script.lines += [lines[row] for row in range(longest) for lines in sessions if row < len(lines)]
    else:
        script.lines += [line for lines in sessions for line in lines]


def waiting(call):
    """The lines of a call of a page of its own that waits for a login window."""
    bodies = {"wellknown": {"provider_urls": [CONFIG]}, "config": ENDPOINTS, "accounts": {"accounts": []}}
    yield {"do": "load", "page": call, "url": f"https://rp{call}.example/"}
    provider = {"config": CONFIG, "client": "c"}
    yield {"do": "get", "page": call, "call": call, "mode": "active", "activation": True, "providers": [provider]}
    for to, body in bodies.items():
        yield {"do": "reply", "call": call, "to": to, "text": OK + json.dumps(body)}


def calls_many(chance, script, size):
    """Calls that wait for one provider's window, which wakes them; or disconnects of one page, which closes."""
    script.note("many calls")
    if chance.random() < 0.5:
        events = [event for call in range(1000, 1000 + size // 750) for event in waiting(call)]
    else:
        kept = {"do": "have", "what": "kept", "page": "https://rp.example/", "provider": CONFIG, "account": "u"}
        script.lines[1:1] = [values.dumped(chance, kept)]
        events = [{"do": "load", "page": 3, "url": "https://rp.example/"}]
        one = {"do": "disconnect", "page": 3, "config": CONFIG, "client": "c", "hint": "h"}
        events += [{**one, "call": call} for call in range(1000, 1000 + size // 130)]
    last = [{"do": "load", "page": 4, "url": "https://accounts.idp.example/"}, {"do": "idpclose", "page": 4}]
    last.append({"do": "closepage", "page": 3})
    script.lines += [values.dumped(chance, event) for event in events + chance.choice([last, last[::-1], last + events[:1]])]


def cookies_many(chance, script, size):
    """Loads that store many cookies, of one site or of many, and then what the script did."""
    script.note("many cookies")
    loads, length, place = [], 0, 1
    while length < size:
        site = chance.choice(["accounts.idp.example", f"shop{len(loads)}.example"])
        numbers = [chance.randrange(10**6) for _ in range(chance.choice([1, 100, 127]))]
        fields = [f"Set-Cookie: c{number}=v; Secure; SameSite=None; Path=/" for number in numbers]
        text = "HTTP/1.1 200 OK\r\n" + "\r\n".join(fields) + "\r\n\r\n"
        loads.append(values.dumped(chance, {"do": "load", "page": 7, "url": f"https://{site}/", "text": text}))
        length += len(loads[-1])
    while place < len(script.lines) and b'"have"' in script.lines[place]:
        place += 1
    script.lines[place:place] = loads


def rules_many(chance, script, size):
    """A header with many rules."""
    script.note("many rules")
    forms = chance.choice([["r%d"], ["r%d", "*.r%d", "!a.r%d"], ["a.b.c.d.e.f.r%d"], ["r%d.example"], ["\u2603%d"], ["a." * 100 + "r%d"]])
    rules = "\n".join(chance.choice(forms) % number for number in range(size // 3 // max(map(len, forms))))
    script.lines[:1] = [values.dumped(chance, {"fedcm": 1, "now": 1_764_201_600, "rules": "example\n" + rules})]


def lines_blank(chance, script, size):
    place = script.place(chance)
    script.note("many blank lines", place)
    blank = chance.choice([b"", b" ", b"\r", b" " * 1000, b" " * size])
    script.lines[place:place] = [blank] * (size // (len(blank) + 1))


def line_again(chance, script, size):
    """A line again and again."""
    place = script.place(chance)
    script.note("again and again", place)
    again = script.lines[place : place + 1] or [b"{}"]
    script.lines[place:place] = again * (size // (len(again[0]) + 1) + 1)


def bytes_odd(chance, script, size):
    """Bytes by chance."""
    script.note("bytes by chance")
    line = chance.randbytes(size)
    if chance.random() < 0.5:
        line = repeat(chance.choice(replies.ODD_BYTES), size)
    place = script.place(chance)
    script.lines[place : place + 1] = line.split(b"\n") if chance.random() < 0.5 else [line.replace(b"\n", b"")]


DAMAGES = [
    text_long,
    text_long,
    values_many,
    members_many,
    nested_deep,
    accounts_long,
    accounts_long,
    sessions_many,
    sessions_many,
    calls_many,
    calls_many,
    cookies_many,
    rules_many,
    lines_blank,
    line_again,
    bytes_odd,
]
