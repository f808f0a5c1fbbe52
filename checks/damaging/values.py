"""Odd values, and damages of JSON values."""
import copy
import json
import re

# What stands between the first two is written as it is, a piece of JSON; the third is left out, so that a name may stand twice.
BEGIN, END, AGAIN = "\ue000", "\ue001", "\ue002"
LITERAL = re.compile(f'"{BEGIN}([^{END}]*){END}"')
NOT_ASCII = re.compile("[^\x00-\x7f]")

NUMBERS = [
    0, 1, 2, 3, 9, 127, -1, -(2**31), 2**31 - 1, 2**31, 2**32 - 1, 2**32, 2**53 + 1, 2**63 - 1, 2**63, 2**64 - 1, 2**64, 10**30, -(10**30),
    1.0, 1.5, -0.0, 1e300, 1e-300,
]
PIECES_OF_JSON = [
    "-0", "1e0", "1e400", "-1e400", "01", "1.", ".5", "+1", "0x1", "NaN", "-Infinity", "tru", "nulll", "'x'", '"\\ud800"',
    '"\\udc00\\ud800"', '"\\u00"', '"\\x"', '"\t"', '"', "[", "{", "]", "}", "", "{,}", '{"a"}', '{"a":1,}', "[1,]", "//", "\ufeff1",
    "\u00a01", "9" * 400, "1" + "0" * 400, "0." + "3" * 400, '{"":0,"":1}',
]
TEXTS = [
    "", " ", "\t", "\x00", "\x7f", "a\x00b", "a\r\nb", "\n", "\r", "a\r\nSet-Cookie: x=1\r\n\r\n", "\ud800", "\udfff\ud800", "\ufeff", "ß",
    "İ", "\u2028", "\u200d", "\U0001f4a5", "\U0010ffff", "\ufffd", "é" * 50, "%", "%00", "%zz", "+", "&a=b", "=", ";", ",", '"', "\\", "*",
    ".", "..", "null", "any", "true", "login", "logged-in", "active", "silent", "required", "wellknown", "disconnect", "{", "[]",
    "<script>",
]
NAMES = [
    "", " ", "do", "Do", "call", "page", "url", "raw", "text", "to", "providers", "provider", "token", "error", "accounts", "id", "\ud800",
    "__proto__",
]
SCHEMES = [
    "https", "http", "HTTPS", "ftp", "ws", "wss", "file", "javascript", "data", "blob", "about", "", "ht tp", "https:https", "x+y-z.1",
]
USERS = [
    "", "", "", "", "u@", "u:p@", "@", ":@", "u@v@", "%40@", "é@",
]
HOSTS = [
    "accounts.idp.example", "idp.example", "shop.example", "IDP.example", "idp.example.", "example", "a..example", ".example",
    "-a.example", "localhost", "a.localhost", "127.0.0.1", "127.1", "0x7f.1", "1.2.3.4.5", "256.1.1.1", "4294967296", "[::1]",
    "[::ffff:1.2.3.4]", "[::", "[1:2:3:4:5:6:7:8:9]", "xn--", "xn--nxasmq6b.example", "xn--a.example", "faß.example", "İ.example",
    "a\u200db.example", "\u2603.example", "１.example", "٠.example", "\u05d0b.example", "\ufdfa.example", "%61.example", "%00.example",
    "a b.example", "a%2eb.example", "a^b.example", "a_b.example", "*.example", "", "x" * 63 + ".example", "x" * 64 + ".example",
    "y." * 126 + "example", "a\u3002example", "\u00ad.example", "a\ud800.example",
]
PORTS = [
    "", "", "", "", ":443", ":80", ":0", ":8443", ":65535", ":65536", ":99999999999", ":-1", ":x", ":", ":0443", ":4 43",
]
PATHS = [
    "", "/", "/fedcm.json", "/accounts", "/a/../b", "/a/./b/", "/../../x", "/%2e%2E/x", "/.%2e/", "/a\\..\\b", "//evil.example/", "/é",
    "/a b", "/\x00", "/\t\n/x", "/%", "/%zz", "/^{}|`", "/?", "?", "/?q=1#f", "#f", "/#", "/?a=b&c=d?e#g#h", "/?\u2603='\"<>", "/;x=y",
    "/a:b@c", "/\ud800",
]
COOKIE_NAMES = [
    "a", "session", "__Host-session", "__Secure-a", "__host-a", "", " ", "a b", "=", "é", "\x01", "a\x7f", "n" * 4095, "n" * 4096,
]
ATTRIBUTES = [
    "Path=/", "Path=", "Path=x", "Path=/accounts", "Path=/" + "p/" * 600, "Domain=idp.example", "Domain=.idp.example",
    "Domain=IDP.Example", "Domain=.", "Domain=", "Domain=example", "Domain=..idp.example", "Domain=accounts.idp.example",
    "Domain=127.0.0.1", "Max-Age=0", "Max-Age=-1", "Max-Age=3600", "Max-Age=+1", "Max-Age=", "Max-Age=1x", "Max-Age=99999999999999999999",
    "Max-Age=-99999999999999999999", "Expires=Wed, 09-Jun-2021 10:18:14 GMT", "Expires=Fri, 31 Dec 9999 23:59:59 GMT",
    "Expires=31 Feb 2027 00:00:00", "Expires=1 jan 1600 0:0:0", "Expires=", "Expires=x", "Secure", "Secure=x", "HttpOnly", "SameSite=None",
    "SameSite=none", "SameSite=Lax", "SameSite=Strict", "SameSite=x", "SameSite", "Partitioned", "", " ", "=", "=x", "\t",
]
LOGINS = [
    "logged-in", "logged-out", " logged-in\t; x", "LOGGED-IN", "logged-in, logged-out", ";logged-in", "", "logged-in;;", "logged-in\u00a0",
    "x" * 500,
]


def long_text(chance, size):
    """A long text of one to four bytes a character, or of what JSON, URLs and forms escape."""
    return chance.choice(["x", "é", "\u2603", "\U0001f4a5", '"', "\\", "\x01", "%", " ", "/", ".", "a.", "/../", "\r\n"]) * size


def odd_text(chance):
    if chance.random() < 0.1:
        return long_text(chance, chance.choice([64, 256, 4096, 65536]))
    return chance.choice(TEXTS)


def odd_url(chance):
    """A URL whose parts are odd, each by itself; most have a good scheme."""
    scheme = "https" if chance.random() < 0.7 else chance.choice(SCHEMES)
    host = chance.choice(HOSTS[:3]) if chance.random() < 0.3 else chance.choice(HOSTS)
    slashes = "//" if chance.random() < 0.9 else chance.choice(["", "/", "///", "\\\\"])
    path = chance.choice(PATHS)
    if chance.random() < 0.05:
        path += chance.choice(["/" + "a/" * 3000, "/.." * 3000, "?" + "q" * 9000, "/" + "\u2603" * 3000])
    return scheme + ":" + slashes + chance.choice(USERS) + host + chance.choice(PORTS) + path


def odd_cookie(chance):
    """The bytes of a Set-Cookie value."""
    size = chance.choice([0, 1, 8, 8, 8, 4087, 4088, 4095, 4096, 9000])
    parts = [chance.choice(COOKIE_NAMES) + "=" + ("v" * size if chance.random() < 0.7 else chance.choice(TEXTS))]
    parts += chance.sample(ATTRIBUTES, chance.choice([0, 1, 2, 3, 4, 8]))
    if chance.random() < 0.5:
        parts += ["Secure", "SameSite=None"]
    return chance.choice(["; ", ";", " ;\t"]).join(parts).encode("utf-8", "surrogatepass")


def literal(text):
    """What `dumped` writes as it stands here."""
    return BEGIN + text + END


def nested(chance, depth):
    """JSON that is nested so deep."""
    begin, end = chance.choice([("[", "]"), ('{"a":', "}"), ('[{"":', "}]"), ("[0,", ",0]")])
    times = depth // 2 if end == "}]" else depth
    inner = chance.choice(["0", "[]", "{}", '""', ""])
    return literal(begin * times + inner + end * chance.choice([times, times, times, times - 1, times + 1]))


def odd_value(chance, now=None):
    """A value in place of this one: of another kind, or of the same and odd."""
    makers = [
        lambda: chance.choice(NUMBERS),
        lambda: chance.choice([None, True, False, "", [], {}, [[]], {"": None}]),
        lambda: odd_text(chance),
        lambda: odd_url(chance),
        lambda: literal(chance.choice(PIECES_OF_JSON)),
        lambda: nested(chance, chance.choice([1, 2, 100, 120, 125, 126, 127, 128, 129, 130, 1000])),
        lambda: [now],
        lambda: {"a": now},
        lambda: [now, now],
        lambda: str(now),
    ]
    return chance.choice(makers)()


def places(value):
    """Each member and each item in a value, however deep, by what holds it and its key."""
    keys = list(value) if isinstance(value, dict) else range(len(value)) if isinstance(value, list) else []
    for key in keys:
        yield value, key
        yield from places(value[key])


def change(chance, holder, key):
    """Changes, renames, doubles or removes what stands in the holder under this key."""
    now = holder[key]
    way = chance.choice(["odd", "odd", "odd", "remove", "rename", "double", "text"])
    if way == "remove":
        del holder[key]
    elif way == "rename" and isinstance(holder, dict):
        holder[chance.choice(NAMES)] = holder.pop(key)
    elif way == "double" and isinstance(holder, dict):
        holder[key + AGAIN] = odd_value(chance, now) if chance.random() < 0.5 else now
    elif way == "double":
        holder.insert(chance.randrange(len(holder) + 1), now)
    elif way == "text" and isinstance(now, str) and now:
        place = chance.randrange(len(now))
        holder[key] = now[:place] + odd_text(chance) + now[place + chance.choice([0, 1, 1, len(now)]) :]
    else:
        holder[key] = odd_value(chance, now)


def damaged(chance, value):
    """A copy of a value with a change somewhere in it, or another value."""
    value = copy.deepcopy(value)
    found = list(places(value))
    if not found or chance.random() < 0.03:
        return odd_value(chance, value)
    if isinstance(value, dict) and chance.random() < 0.1:
        value[chance.choice(NAMES)] = odd_value(chance)
    else:
        change(chance, *chance.choice(found))
    return value


def dumped(chance, value):
    """The bytes of a value as JSON, with the pieces that stand for themselves. Half of a surrogate is an escape, or no UTF-8."""
    text = json.dumps(value, ensure_ascii=False, separators=(",", ":") if chance.random() < 0.9 else (" ,\t", " : "))
    text = LITERAL.sub(lambda found: json.loads('"' + found.group(1) + '"'), text).replace(AGAIN, "")
    if chance.random() < 0.2:
        text = NOT_ASCII.sub(lambda found: json.dumps(found.group())[1:-1], text)
    return text.encode("utf-8", "surrogatepass" if chance.random() < 0.3 else "backslashreplace")
