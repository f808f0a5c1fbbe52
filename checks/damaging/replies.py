"""Damages of the bytes of a reply: its status line, its fields, its body, and how the body is framed."""
import json

from . import values

STATUS_LINES = [
    b"", b" ", b"HTTP/1.1", b"HTTP/1.1 200", b"HTTP/1.1 200 ", b"HTTP/1.0 200 OK", b"HTTP/2 200 OK", b"HTTP/1.2 200 OK",
    b"http/1.1 200 OK", b"HTTP/1.1  200 OK", b"HTTP/1.1 20 OK", b"HTTP/1.1 2000 OK", b"HTTP/1.1 099 OK", b"HTTP/1.1 100 Continue",
    b"HTTP/1.1 204 No Content", b"HTTP/1.1 299 x", b"HTTP/1.1 300 x", b"HTTP/1.1 301 Moved", b"HTTP/1.1 401 Unauthorized",
    b"HTTP/1.1 500 x", b"HTTP/1.1 999 x", b"HTTP/1.1 +20 x", b"HTTP/1.1 200 \xe9\xff", b"HTTP/1.1 200 a\x00b", b"HTTP/1.1 200\tOK",
    b"\xef\xbb\xbfHTTP/1.1 200 OK", b"\r\nHTTP/1.1 200 OK", b"\n\n\nHTTP/1.1 200 OK", b"HTTP/1.1 200 " + b"o" * 70000, b"GET / HTTP/1.1",
]
FIELDS = [
    b"Content-Encoding: gzip", b"Content-Encoding: identity", b"Content-Encoding:", b"Content-Encoding: Identity, identity",
    b"Transfer-Encoding: chunked", b"Transfer-Encoding: gzip, chunked", b"Transfer-Encoding: Chunked", b"Transfer-Encoding:",
    b"Content-Type: text/html", b"Content-Type: Application/JSON;charset=x", b"Content-Type: a/+json",
    b"Content-Type: application/json, x/y", b"Content-Type: /json", b"Content-Type:", b"Content-Type: ;",
    b"Content-Type: application/ld+json", b"Access-Control-Allow-Origin: *", b"Access-Control-Allow-Origin: https://shop.example",
    b"Access-Control-Allow-Origin: null", b"Access-Control-Allow-Credentials: true", b"Access-Control-Allow-Credentials: TRUE",
    b"Location: https://evil.example/", b"X: y", b"X:y", b"X :y", b": x", b"X", b" folded", b"\tfolded", b"X: \x00", b"X: \x7f",
    b"X: \xff\xfe", b"X\xe9: y", b"X: a\rb", b"X: a\nb", b"X\x00: y", b"(): y", b"X:\t \t", b"",
]
ODD_BYTES = [
    b"\x00", b"\r", b"\n", b"\r\n", b"\r\n\r\n", b"\n\n", b":", b" ", b"\t", b"\x7f", b"\x80", b"\xff", b"\xc3", b"\xed\xa0\x80",
    b"\xef\xbb\xbf",
]
MARKS = [b"\xef\xbb\xbf", b"\xef\xbb\xbf\xef\xbb\xbf", b"\xff\xfe", b"\xfe\xff", b"\xef\xbb", b"\x00"]
MANY = [126, 127, 128, 129, 130, 500, 5000]


class Reply:
    """A reply in its parts: its lines, of which the first tells the status, and its body."""

    def __init__(self, raw):
        head, self.gap, self.body = raw.partition(b"\r\n\r\n")
        self.lines = head.split(b"\r\n")

    def raw(self):
        return b"\r\n".join(self.lines) + self.gap + self.body

    def add(self, chance, field):
        self.lines.insert(chance.randrange(1, len(self.lines) + 1), field)

    def without(self, name):
        self.lines = [line for line in self.lines if not line.lower().startswith(name)]


def bytes_damaged(chance, raw):
    """Bytes with one flipped, some put in, or some taken out or doubled."""
    place = chance.randrange(len(raw) + 1)
    end = min(len(raw), place + chance.choice([1, 1, 1, 2, 8, 64, 1024]))
    way = chance.choice(["flip", "put", "take", "double", "cut"])
    if way == "flip" and place < len(raw):
        return raw[:place] + bytes([raw[place] ^ 1 << chance.randrange(8)]) + raw[place + 1 :]
    if way == "put":
        return raw[:place] + chance.choice(ODD_BYTES) + raw[place:]
    if way == "take":
        return raw[:place] + raw[end:]
    if way == "double":
        return raw[:end] + raw[place:]
    return raw[:place]


def status_line(chance, reply):
    reply.lines[0] = chance.choice(STATUS_LINES)


def field_added(chance, reply):
    reply.add(chance, chance.choice(FIELDS))


def field_doubled(chance, reply):
    reply.add(chance, chance.choice(reply.lines))


def field_removed(chance, reply):
    del reply.lines[chance.randrange(len(reply.lines))]


def field_damaged(chance, reply):
    place = chance.randrange(len(reply.lines))
    reply.lines[place] = bytes_damaged(chance, reply.lines[place])


def field_long(chance, reply):
    size = chance.choice([255, 8192, 65534, 65535, 65536, 200_000])
    reply.add(chance, b"n" * size + b": x" if chance.random() < 0.5 else b"X: " + b"v" * size)


def fields_many(chance, reply):
    """About as many fields as a head may have, or far more."""
    for number in range(chance.choice(MANY) - len(reply.lines) + 1):
        reply.lines.append(b"X-%d: y" % number)


def line_ends(chance, reply):
    """Line ends of LF alone, or a head that does not end, or ends twice."""
    reply.lines = [chance.choice([b"\n", b"\r\n", b"\r"]).join(reply.lines)]
    reply.gap = chance.choice([b"\n\n", b"\r\n\n", b"\n\r\n", b"\r\n", b"\r\n\r\n\r\n", b"\r\r", b""])


def content_length(chance, reply):
    size = len(reply.body)
    odd = [b"%d" % size, b"%d" % max(0, size - 1), b"%d" % (size + 1), b"%019d" % size, b"%020d" % size, b"%d;" % size]
    odd += [b"0", b"-1", b"+2", b"2, 2", b"", b" ", b"0x2", b"2 2", b"1e1", b"\xd9\xa2", b"9" * 19, b"9" * 20, b"18446744073709551616"]
    for _ in range(chance.choice([1, 1, 1, 2, 3])):
        reply.add(chance, b"Content-Length: " + chance.choice(odd))
    if chance.random() < 0.3:
        reply.body += chance.choice([b"more", b"\r\n", b"{}", b"\x00"])


def chunks_of(chance, body):
    """The body in chunks of so many sizes, each a size line, its bytes, and a line end."""
    most = chance.choice([1, 2, 7, 64, 4096, max(1, len(body))])
    if len(body) // most > 2000:
        most = len(body) // 200
    place = 0
    while place < len(body):
        size = chance.randrange(1, most + 1)
        piece = body[place : place + size]
        form = chance.choice([b"%x", b"%x", b"%X", b"%04x", b"%x ", b"%x;a=b", b"%x\t;x"])
        yield form % len(piece), piece
        place += size


def sizes_damaged(chance, chunks):
    """Makes one chunk's size another, or a size line that is none."""
    place = chance.randrange(len(chunks))
    size, piece = chunks[place]
    odd = [b"%x" % (len(piece) + 1), b"%x" % max(0, len(piece) - 1), b"0", b"0" * 16, b"f" * 16, b"f" * 40, b"7" + b"f" * 15, b"-1", b""]
    odd += [b" ", b"g", b"0x1", b" " + size, size + b"\n", size + b"\r", size + b";\n", size + b"\x00", size + b";" + b"e" * 70000]
    odd.append(b"0" * 17 + size)
    chunks[place] = chance.choice(odd), piece


def chunked(chance, reply):
    """The body in chunks, as they should be or with a size, a line end, the last chunk or the trailer damaged."""
    reply.without(b"transfer-encoding")
    reply.add(chance, chance.choice([b"Transfer-Encoding: chunked", b"transfer-encoding:CHUNKED\t"]))
    chunks = list(chunks_of(chance, reply.body)) or [(b"1", b" ")]
    if chance.random() < 0.4:
        sizes_damaged(chance, chunks)
    end = b"\r\n"
    whole = b"".join(size + end + piece + end for size, piece in chunks)
    last = b"0\r\n" if chance.random() < 0.7 else chance.choice([b"", b"0", b"0\n", b"00\r\n", b"0;x\r\n", b"1\r\n", b"0 \r\n", b"\r\n"])
    trailer = b"\r\n"
    if chance.random() < 0.4:
        fields = [b"X-%d: y\r\n" % number for number in range(chance.choice([1, 1, 2, *MANY]))]
        trailer = chance.choice([b"", b"\n", b"X: y\r\n\r\n", b"X: y\r\n", b"X\r\n\r\n", b"X: y\n\n", b"".join(fields) + end])
    reply.body = whole + last + trailer + chance.choice([b"", b"", b"more", b"\r\n"])
    if chance.random() < 0.3:
        reply.body = bytes_damaged(chance, reply.body)


def cookies(chance, reply):
    for _ in range(chance.choice([1, 1, 2, 5, 100])):
        reply.add(chance, b"Set-Cookie: " + values.odd_cookie(chance))


def logins(chance, reply):
    for _ in range(chance.choice([1, 1, 2])):
        reply.add(chance, b"Set-Login: " + chance.choice(values.LOGINS).encode())


def body_value(chance, reply):
    """Another value in the body, as JSON."""
    try:
        value = json.loads(reply.body)
    except (ValueError, RecursionError):
        value = {}
    reply.body = values.dumped(chance, values.damaged(chance, value))


def body_url(chance, reply):
    """An odd URL at a text of the body."""
    try:
        value = json.loads(reply.body)
    except (ValueError, RecursionError):
        return
    texts = [(holder, key) for holder, key in values.places(value) if isinstance(holder[key], str)]
    if texts:
        holder, key = chance.choice(texts)
        holder[key] = chance.choice([values.odd_url(chance), chance.choice(values.PATHS), chance.choice(values.HOSTS)])
        reply.body = values.dumped(chance, value)


def body_nested(chance, reply):
    depth = chance.choice([1, 100, 125, 126, 127, 128, 129, 1000, 20_000])
    reply.body = values.dumped(chance, values.nested(chance, depth))


def body_damaged(chance, reply):
    reply.body = bytes_damaged(chance, reply.body)


def body_marks(chance, reply):
    reply.body = chance.choice(MARKS) + reply.body


def body_alone(chance, reply):
    """No head, or no body."""
    if chance.random() < 0.5:
        reply.lines, reply.gap = [b""], b""
    else:
        reply.body = b""


def accounts_many(chance, reply):
    """A list of accounts of one id, of many, or with long lists of their own."""
    count = chance.choice([2, 3, 100, 1000])
    one = {"id": "u", "name": "U", "email": "u@idp.example"}
    accounts = [dict(one, id=f"u{number}") for number in range(count)] if chance.random() < 0.5 else [one] * count
    if chance.random() < 0.3:
        name = chance.choice(["approved_clients", "login_hints", "domain_hints"])
        accounts[chance.randrange(count)] = {**one, name: [f"c{number}" for number in range(count)]}
    reply.body = values.dumped(chance, {"accounts": accounts})


# Each as often as it stands here.
DAMAGES = [
    status_line, field_added, field_doubled, field_removed, field_damaged, field_long, fields_many, line_ends, content_length,
    content_length, chunked, chunked, chunked, cookies, logins, body_value, body_value, body_value, body_value, body_url, body_url,
    body_nested, body_damaged, body_marks, body_alone, accounts_many,
]
