"""Recordings of 50 megabytes that somebody made to do harm: each is refused, with what is wrong, or becomes a pair, in bounded time."""
import base64
import json
import os

from .large import share

SIZE = 50 * 1000 * 1000
LIMIT = 90.0
TYPES = {"URL_REQUEST_START_JOB": 1, "HTTP_TRANSACTION_SEND_REQUEST_HEADERS": 2, "HTTP_TRANSACTION_READ_RESPONSE_HEADERS": 3,
         "URL_REQUEST_JOB_FILTERED_BYTES_READ": 4, "SSL_SOCKET_BYTES_RECEIVED": 5, "COOKIE_STORE_COOKIE_ADDED": 6, "FILLER": 7}
CONSTANTS = {"logEventTypes": TYPES, "logSourceType": {"URL_REQUEST": 1, "SOCKET": 2}, "timeTickOffset": 1700000000000,
             "logCaptureMode": "Everything"}
HEAD = '{"constants":%s,\n"events":[\n' % json.dumps(CONSTANTS)


def event(kind, number, **params):
    source = {"id": number, "type": 2 if kind.startswith("SSL") else 1}
    return json.dumps({"params": params, "phase": 0, "source": source, "time": "1000", "type": TYPES[kind]}, separators=(",", ":"))


SOCKET = event("SSL_SOCKET_BYTES_RECEIVED", 0, bytes="QQ==")
FILLER = event("FILLER", 0, bytes="A" * 1000)


# A request of FedCM, or with `more` one of another kind.
def request(number, url, fields=("Sec-Fetch-Dest: webidentity",), **more):
    return [event("URL_REQUEST_START_JOB", number, url=url, method="GET", **more),
            event("HTTP_TRANSACTION_SEND_REQUEST_HEADERS", number, headers=list(fields)),
            event("HTTP_TRANSACTION_READ_RESPONSE_HEADERS", number, headers=["HTTP/1.1 200 OK", "Set-Cookie: a=b"])]


# A log of these events, made as long as all are.
def log(events):
    events = [SOCKET, *events]
    events += [FILLER] * ((SIZE - sum(map(len, events))) // len(FILLER))
    return HEAD + ",\n".join(events) + "]}\n"


def repeated(events):
    return log(events * (SIZE // sum(map(len, events))))


# As many calls, loads and cookies as are converted, each with another host or site, all at one time.
def most():
    events = []
    for at in range(9900):
        site = "https://h%d.example" % at
        events += request(at, site + "/", ["Host: x"], request_type="main frame", network_isolation_key="%s %s" % (site, site))
        events.append(event("COOKIE_STORE_COOKIE_ADDED", 0, name="c%d" % at, value="d", domain="h%d.example" % at, path="/"))
    for at in range(990):
        host = "https://i%d.example" % at
        events += request(20000 + at, host + "/.well-known/web-identity") + request(30000 + at, host + "/fedcm.json")
    return log(events)


# A reply whose JSON is nested deep.
def nested():
    body = '{"accounts":%s%s}' % ("[" * 1000000, "]" * 1000000)
    files = (("/.well-known/web-identity", '{"provider_urls":["https://idp.example/f"]}'), ("/f", '{"accounts_endpoint":"/a"}'),
             ("/a", body))
    return log([each for at, (path, text) in enumerate(files) for each in request(at, "https://idp.example" + path)
                + [event("URL_REQUEST_JOB_FILTERED_BYTES_READ", at, bytes=base64.b64encode(text.encode()).decode())]])


# What each is, how it is made, the word that its error has, and else how many FedCM requests it has.
SHAPES = (
    ("brackets alone", lambda: HEAD[:-2] + "[" * SIZE, "nested deeper", None),
    ("objects in objects", lambda: HEAD + '{"a":' * (SIZE // 5), "nested deeper", None),
    ("one text without an end", lambda: HEAD + '{"type":"' + '\\"' * (SIZE // 2), None, 0),
    ("events of no kind", lambda: repeated(['{"type":"x"}']), None, 0),
    ("a host of 50 megabytes", lambda: log(request(1, "https://" + "a." * (SIZE // 8) + "example/")), None, 0),
    ("requests without number", lambda: repeated(request(1, "https://idp.example/fedcm.json")), "requests", None),
    ("as much as is converted", most, None, 1980),
    ("a reply nested deep", nested, None, 3),
)
CONVERT = """(async files => {
  const began = performance.now();
  const end = more => ({ ...more, took: (performance.now() - began) / 1000 });
  try {
    const both = Traffic.both(Traffic.read(await Traffic.filesOf(files)));
    const isJson = pair => pair.trimEnd().split('\\n').every(line => JSON.parse(line));
    return end({ pairs: both.map(({ requests, apart, transcript, pair }) =>
      [requests, apart + (transcript.match(/"out":"request"/g) ?? []).length, isJson(pair)]) });
  } catch (error) {
    if (error instanceof Bytes.Unreadable) return end({ unreadable: error.message });
    throw error;
  }
})(document.querySelector('#files').files)"""


def hostile_captures(tally, page):
    for what, make, word, requests in SHAPES:
        path = page.file("hostile.json", make())
        page.open()
        page.get("document.querySelector('#files').addEventListener('change', event => event.stopImmediatePropagation(), true)")
        given = share()
        page.browser.choose_files("#files", [os.path.abspath(path)])
        found = page.get(CONVERT)
        took = found["took"] * min(given, share())
        said = found.get("unreadable", found.get("pairs"))
        print("50 megabytes, %s: %r in %.1f s" % (what, said, took))
        tally.true("50 megabytes, %s: it took %.1f s" % (what, took), took <= LIMIT)
        if word:
            tally.true("50 megabytes, %s: refused by its name: %r" % (what, said), word in found.get("unreadable", ""))
        else:
            tally.same("50 megabytes, %s: no request is left out unsaid" % what, found.get("pairs"), [[requests, requests, True]] * 2)
    on_the_page(tally, page, path)


# On the page too: what is refused is named, what is converted is drawn, and the page goes on.
def on_the_page(tally, page, path):
    page.open()
    page.browser.choose_files("#files", [path])
    page.browser.wait("!document.querySelector('#capture').hidden && document.querySelector('#capture-said').textContent !== ''", 120)
    tally.true("a hostile recording is drawn", "3 FedCM requests" in page.text("#capture-said"))
    for place in range(page.count("#chart .row")):
        page.get("document.querySelector('#row-%d .band').dispatchEvent(new MouseEvent('click', {bubbles: true}))" % place)
        tally.true("its row %d has its details" % place, page.count("#detail h2") >= 1)
    page.open("sign-up")
    tally.same("the page goes on", page.count("#chart .row.request"), 5)
