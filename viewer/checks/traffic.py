"""Recordings of a browser: the stored ones, each with its script, transcript and verdict, and what is said of a conversion."""
import base64
import glob
import json
import os
import re

import capture
import differences

from .page import read

FOLDER = "viewer/tests/captures"
ORDERS = ("seen", "profile")
BUILT = "crates/fedcm/out/fedcm"


# The stored recordings: a name and its files.
def stored():
    names = sorted(os.path.basename(os.path.dirname(path)) for path in glob.glob(FOLDER + "/*/netlog.json"))
    return [(name, ["%s/%s/%s" % (FOLDER, name, file) for file in ("netlog.json", "protocol.jsonl")]) for name in names]


# The program that judges: one that is built, as `./fedcm` builds it, or the one that FEDCM names.
def program():
    return os.environ.get("FEDCM") or (capture.FEDCM if os.path.exists(BUILT) else None)


def requests_of(result):
    records = [json.loads(line) for line in result["transcript"].splitlines()]
    found = [record for record in records if record["out"] == "request"]
    return [record["text"].encode() if "text" in record else base64.b64decode(record["raw"]) for record in found]


# The requests of FedCM that left over HTTP/1.1, from the bytes of the sockets alone.
def sent(netlog):
    kinds = {number: name for name, number in netlog["constants"]["logEventTypes"].items()}
    sockets = {}
    for event in netlog["events"]:
        if kinds[event["type"]] == "SSL_SOCKET_BYTES_SENT" and "bytes" in event["params"]:
            sockets.setdefault(event["source"]["id"], []).append(base64.b64decode(event["params"]["bytes"]))
    found = []
    for parts in sockets.values():
        bytes_ = b"".join(parts)
        if not bytes_.startswith(b"PRI * HTTP/2.0"):
            found += [part for part in re.split(rb"(?=(?:GET|POST) /\S* HTTP/1\.1\r\n)", bytes_) if b"webidentity\r\n" in part]
    return found


# Those over HTTP/2, from the lists of fields, as HTTP/1.1 without their bodies.
def listed(netlog):
    kinds = {number: name for name, number in netlog["constants"]["logEventTypes"].items()}
    found = []
    for event in netlog["events"]:
        heads = event.get("params", {}).get("headers", [])
        if kinds[event["type"]] == "HTTP_TRANSACTION_HTTP2_SEND_REQUEST_HEADERS" and "sec-fetch-dest: webidentity" in heads:
            pseudo = dict(head[1:].split(": ", 1) for head in heads if head.startswith(":"))
            lines = ["%s %s HTTP/1.1" % (pseudo["method"], pseudo["path"]), "Host: " + pseudo["authority"]]
            found.append("\r\n".join(lines + [head for head in heads if not head.startswith(":")] + ["", ""]).encode())
    return found


def whole(tally, name, result, path):
    netlog = json.loads(read(path))
    written = requests_of(result)
    heads = listed(netlog)
    plain = [each for each in written if not any(each.startswith(head) for head in heads)]
    wire = [each for each in sent(netlog)]
    extra = [each for each in wire if each not in plain]
    tally.same("%s: requests that the sockets sent and the transcript lacks" % name, len(extra), result["apart"])
    tally.true("%s: each request stands as it was sent" % name, all(each in wire for each in plain))
    tally.same("%s: requests over HTTP/2" % name, len(heads), len(written) - len(plain))
    tally.same("%s: bodies over HTTP/2" % name, [b"account_id=" in each for each in written if each not in plain and each[:4] == b"POST"],
               [True] * sum(head.startswith(b"POST") for head in heads))


# Each stored recording becomes its stored script and transcript, byte for byte, and the program says its stored verdict of them.
def recordings(tally, page):
    asked = program()
    if not asked:
        print("viewer: the program is not built, so verdicts are not asked for here; ./fedcm build builds it")
    for name, paths in stored():
        results = capture.convert(page.browser, paths, values=True)
        labelled = capture.convert(page.browser, paths)
        for result, other in zip(results, labelled):
            base = "%s/%s/%s" % (FOLDER, name, result["order"])
            tally.true("%s: its script" % base, result["script"] == read(base + ".script.jsonl"))
            tally.true("%s: its transcript" % base, result["transcript"] == read(base + ".transcript.jsonl"))
            whole(tally, base, result, paths[0])
            if asked:
                verdict = json.loads(read(base + ".verdict"))
                tally.same("%s: its verdict" % base, capture.judge("audit", result["pair"], asked)[1], verdict)
                tally.same("%s: its verdict with labels" % base, capture.judge("audit", other["pair"], asked)[1], verdict)
                tally.true("%s: compared" % base, capture.judge("compare", result["pair"], asked)[1].get("out") in ("alike", "differs"))
    tally.true("a dozen recordings are stored", len(stored()) >= 12)
    size = sum(os.path.getsize(os.path.join(folder, file)) for folder, _, files in os.walk(FOLDER) for file in files)
    tally.true("they take %d bytes, at most a megabyte" % size, size <= 1000000)


# Writes the stored scripts, transcripts and verdicts anew.
def store(driven):
    for name, paths in stored():
        for result in capture.convert(driven, paths, values=True):
            base = "%s/%s/%s" % (FOLDER, name, result["order"])
            capture.save(base + ".script.jsonl", result["script"])
            capture.save(base + ".transcript.jsonl", result["transcript"])
            capture.save(base + ".verdict", json.dumps(capture.judge("audit", result["pair"], program())[1]) + "\n")


def named(result):
    return {clause: words.split(":")[0] for clause, words in result["clauses"].items()}


# What is said: made up, moved, left out, and for each clause whether it is judged; from two sources, from each alone, and from a HAR.
def said(tally, page):
    paths = dict(stored())
    seen, profile = capture.convert(page.browser, paths["hand-recorded"])
    tally.true("made up: a choice", any(text.startswith("a choice") for text in seen["lists"]["made"]))
    tally.same("moved, as seen", seen["lists"]["moved"], [])
    tally.true("moved, in the profile's order", profile["lists"]["moved"][0].startswith("a metadata reply"))
    tally.same("clauses", named(profile), {"record": "judged", "call": "judged", "head": "judged", "origin": "judged", "cookie": "judged",
                                         "consent": "judged on made-up choices", "token": "judged"})
    tally.true("a cancel is made up", any(text.startswith("a cancel") for text in
                                          capture.convert(page.browser, paths["hand-dismissed"])[0]["lists"]["made"]))
    redirected = capture.convert(page.browser, paths["r08-redirect-301"])[0]
    tally.same("a request in no call", (redirected["isWhole"], redirected["apart"]), (False, 1))
    tally.true("it is named with its URL",
               "a FedCM request that belongs to no call: GET https://idp.example/wk2" in redirected["lists"]["left"])
    alone = capture.convert(page.browser, paths["hand-recorded"][:1])[0]
    tally.same("a NetLog alone", (named(alone)["call"], alone["apart"]), ("judged on made-up calls", 0))
    tools = capture.convert(page.browser, paths["hand-recorded"][1:])[0]
    tally.same("a DevTools log alone", (named(tools)["cookie"], tools["apart"]), ("not judged", 0))
    har = capture.convert(page.browser, [FOLDER + "/har/r12-signup.har"])[0]
    tally.same("a HAR", (named(har)["cookie"], named(har)["head"], har["calls"], har["apart"]), ("not judged", "not judged", 1, 0))


SECRETS = ("alice", "bob", "Ann", "Bob", "ann@idp.example", "bob@idp.example", "session=abc", "\"T1\"", "\"u1\"", "\"u2\"", "account_id=u2",
           "nonce=n1", "\"n1\"", "start=1", "basket=7")


# With labels nothing of the values is left, and one value has one label in script and transcript.
def labels(tally, page):
    for name, paths in stored():
        for result in capture.convert(page.browser, paths):
            left = [secret for secret in SECRETS if secret in result["pair"].replace("\\\"", "\"")]
            tally.same("%s, %s: values that are left" % (name, result["order"]), left, [])
    pair = capture.convert(page.browser, dict(stored())["r12-signup"])[1]
    events = [json.loads(line) for line in pair["script"].splitlines()]
    chosen = [event["account"] for event in events if event.get("do") == "choose"]
    tally.true("an account has one label", len(chosen) == 1 and "account_id=%s&" % chosen[0] in pair["transcript"])
    plain = capture.convert(page.browser, dict(stored())["r12-signup"], values=True)[1]
    tally.true("values, where they are asked for", "account_id=u2&" in plain["transcript"])


# What a person wrote in docs/browsers.md stands apart from what was measured: in the first part no table but those of the program, with the
# version and the names of the recordings; in the second none of them.
def apart(tally, page):
    text = read("docs/browsers.md")
    tally.same("docs/browsers.md: its parts", re.findall(r"^## (.+)$", text, re.M), ["Measured", "Written by a person"])
    first, _, second = text.partition("\n## Written by a person\n")
    before, _, rest = first.partition("<!-- made by viewer/differ: begin -->\n")
    made, _, behind = rest.partition("<!-- made by viewer/differ: end -->\n")
    tally.same("docs/browsers.md: tables beside those that were made", ("\n|" in before + behind, "made by viewer/differ" in second),
               (False, False))
    versions = {json.loads(read(paths[0]))["constants"]["clientInfo"]["version"] for _, paths in stored()}
    names = " ".join(made.split("\n\n")[0].split())
    tally.same("docs/browsers.md: what was measured", names, "Chromium %s, %d recordings: %s." % (
        " and ".join(sorted(versions)), len(stored()), ", ".join(name for name, _ in stored())))


# The tables of docs/browsers.md that a program made are those that it makes now.
def measured(tally, page):
    if program():
        made = differences.measure(page.browser, stored(), program())
        stands = read("docs/browsers.md").partition("viewer/differ: begin -->\n")[2].partition("<!-- made by viewer/differ: end")[0]
        tally.true("docs/browsers.md has the tables that `viewer/differ --write %s` makes" % FOLDER, stands == made)
