"""Deviations of a browser, planted one at a time into the pairs of the stored recordings: each is found by the clause that one expects."""
import json
import re

import capture

from .page import read
from .traffic import FOLDER, ORDERS, program, stored

DIVIDER = '{"next":"transcript"}\n'
EVIL = "https://evil.example"
HINTS = r"\r\nCookie: ([^\r]*)"


def field(text):
    return lambda request: request.replace("\r\n\r\n", "\r\n%s\r\n\r\n" % text, 1)


def swap(pattern, new):
    return lambda request: re.sub(pattern, new, request, count=1, flags=re.IGNORECASE)


# The first request of a kind with other bytes; nothing where none has them.
def change(kind, edit):
    def plant(script, records):
        for at, record in enumerate(records):
            if record["out"] == "request" and record.get("kind") == kind and "text" in record and edit(record["text"]) != record["text"]:
                return script, records[:at] + [{**record, "text": edit(record["text"])}] + records[at + 1:]
        return None
    return plant


# The first record that passes, replaced by others.
def replace(test, make):
    def plant(script, records):
        for at, record in enumerate(records):
            if test(record):
                return script, records[:at] + make(record) + records[at + 1:]
        return None
    return plant


def is_request(kind):
    return lambda record: record["out"] == "request" and record.get("kind") == kind


def is_token(record):
    return record["out"] == "result" and record["see"] == "token"


# The user's decisions go: a blank line stands in place of each, and records of it move to the event before.
def undecided(script, records):
    gone = {at + 1 for at, line in enumerate(script) if '"do":"choose"' in line or '"do":"continue"' in line}
    if not gone:
        return None

    def before(line):
        while line in gone:
            line -= 1
        return line
    moved = [{**record, "line": before(record["line"])} if "line" in record else record for record in records]
    return ["" if at + 1 in gone else line for at, line in enumerate(script)], sorted(moved, key=lambda record: record.get("line", 1 << 30))


# The page is loaded anew before the reply that has its token.
def reloaded(script, records):
    for record in records:
        if is_token(record):
            line = record["line"]
            load = json.dumps({"do": "load", "page": record["page"], "url": "https://rp.example/again"}, separators=(",", ":"))
            moved = [{**each, "line": each["line"] + 1} if each.get("line", 0) >= line else each for each in records]
            return script[:line - 1] + [load] + script[line - 1:], moved
    return None


KINDS = (
    ("a Cookie on the well-known request", "cookie", change("wellknown", field("Cookie: a=1"))),
    ("a Cookie on the configuration request", "cookie", change("config", field("Cookie: a=1"))),
    ("a Cookie on the metadata request", "cookie", change("metadata", field("Cookie: a=1"))),
    ("an Origin on the well-known request", "origin", change("wellknown", field("Origin: https://rp.example"))),
    ("an Origin on the accounts request", "origin", change("accounts", field("Origin: https://rp.example"))),
    ("a Referer on the configuration request", "origin", change("config", field("Referer: https://rp.example/"))),
    ("a Referer on the accounts request", "origin", change("accounts", field("Referer: https://rp.example/"))),
    ("a cookie more on the accounts request", "cookie", change("accounts", swap(HINTS, r"\r\nCookie: \1; more=1"))),
    ("a cookie where the jar sends none", "cookie", lambda script, records: None if any(
        re.search(HINTS, record.get("text", ""), re.IGNORECASE) for record in records if is_request("accounts")(record))
        else change("accounts", field("Cookie: a=1"))(script, records)),
    ("the Cookie of the accounts request gone", "cookie", change("accounts", swap(HINTS, ""))),
    ("another origin in the assertion", "origin", change("assertion", swap(r"\r\nOrigin: [^\r]*", "\r\nOrigin: " + EVIL))),
    ("no origin in the assertion", "origin", change("assertion", swap(r"\r\nOrigin: [^\r]*", ""))),
    ("another account in the assertion", "consent", change("assertion", swap(r"account_id=[^&]*", "account_id=other"))),
    ("the assertion twice", "consent", replace(is_request("assertion"), lambda record: [record, record])),
    ("an assertion before the user decided", "consent", undecided),
    ("GET for the assertion", "head", change("assertion", swap(r"^POST", "GET"))),
    ("POST for the accounts", "head", change("accounts", swap(r"^GET", "POST"))),
    ("another token in the result", "token", replace(is_token, lambda record: [{**record, "token": record["token"] + "x"}])),
    ("the token twice", "token", replace(is_token, lambda record: [record, record])),
    ("a token after the page was left", "token", reloaded),
    ("a request of a call that is none", "call", replace(is_request("config"), lambda record: [{**record, "call": 99}])),
    ("a kind of request that is none", "record", replace(is_request("config"), lambda record: [{**record, "kind": "token"}])),
)


def is_automatic(records):
    return any("is_auto_selected=true" in record.get("text", "") for record in records)


def planted(tally, page):
    asked = program()
    if not asked:
        print("viewer: the program is not built, so no deviation is planted here")
        return
    found = {}
    for name, _ in stored():
        for order in ORDERS:
            base = "%s/%s/%s" % (FOLDER, name, order)
            if json.loads(read(base + ".verdict"))["out"] != "audited":
                continue
            script = read(base + ".script.jsonl").splitlines()
            records = [json.loads(line) for line in read(base + ".transcript.jsonl").splitlines()]
            for what, clause, plant in KINDS:
                pair = plant(script, records)
                if pair is None or plant is undecided and is_automatic(records):
                    continue
                text = "\n".join(pair[0]) + "\n" + DIVIDER + "".join(json.dumps(record) + "\n" for record in pair[1])
                verdict = capture.judge("audit", text, asked)[1]
                found[what] = found.get(what, 0) + 1
                tally.same("%s: %s" % (base, what), verdict.get("clause", verdict), clause)
    tally.true("%d kinds of deviation, %d in all" % (len(found), sum(found.values())), len(found) >= 12 and len(found) == len(KINDS))
