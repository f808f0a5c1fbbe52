#!/usr/bin/env python3
"""Runs the built program over calls up to their accounts requests, against the cookies that it keeps: those of the provider that
go with the request, those of the provider that do not (of another path), and those of other parties, 180 a party. Reports
microseconds of a processor and instructions a call (where valgrind is found), from its get to its abort: the run less the run without
calls. Before, it looks that one such request carries the cookies that it should.

    bench/accounts_request.py [CALLS]
"""
import json
import os
import re
import sys
import tempfile

from measure import each, instructions, run, transcript

HEADER = {"fedcm": 1, "now": 1_700_000_000, "rules": "example"}
A_LOAD = 90
A_PARTY = 180
CONFIG = "https://accounts.idp.example/fedcm.json"
FILE = {"provider_urls": [CONFIG]}
MEMBERS = {"accounts_endpoint": "/accounts", "id_assertion_endpoint": "/assertion", "login_url": "/login"}

# Cookies that are sent, others of the provider, others of other parties.
CASES = [
    (0, 0, 0),
    (1, 0, 0),
    (10, 0, 0),
    (90, 0, 0),
    (180, 0, 0),
    (10, 170, 0),
    (10, 0, 1_800),
    (10, 0, 18_000),
    (10, 170, 18_000),
    (180, 0, 18_000),
]


def line(value):
    return json.dumps(value, separators=(",", ":")) + "\n"


def loads(url, kind, count, path):
    for first in range(0, count, A_LOAD):
        fields = "".join(
            f"Set-Cookie: {kind}{i}=31d4d96e407a{i:04}; Path={path}; Secure; SameSite=None\r\n"
            for i in range(first, min(first + A_LOAD, count))
        )
        yield line({"do": "load", "page": 2, "url": url, "text": f"HTTP/1.1 200 OK\r\n{fields}\r\n"})


def cookies(sent, provider, others):
    for party in range(others // A_PARTY):
        yield from loads(f"https://p{party}.example/", "o", A_PARTY, "/")
    yield from loads("https://accounts.idp.example/", "s", sent, "/")
    yield from loads("https://accounts.idp.example/", "e", provider, "/elsewhere")
    yield line({"do": "load", "page": 1, "url": "https://rp.example/"})


def reply(call, to, body):
    text = f"HTTP/1.1 200 OK\r\nContent-Type: application/json\r\n\r\n{json.dumps(body, separators=(',', ':'))}"
    return line({"do": "reply", "call": call, "to": to, "text": text})


def calls(count):
    for call in range(count):
        yield line({"do": "get", "page": 1, "call": call, "providers": [{"config": CONFIG, "client": "c1"}]})
        yield reply(call, "wellknown", FILE)
        yield reply(call, "config", MEMBERS)
        yield line({"do": "abort", "call": call})


def write(path, case, count):
    with open(path, "w") as out:
        out.write(line(HEADER))
        out.writelines(cookies(*case))
        out.writelines(calls(count))


def sent_cookies(path):
    """The number of cookies of the accounts request in the transcript of the script at this path."""
    records = map(json.loads, transcript(path).splitlines())
    [text] = [record["text"] for record in records if record.get("kind") == "accounts"]
    field = re.search("\r\nCookie: (.*)\r\n", text)
    return len(field.group(1).split("; ")) if field else 0


def main():
    count = int(sys.argv[1]) if len(sys.argv) > 1 else 2_000
    print("| sent | others of the provider | of other parties | us a call | peak MB | instructions a call |")
    print("|---|---|---|---|---|---|")
    with tempfile.TemporaryDirectory() as folder:
        path = os.path.join(folder, "script.jsonl")
        for case in CASES:
            write(path, case, 1)
            if sent_cookies(path) != case[0]:
                sys.exit(f"the accounts request carries other cookies than {case[0]}")
            write(path, case, 0)
            reading, _ = run(path)
            before = instructions(path)
            write(path, case, count)
            seconds, peak = run(path)
            counted = each(instructions(path) - before, count)
            print("| {:,} | {:,} | {:,} ".format(*case) + f"| {(seconds - reading) / count * 1e6:.1f} | {peak:.0f} | {counted} |")


if __name__ == "__main__":
    main()
