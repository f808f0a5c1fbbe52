#!/usr/bin/env python3
"""Runs the built program with `make N`, and with `run` over the same script as lines. Reports of both seconds of a processor and peak
memory, and whether the summary counts the records of the run.

    bench/make.py [CALLS ..]
"""
import collections
import json
import os
import subprocess
import sys
import tempfile

from lines import ENDPOINTS, HEADER, line, reply
from measure import PROGRAM, run, transcript

PROVIDER = "https://accounts.idp.example"
CONFIG = PROVIDER + "/fedcm.json"


def token(call):
    fields = f"Access-Control-Allow-Origin: https://rp{call}.example\r\nAccess-Control-Allow-Credentials: true\r\n"
    return reply(call, "assertion", {"token": f"t{call}"}, fields)


ITEMS = [
    lambda i: line(do="have", what="kept", page=f"https://rp{i}.example", provider=PROVIDER, account=f"u{i}") if i % 2 == 0 else "",
    lambda i: line(do="load", page=i, url=f"https://rp{i}.example/"),
    lambda i: line(do="get", page=i, call=i, providers=[{"config": CONFIG, "client": f"c{i}"}]),
    lambda i: reply(i, "wellknown", {"provider_urls": [CONFIG]}),
    lambda i: reply(i, "config", ENDPOINTS),
    lambda i: reply(i, "accounts", {"accounts": [{"id": f"u{i}", "name": "U", "email": "u@idp.example"}]}),
    lambda i: line(do="continue", call=i) if i % 2 == 1 else "",
    token,
]


def made(calls):
    yield HEADER
    for item in ITEMS:
        for call in range(1, calls + 1):
            yield item(call)


def counted(text, calls):
    """The summary of a transcript, by its records."""
    records = [json.loads(record) for record in text.splitlines()]
    kinds = collections.Counter(record["out"] for record in records)
    mix = 0
    for byte in text.encode()[: text.rindex('{"events"')]:
        mix = (31 * mix + byte) % 2**32
    return {
        "calls": calls,
        "dialogs": kinds["dialog"],
        "events": records[-1]["events"],
        "ignored": kinds["ignored"],
        "mix": mix,
        "out": "summary",
        "requests": kinds["request"],
        "tokens": sum(record.get("see") == "token" for record in records),
    }


def main():
    counts = [int(word) for word in sys.argv[1:]] or [1_000, 20_000]
    print("| calls | `make`, seconds | peak MB | `run`, seconds | peak MB | the same counts |")
    print("|---|---|---|---|---|---|")
    with tempfile.TemporaryDirectory() as folder:
        path = os.path.join(folder, "script.jsonl")
        for calls in counts:
            with open(path, "w") as script:
                script.writelines(made(calls))
            ran, maker = run(path), run(path, "make", str(calls))
            summary = json.loads(subprocess.run([PROGRAM, "make", str(calls)], stdout=subprocess.PIPE, check=True).stdout)
            same = summary == counted(transcript(path), calls)
            counts_of = f"{maker.seconds:.2f} | {maker.peak:.0f} | {ran.seconds:.2f} | {ran.peak:.0f}"
            print(f"| {calls:,} | {counts_of} | {'yes' if same else 'NO'} |")


if __name__ == "__main__":
    main()
