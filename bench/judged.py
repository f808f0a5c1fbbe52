#!/usr/bin/env python3
"""Runs the built program with the words `audit` and `compare` over the session of `traffic.py` and its own transcript, and with `run` over
the session alone, and reports of each seconds of a processor, peak memory, and instructions where valgrind is found.

    bench/judged.py [CALLS]
"""
import os
import sys
import tempfile
from typing import NamedTuple

from measure import instructions, run, transcript
from traffic import stringify, written

NEXT = '{"next":"transcript"}\n'
CALLS = 10_000
# The words read script and transcript: longer inputs than are counted elsewhere.
MOST = 100_000_000
ENTRIES = [
    "- `audit` of a session as servers and people write it ({:,} events) and its own transcript ({:,} records) takes {:.2f} times the"
    " instructions of `run` over the script, and `compare` {:.2f} times; {:.0f} MB, with {:.0f} MB of input."
]


class Session(NamedTuple):
    """A session, alone and with its transcript: where it stands, how many events and records it has, and the MB of both."""

    alone: str
    judged: str
    events: int
    records: int
    megabytes: float


def prepared(folder, calls):
    alone, judged = os.path.join(folder, "script.jsonl"), os.path.join(folder, "judged.jsonl")
    events = written(alone, stringify, calls)
    records = transcript(alone)
    with open(alone, encoding="utf-8") as script, open(judged, "w", encoding="utf-8") as both:
        both.writelines([*script, NEXT, records])
    return Session(alone, judged, events, records.count("\n"), os.path.getsize(judged) / 1e6)


def figures():
    with tempfile.TemporaryDirectory() as folder:
        session = prepared(folder, CALLS)
        alone = instructions(session.alone, most=MOST)
        audit, compare = (instructions(session.judged, word, most=MOST) / alone for word in ("audit", "compare"))
        peak = max(run(session.judged, word).peak for word in ("audit", "compare"))
        yield [session.events, session.records, audit, compare, peak, session.megabytes]


def main():
    calls = int(sys.argv[1]) if len(sys.argv) > 1 else CALLS
    print("| word | events | records | seconds | peak MB | instructions | times `run` |")
    print("|---|---|---|---|---|---|---|")
    with tempfile.TemporaryDirectory() as folder:
        session = prepared(folder, calls)
        alone = instructions(session.alone, most=MOST)
        for word, path in (("run", session.alone), ("audit", session.judged), ("compare", session.judged)):
            seconds, peak = run(path, word)
            count = instructions(path, word, most=MOST)
            sizes = f"{session.events:,} | {session.records:,}"
            print(f"| `{word}` | {sizes} | {seconds:.2f} | {peak:.0f} | {count:,.0f} | {count / alone:.2f} |", flush=True)


if __name__ == "__main__":
    main()
