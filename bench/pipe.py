#!/usr/bin/env python3
"""Runs the built program over events that come through a pipe, in which 1,000 pages wait for the accounts of their calls while a hundred
others load again and again. Reports for each number of events seconds of a processor and the peak of memory beside that of the 1,000 calls
alone: what else was read is not kept.

    bench/pipe.py [EVENTS ..]
"""
import itertools
import sys

from lines import ENDPOINTS, HEADER, line, reply
from measure import piped

CALLS = 1_000
PAGES = 100
COUNTS = [10_000, 100_000, 1_000_000]
CONFIG = "https://accounts.idp.example/fedcm.json"
ENTRIES = [
    "- `bench/pipe.py` (events through a pipe: 1,000 pages wait for accounts, and a hundred others load again and again): at 10,000 to"
    " 1,000,000 events the peak is {:.1f} to {:.1f} MB. The last take {:.2f} s."
]


def standing():
    for call in range(CALLS):
        yield line(do="load", page=call, url=f"https://rp{call}.example/")
        yield line(do="get", page=call, call=call, providers=[{"config": CONFIG, "client": "c"}])
        yield reply(call, "wellknown", {"provider_urls": [CONFIG]})
        yield reply(call, "config", ENDPOINTS)


def passing():
    """A load in eight events, so that a million are within the limit of bytes."""
    for number in itertools.count():
        if number % 8:
            yield line(do="at", time=number)
            continue
        page = number // 8 % PAGES
        cookie = f"HTTP/1.1 200 OK\r\nSet-Cookie: session={number:08}; Secure\r\n\r\n"
        yield line(do="load", page=CALLS + page, url=f"https://shop{page}.example/", text=cookie)


def through(count):
    """What the program takes for so many events."""
    return piped(itertools.chain([HEADER], itertools.islice(itertools.chain(standing(), passing()), count)))


def figures():
    took = [through(count) for count in COUNTS]
    peaks = [run.peak for run in took]
    yield [min(peaks), max(peaks), took[-1].seconds]


def main():
    counts = [int(word) for word in sys.argv[1:]] or COUNTS
    alone = piped(itertools.chain([HEADER], standing()))
    print("| events | seconds | peak MB | above the calls alone, MB |")
    print("|---|---|---|---|")
    for count in counts:
        took = through(count)
        print(f"| {count:,} | {took.seconds:.2f} | {took.peak:.1f} | {took.peak - alone.peak:.1f} |", flush=True)


if __name__ == "__main__":
    main()
