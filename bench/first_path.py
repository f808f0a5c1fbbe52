#!/usr/bin/env python3
"""Runs the built program over inputs of 10,000, 100,000 and 1,000,000 events, and reports events and megabytes a second of
a processor, peak memory, and instructions an event where valgrind is found and the input is not long.

Two shapes: `pages` is a load and a get for each of many pages, so that many calls are pending at once; `one page` is one
page that is loaded again and again, with a get in between that each load ends.

    bench/first_path.py [EVENTS ..]
"""
import sys

from measure import each, measured
from page import TWO_SIZES, two_sizes

HEADER = '{"fedcm":1,"now":0,"rules":""}\n'
# URLs as short as `url` reads them: 1,000,000 events have to fit into the 67,108,864 bytes of an input.
LOAD = '{"do":"load","page":%d,"url":"https:r"}\n'
GET = '{"do":"get","page":%d,"call":%d,"providers":[{"config":"https:i.c","client":""}]}\n'
ENTRIES = [
    "| `bench/first_path.py` | a load and a get for each of many pages, all pending at the end | " + TWO_SIZES,
    "| | a load and a get of one page, again and again | " + TWO_SIZES,
    "- A pending call keeps about {:.2f} KB with its page until its configuration is read.",
]


def pages(events):
    for i in range(events // 2):
        yield LOAD % i
        yield GET % (i, i)


def one_page(events):
    for i in range(events):
        yield LOAD % 0 if i % 2 == 0 else GET % (0, i)


def figures():
    small, large = (measured(HEADER, pages(events)) for events in (10_000, 1_000_000))
    yield two_sizes(small, large)
    yield two_sizes(*(measured(HEADER, one_page(events)) for events in (10_000, 1_000_000)))
    yield [(large.peak - small.peak) * 2e3 / (large.events - small.events)]


def main():
    counts = [int(word) for word in sys.argv[1:]] or [10_000, 100_000, 1_000_000]
    print("| shape | events | input MB | seconds | events a second | MB a second | peak MB | instructions an event |")
    print("|---|---|---|---|---|---|---|---|")
    for name, shape in (("pages", pages), ("one page", one_page)):
        for events in counts:
            _, size, seconds, peak, count = measured(HEADER, shape(events))
            rates = f"{events / seconds:,.0f} | {size / seconds:.1f}"
            print(f"| {name} | {events:,} | {size:.1f} | {seconds:.2f} | {rates} | {peak:.0f} | {each(count, events)} |")


if __name__ == "__main__":
    main()
