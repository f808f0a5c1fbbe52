#!/usr/bin/env python3
"""Runs the built program over scripts of 1,000, 10,000 and 100,000 events: pages with a get that close in a shuffled order, calls that
wait in login windows, cookies of many parties, and loads and gets below many suffix rules. What stands grows with the script. Reports
microseconds of a processor an event (the median of several runs, without what the header alone takes) and, where valgrind is found,
instructions an event, and how much more than at the smallest size they are.

    bench/flat.py [EVENTS ..]
"""
import os
import random
import statistics
import sys
import tempfile

from lines import ENDPOINTS, HEADER, compact, line, raw_reply, reply
from measure import instructions, run, write

LOST = "HTTP/1.1 404 Not Found\r\nContent-Type: application/json\r\n\r\n{}"
PROVIDERS = 50
# Cookies that each party has.
COOKIES = 18
# Counting takes some fifty times as long as running.
COUNTED = 40_000_000
ENTRIES = [
    "- `bench/flat.py` (what stands grows with the script): of 30,000 events each takes {:.2f} times the instructions of one of 1,000"
    " where pages close, {:.2f} where calls wait in login windows, {:.2f} with cookies of many parties, {:.2f} below many suffix rules."
]


def get(page, config, **members):
    return line(do="get", page=page, call=page, providers=[{"config": config, "client": "c"}], **members)


def shuffled(count):
    return random.Random(1).sample(range(count), count)


def gets(events):
    """Three events a page."""
    pages = events // 3
    for page in range(pages):
        yield line(do="load", page=page, url=f"https://rp{page}.example/")
    for page in range(pages):
        yield get(page, "https://accounts.idp.example/fedcm.json")
    for page in shuffled(pages):
        yield line(do="closepage", page=page)


def windows(events):
    """Five events and a half a call, and two a provider."""
    calls = (events - 2 * PROVIDERS) * 2 // 11
    for call in range(calls):
        config = f"https://accounts.idp{call % PROVIDERS}.example/fedcm.json"
        yield line(do="load", page=call, url=f"https://rp{call}.example/")
        yield get(call, config, mode="active", activation=True)
        yield reply(call, "wellknown", {"provider_urls": [config]})
        yield reply(call, "config", ENDPOINTS)
        yield raw_reply(call, "accounts", LOST)
    for call in shuffled(calls)[: calls // 2]:
        yield line(do="closepage", page=call)
    for k in range(PROVIDERS):
        yield line(do="load", page=calls + k, url=f"https://accounts.idp{k}.example/login")
        yield line(do="idpclose", page=calls + k)


def cookies(events):
    """Five events a party, of which the first stores cookies and the last sends them."""
    fields = "".join(f"Set-Cookie: sid{i}={i:024x}; Path=/; Secure; SameSite=None\r\n" for i in range(COOKIES))
    for party in range(events // 5):
        config = f"https://accounts.idp{party}.example/fedcm.json"
        yield line(do="load", page=party, url=f"https://accounts.idp{party}.example/x/y", text=f"HTTP/1.1 200 OK\r\n{fields}\r\n")
        yield line(do="load", page=party, url=f"https://rp{party}.example/")
        yield get(party, config)
        yield reply(party, "wellknown", {"provider_urls": [config]})
        yield reply(party, "config", ENDPOINTS)


def suffixes(events):
    """A load and a get of one page by turns, each below another rule."""
    for call in range(events // 2):
        host = f"a.r{call % (events // 10)}.x{call % 50}.example"
        yield line(do="load", page=1, url=f"https://{host}/")
        yield line(do="get", page=1, call=call, providers=[{"config": f"https://{host}/fedcm.json", "client": "c"}])


def rules(events):
    """A header with a rule for each tenth event."""
    names = (f"r{k}.x{j}.example" for k in range(events // 10) for j in [k % 50])
    return compact({"fedcm": 1, "now": 0, "rules": "\n".join(names)}) + "\n"


def plain_header(_):
    return HEADER


SHAPES = [
    ("gets", plain_header, gets),
    ("windows", plain_header, windows),
    ("cookies", plain_header, cookies),
    ("suffixes", rules, suffixes),
]


def costs(path, runs):
    """Microseconds and instructions of the program over the script at this path."""
    seconds = statistics.median(run(path).seconds for _ in range(runs))
    return seconds * 1e6, instructions(path, most=COUNTED)


def measured(header, events, folder):
    """Events, and what each takes beside the header."""
    alone, whole = os.path.join(folder, "header.jsonl"), os.path.join(folder, "script.jsonl")
    write(alone, header, [])
    count = write(whole, header, events)
    runs = max(7, min(300, 300_000 // count))
    return count, *((both - first) / count for both, first in zip(costs(whole, runs), costs(alone, runs)))


def counted(header, events, folder):
    """Instructions an event beside those of the header."""
    path = os.path.join(folder, "script.jsonl")
    write(path, header, [])
    alone = instructions(path, most=COUNTED)
    count = write(path, header, events)
    return (instructions(path, most=COUNTED) - alone) / count


def figures():
    with tempfile.TemporaryDirectory() as folder:
        costs_of = [[counted(header(size), shape(size), folder) for size in (1_000, 30_000)] for _, header, shape in SHAPES]
    yield [large / small for small, large in costs_of]


def times(value, least):
    return "" if value != value or least != least else f"{value / least:.2f}"


def main():
    sizes = [int(word) for word in sys.argv[1:]] or [1_000, 10_000, 100_000]
    print("| shape | events | microseconds an event | times the smallest | instructions an event | times the smallest |")
    print("|---|---|---|---|---|---|")
    for name, header, shape in SHAPES:
        least = None
        for size in sizes:
            with tempfile.TemporaryDirectory() as folder:
                count, time, work = measured(header(size), shape(size), folder)
            least = least or (time, work)
            told = "" if work != work else f"{work:,.0f}"
            print(f"| {name} | {count:,} | {time:.2f} | {times(time, least[0])} | {told} | {times(work, least[1])} |", flush=True)


if __name__ == "__main__":
    main()
