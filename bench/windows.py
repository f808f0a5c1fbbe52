#!/usr/bin/env python3
"""Runs the built program over scripts in which active calls of as many pages wait for 50 providers: half of the pages close, in a shuffled
order, and each provider's page says once that the user has signed in, so that the other half go on. Reports events a second of a
processor, peak memory, and instructions an event where valgrind is found and the input is not long, for each number of calls.

    bench/windows.py [CALLS ..]
"""
import random
import sys

from lines import ENDPOINTS, HEADER, line, raw_reply, reply
from measure import each, measured
from page import TWO_SIZES, two_sizes

PROVIDERS = 50
LOST = "HTTP/1.1 404 Not Found\r\nContent-Type: application/json\r\n\r\n{}"
ENTRIES = ["| `bench/windows.py` | active calls that wait for 50 providers; half close, half go on | " + TWO_SIZES]


def provider(call):
    return f"https://accounts.idp{call % PROVIDERS}.example"


def wait(call):
    config = provider(call) + "/fedcm.json"
    yield line(do="load", page=call, url=f"https://rp{call}.example/")
    yield line(do="get", page=call, call=call, mode="active", activation=True, providers=[{"config": config, "client": "c"}])
    yield reply(call, "wellknown", {"provider_urls": [config]})
    yield reply(call, "config", ENDPOINTS)
    yield raw_reply(call, "accounts", LOST)


def windows(calls):
    for call in range(calls):
        yield from wait(call)
    for call in random.Random(1).sample(range(calls), calls // 2):
        yield line(do="closepage", page=call)
    for k in range(PROVIDERS):
        yield line(do="load", page=calls + k, url=provider(k) + "/login")
        yield line(do="idpclose", page=calls + k)


def figures():
    yield two_sizes(*(measured(HEADER, windows(calls)) for calls in (2_500, 10_000)))


def main():
    counts = [int(word) for word in sys.argv[1:]] or [2_500, 5_000, 10_000]
    print("| calls | events | seconds | events a second | peak MB | instructions an event |")
    print("|---|---|---|---|---|---|")
    for calls in counts:
        events, _, seconds, peak, count = measured(HEADER, windows(calls))
        print(f"| {calls:,} | {events:,} | {seconds:.2f} | {events / seconds:,.0f} | {peak:.0f} | {each(count, events)} |")


if __name__ == "__main__":
    main()
