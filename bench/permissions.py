#!/usr/bin/env python3
"""Runs the built program over scripts in which one page disconnects its accounts, one after another: each call takes its own
permission. The first shape has the permissions of this page alone, the second one as many of other pages beside them. Reports events
a second of a processor, peak memory, and instructions an event where valgrind is found and the input is not long, for each number of
accounts.

    bench/permissions.py [ACCOUNTS ..]
"""
import sys

from lines import ENDPOINTS, HEADER, line, reply
from measure import each, measured
from page import TWO_SIZES, two_sizes

PROVIDER = "https://accounts.idp.example"
CONFIG = PROVIDER + "/fedcm.json"
PAGE = "https://rp.example"
CORS = f"Access-Control-Allow-Origin: {PAGE}\r\nAccess-Control-Allow-Credentials: true\r\n"
DISCONNECTS = ENDPOINTS | {"disconnect_endpoint": "/disconnect"}
ENTRIES = [
    "| `bench/permissions.py` | disconnects of one page that each take its own permission | " + TWO_SIZES,
    "| | the same with as many permissions of other pages | " + TWO_SIZES,
]


def kept(page, account):
    return line(do="have", what="kept", page=page, provider=PROVIDER, account=account)


def disconnects(accounts, others):
    for i in range(accounts):
        yield kept(PAGE, f"u{i}")
        if others:
            yield kept(f"https://rp{i}.example", "u")
    yield line(do="load", page=1, url=PAGE)
    for i in range(accounts):
        yield line(do="disconnect", page=1, call=i, config=CONFIG, client="c", hint=f"u{i}")
        yield reply(i, "wellknown", {"provider_urls": [CONFIG]})
        yield reply(i, "config", DISCONNECTS)
        yield reply(i, "disconnect", {"account_id": f"u{i}"}, CORS)


def figures():
    for others in (False, True):
        yield two_sizes(*(measured(HEADER, disconnects(accounts, others)) for accounts in (5_000, 20_000)))


def main():
    counts = [int(word) for word in sys.argv[1:]] or [5_000, 10_000, 20_000]
    print("| permissions beside the page's own | accounts | events | seconds | events a second | peak MB | instructions an event |")
    print("|---|---|---|---|---|---|---|")
    for name, others in (("none", False), ("as many", True)):
        for accounts in counts:
            events, _, seconds, peak, count = measured(HEADER, disconnects(accounts, others))
            print(f"| {name} | {accounts:,} | {events:,} | {seconds:.2f} | {events / seconds:,.0f} | {peak:.0f} | {each(count, events)} |")


if __name__ == "__main__":
    main()
