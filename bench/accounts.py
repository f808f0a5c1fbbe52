#!/usr/bin/env python3
"""Runs the built program over one call whose accounts reply has many accounts, all of them different or all of one id, and half of them
fitting the call's login hint. Reports the seconds of a processor, microseconds an account, and
instructions an account where valgrind is found and the input is not long.

    bench/accounts.py [ACCOUNTS]
"""
import os
import sys
import tempfile

from accounts_request import CONFIG, FILE, HEADER, MEMBERS, line, reply
from measure import each, instructions, run

ENTRIES = [
    "- `bench/accounts.py` (one call whose accounts reply has many accounts, of which half fit the hint): {:,.0f} instructions an account"
    " at 1,000 accounts of different ids and {:,.0f} at 100,000, which take {:.2f} s and {:.0f} MB; {:,.0f} and {:,.0f} where all have one"
    " id."
]


def accounts(count, ids):
    for place in range(count):
        yield {
            "id": f"user-{place % ids:07}",
            "name": f"User {place}",
            "email": f"user{place}@idp.example",
            "login_hints": ["even" if place % 2 == 0 else "odd"],
        }


def write(path, count, ids):
    with open(path, "w") as out:
        out.write(line(HEADER))
        out.write(line({"do": "load", "page": 1, "url": "https://rp.example/"}))
        provider = {"config": CONFIG, "client": "c1", "login_hint": "even"}
        out.write(line({"do": "get", "page": 1, "call": 1, "providers": [provider]}))
        out.write(reply(1, "wellknown", FILE))
        out.write(reply(1, "config", MEMBERS))
        out.write(reply(1, "accounts", {"accounts": list(accounts(count, ids))}))
    return os.path.getsize(path)


def figures():
    with tempfile.TemporaryDirectory() as folder:
        path = os.path.join(folder, "script.jsonl")

        def counted(count, ids):
            write(path, count, ids)
            return instructions(path) / count

        of_one_id = [counted(count, 1) for count in (1_000, 100_000)]
        different = [counted(count, count) for count in (1_000, 100_000)]
        yield [*different, *run(path), *of_one_id]


def main():
    most = int(sys.argv[1]) if len(sys.argv) > 1 else 100_000
    print("| accounts | ids | input MB | seconds | us an account | peak MB | instructions an account |")
    print("|---|---|---|---|---|---|---|")
    with tempfile.TemporaryDirectory() as folder:
        path = os.path.join(folder, "script.jsonl")
        for count in (most // 100, most // 10, most):
            for ids in (count, 1):
                size = write(path, count, ids)
                seconds, peak = run(path)
                counted = each(instructions(path), count)
                print(f"| {count:,} | {ids:,} | {size / 1e6:.1f} | {seconds:.2f} | {seconds / count * 1e6:.1f} | {peak:.0f} | {counted} |")


if __name__ == "__main__":
    main()
