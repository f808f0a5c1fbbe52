#!/usr/bin/env python3
"""Runs the built program over a session as servers and people write it, in five layouts of its lines, as the usual writers of JSON give
them. It looks that all five have one transcript, byte for byte, and reports for each layout seconds of a processor, peak memory, and
instructions an event where valgrind is found; and the spread: the largest by the smallest.

    bench/traffic.py [CALLS]
"""
import json
import os
import random
import sys
import tempfile

from measure import Measured, each, instructions, run, transcript, write
from session import HEADER, session

CALLS = 3_000
ENTRIES = [
    "- `bench/traffic.py` (a session as servers and people write it, {:,} events, in five layouts of its lines, of one transcript):"
    " {:,.0f} instructions an event as JSON.stringify writes it, {:,.0f} with members by name, {:,.0f} in any order, {:,.0f} as Python's"
    " json.dumps writes it and {:,.0f} as PHP's json_encode does, the largest {:.2f} times the smallest; {:.1f} to {:.1f} MB."
]


def stringify(value):
    return json.dumps(value, ensure_ascii=False, separators=(",", ":"))


def json_encode(value):
    return json.dumps(value, separators=(",", ":")).replace("/", "\\/")


def reordered(value, order):
    """The value with the members of each object in this order of their names."""
    if isinstance(value, dict):
        return {name: reordered(value[name], order) for name in order(value)}
    return [reordered(one, order) for one in value] if isinstance(value, list) else value


def by_name(value):
    return stringify(reordered(value, sorted))


def in_any_order(value):
    """The line itself is the seed of its order."""
    chance = random.Random(stringify(value))
    return stringify(reordered(value, lambda names: chance.sample(list(names), len(names))))


LAYOUTS = {
    "as JSON.stringify writes it": stringify,
    "members by name": by_name,
    "members in any order": in_any_order,
    "with blanks, as Python's json.dumps writes it": json.dumps,
    "with escaped slashes, as PHP's json_encode writes it": json_encode,
}


def written(path, layout, calls=CALLS):
    """Writes the session in this layout, and tells how many events there are."""
    return write(path, layout(HEADER) + "\n", (layout(event) + "\n" for event in session(calls)))


def costs(calls=CALLS):
    """What the session takes in each layout. It ends where one has another transcript than the first."""
    first = None
    with tempfile.TemporaryDirectory() as folder:
        path = os.path.join(folder, "script.jsonl")
        for name, layout in LAYOUTS.items():
            count = written(path, layout, calls)
            told = transcript(path)
            first = first or told
            if told != first:
                sys.exit(f"another transcript: {name}")
            yield Measured(count, os.path.getsize(path) / 1e6, *run(path), instructions(path))


def spread(values):
    """The largest of these values by the smallest."""
    return max(values) / min(values)


def figures():
    taken = list(costs())
    counted = [cost.instructions / cost.events for cost in taken]
    peaks = [cost.peak for cost in taken]
    yield [taken[0].events, *counted, spread(counted), min(peaks), max(peaks)]


def main():
    calls = int(sys.argv[1]) if len(sys.argv) > 1 else CALLS
    print("| layout | events | input MB | seconds | peak MB | instructions an event |")
    print("|---|---|---|---|---|---|")
    taken = []
    for name, cost in zip(LAYOUTS, costs(calls)):
        taken.append(cost)
        counted = each(cost.instructions, cost.events)
        print(f"| {name} | {cost.events:,} | {cost.megabytes:.1f} | {cost.seconds:.2f} | {cost.peak:.1f} | {counted} |", flush=True)
    spreads = [spread([getattr(cost, what) for cost in taken]) for what in ("seconds", "peak", "instructions")]
    print("| the largest by the smallest | | | {:.2f} | {:.2f} | {:.2f} |".format(*spreads))


if __name__ == "__main__":
    main()
