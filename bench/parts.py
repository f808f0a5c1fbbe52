#!/usr/bin/env python3
"""Runs the built program with the words `save` and `slice PARTY`, and reports seconds of a processor, instructions where valgrind is found
and the input is not long, and the peak of memory.

`save` is over as many permissions as cookies, of a site for each hundred cookies, and the instructions are for each of them. `slice` is
over so many sign-ups of a site each at one provider, for one of the sites, beside `run` over the same script: all is linked.

    bench/parts.py [NUMBER ..]
"""
import os
import sys
import tempfile

from measure import each, instructions, need_program, run, write
from twins import line, sign_ups

RULED = '{"fedcm":1,"now":0,"rules":"example"}\n'
# The form `slice` reads longer scripts in a minute than are counted elsewhere.
MOST = 40_000_000
ENTRIES = [
    "- `bench/parts.py`: `save` takes {:,.0f} instructions for each permission and cookie that stands at 2,000 of them and {:,.0f} at"
    " 20,000; 200,000 take {:.1f} s. `slice` takes {:.2f} of the instructions of `run` over 1,000 sign-ups at one provider, which are all"
    " linked, and {:.2f} over 10,000."
]


def things(number):
    """So many permissions, and so many cookies."""
    for i in range(number):
        yield line({"do": "have", "what": "kept", "page": "https://rp.example", "provider": "https://idp.example", "account": f"u{i}"})
    for i in range(number):
        yield line({"do": "have", "what": "cookie", "url": f"https://p{i // 100}.example/", "text": f"c{i}=1; Path=/"})


def told(path, number, *words):
    seconds, peak = run(path, *words)
    count = instructions(path, *words, most=MOST)
    print(f"| `{' '.join(words)}` | {number:,} | {seconds:.2f} | {each(count, number)} | {peak:.0f} |")
    return count


def saved(path, number):
    """Instructions of `save` for each of twice so many things."""
    write(path, RULED, things(number))
    return instructions(path, "save", most=MOST) / (2 * number)


def sliced(path, number):
    """Instructions of `slice` over so many sign-ups by those of `run`."""
    write(path, "", sign_ups(number, "rp", "c"))
    return instructions(path, "slice", "rp0.example", most=MOST) / instructions(path, "run", most=MOST)


def figures():
    with tempfile.TemporaryDirectory() as folder:
        path = os.path.join(folder, "script.jsonl")
        counted = [saved(path, number) for number in (1_000, 10_000)]
        write(path, RULED, things(100_000))
        seconds = run(path, "save").seconds
        yield [*counted, seconds, *(sliced(path, number) for number in (1_000, 10_000))]


def main():
    need_program()
    numbers = [int(word) for word in sys.argv[1:]] or [10_000, 100_000]
    print("| words | permissions and cookies, or sign-ups | seconds | instructions each | peak MB |")
    print("|---|---|---|---|---|")
    with tempfile.TemporaryDirectory() as folder:
        path = os.path.join(folder, "script.jsonl")
        for number in numbers:
            write(path, RULED, things(number))
            told(path, 2 * number, "save")
        for number in numbers:
            write(path, "", sign_ups(number, "rp", "c"))
            told(path, number, "run")
            told(path, number, "slice", "rp0.example")


if __name__ == "__main__":
    main()
