#!/usr/bin/env python3
"""Runs the built program over page loads that store cookies: PARTIES parties with 180 cookies each, 90 of them a load, and as
many loads once more: of the same cookies, which are replaced in their places, or of new ones, each of which makes another go.
Reports seconds of a processor, cookies a second, peak memory, and instructions a cookie where valgrind is found and the input is
not long, for each number of parties.

    bench/cookies.py [PARTIES ..]
"""
import sys

from measure import each, measured

HEADER = '{"fedcm":1,"now":1700000000,"rules":"example"}\n'
A_LOAD = 90
ENTRIES = [
    "- `bench/cookies.py` (parties with 180 cookies each, and as many again): {:,.0f} instructions a cookie where the second ones replace"
    " the first, {:,.0f} where each of them makes another go; 360,000 writes for 1,000 parties take {:.2f} s and {:.2f} s, and {:.0f} MB."
]


def reply(first, value):
    fields = "".join(
        f"Set-Cookie: c{first + i}={value}; Path=/; Secure; SameSite=None\\r\\n" for i in range(A_LOAD)
    )
    return f"HTTP/1.1 200 OK\\r\\n{fields}\\r\\n"


def script(parties, second):
    for value, begin in (("one", 0), ("two", second)):
        for party in range(parties):
            for first in (begin, begin + A_LOAD):
                yield (
                    f'{{"do":"load","page":1,"url":"https://p{party}.example/",'
                    f'"text":"{reply(first, value)}"}}\n'
                )


def figures():
    counted = [measured(HEADER, script(100, second)).instructions / 36_000 for second in (0, 2 * A_LOAD)]
    replaced, others = (measured(HEADER, script(1_000, second)) for second in (0, 2 * A_LOAD))
    yield [*counted, replaced.seconds, others.seconds, max(replaced.peak, others.peak)]


def main():
    counts = [int(word) for word in sys.argv[1:]] or [100, 1000]
    sizes = "| parties | the second time | cookies kept | cookies written | input MB "
    print(sizes + "| seconds | written a second | peak MB | instructions a cookie |")
    print("|---|---|---|---|---|---|---|---|---|")
    for parties in counts:
        for what, second in (("in their places", 0), ("new ones", 2 * A_LOAD)):
            _, size, seconds, peak, count = measured(HEADER, script(parties, second))
            written = parties * 360
            print(
                f"| {parties} | {what} | {parties * 180} | {written} | {size:.1f} "
                f"| {seconds:.2f} | {written / seconds:,.0f} | {peak:.0f} | {each(count, written)} |"
            )


if __name__ == "__main__":
    main()
