#!/usr/bin/env python3
"""Runs the built program over scripts whose header is the whole Public Suffix List: one without events, one of 20,000 loads
and calls with the list, the same with 40,000 rules more, and the same without rules. It reports the time of a processor to read the
list, and per call the time with and without the rules; and the instructions of each where valgrind is found. A call costs the same
however many rules there are beside those that its hosts meet.

    bench/suffix_rules.py [LIST]      # /usr/share/publicsuffix/public_suffix_list.dat, of Debian's package publicsuffix
"""
import json
import os
import sys
import tempfile

from measure import each, instructions, run

LIST = "/usr/share/publicsuffix/public_suffix_list.dat"
CALLS = 10_000
# Below a suffix of the list, at names that no host has.
MORE = "\n".join(f"r{number}.x{number % 200}.uk" for number in range(40_000))
ENTRIES = [
    "- `bench/suffix_rules.py` (the whole Public Suffix List, {:,} lines): a line takes {:,.0f} instructions to read; a load and a call on"
    " a host below each rule in turn {:,.0f}, with 40,000 rules more {:,.0f}, and without rules {:,.0f}."
]


def line(value):
    return json.dumps(value, ensure_ascii=False, separators=(",", ":")) + "\n"


def hosts(text):
    """A host below each rule of the list, in turn."""
    rules = [rule.strip() for rule in text.splitlines()]
    rules = [rule.lstrip("!") for rule in rules if rule and not rule.startswith("//")]
    names = [rule.replace("*", "any") for rule in rules]
    while True:
        for name in names:
            yield f"accounts.idp.{name}"


def events(text):
    for number, host in zip(range(CALLS), hosts(text)):
        yield line({"do": "load", "page": number, "url": "https://rp.example/"})
        config = f"https://{host}/fedcm.json"
        yield line({"do": "get", "page": number, "call": number, "providers": [{"config": config, "client": "c"}]})


def took(folder, rules, lines):
    """Seconds and instructions."""
    path = os.path.join(folder, "script.jsonl")
    with open(path, "w", encoding="utf-8") as script:
        script.write(line({"fedcm": 1, "now": 0, "rules": rules}))
        script.writelines(lines)
    return run(path).seconds, instructions(path)


def costs(path):
    """Of the list at this path: what was done, how often, and the seconds and instructions that all of it takes."""
    with open(path, encoding="utf-8") as source:
        text = source.read()
    with tempfile.TemporaryDirectory() as folder:
        reading, reads = took(folder, text, [])
        twice, reads_twice = took(folder, text + "\n" + text, [])
        reading_more, reads_more = took(folder, text + "\n" + MORE, [])
        both, counted = took(folder, text, events(text))
        both_more, counted_more = took(folder, text + "\n" + MORE, events(text))
        without, counted_without = took(folder, "", events(text))
    lines = len(text.splitlines())
    return [
        ("lines of rules", lines, reading, reads),
        ("lines of rules, twice", 2 * lines, twice, reads_twice),
        ("loads and calls with the rules", CALLS, both - reading, counted - reads),
        ("loads and calls with 40,000 rules more", CALLS, both_more - reading_more, counted_more - reads_more),
        ("loads and calls without", CALLS, without, counted_without),
    ]


def figures():
    (_, lines, _, reads), _, *others = costs(LIST)
    yield [lines, reads / lines, *(count / number for _, number, _, count in others)]


def main():
    print("| what | number | us each | instructions each |")
    print("|---|---|---|---|")
    for what, number, seconds, count in costs(sys.argv[1] if len(sys.argv) > 1 else LIST):
        print(f"| {what} | {number:,} | {seconds / number * 1e6:.1f} | {each(count, number)} |")


if __name__ == "__main__":
    main()
