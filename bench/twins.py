#!/usr/bin/env python3
"""Runs the built program with the word `twin` over two scripts of so many sign-ups each, and with `run` over the first of
them, and reports the seconds of a processor, the instructions a sign-up where valgrind is found and the input is not long, and the peak
of memory.

The two scripts differ in their relying parties, clients and nonces. Each sign-up goes up to its prompt, so that both stay
quiet and every sign-in request is compared.

    bench/twins.py [SIGN-UPS ..]
"""
import json
import os
import subprocess
import sys
import tempfile

from measure import PROGRAM, each, instructions, need_program, run

HEADER = '{"fedcm":1,"now":0,"rules":""}\n'
NEXT = '{"next":"script"}\n'
OK = "HTTP/1.1 200 OK\r\nContent-Type: application/json\r\n\r\n"
CONFIG_URL = "https://accounts.idp.example/fedcm.json"
WELL_KNOWN = OK + json.dumps({"provider_urls": [CONFIG_URL]})
CONFIG = OK + json.dumps(
    {
        "accounts_endpoint": "/accounts",
        "id_assertion_endpoint": "/assert",
        "login_url": "/login",
    }
)
ACCOUNTS = OK + json.dumps({"accounts": [{"id": "u1", "name": "U", "email": "u@idp.example"}]})
ENTRIES = [
    "- `bench/twins.py` (two scripts of sign-ups up to their prompts): `twin` takes {:.2f} times the instructions of `run` over one of them"
    " ({:,.0f} and {:,.0f} a sign-up), {:.2f} s and {:.0f} MB at 20,000 sign-ups each."
]


def line(event):
    return json.dumps(event, separators=(",", ":")) + "\n"


def sign_ups(number, site, client):
    """The script of so many sign-ups, each on a page and a site of its own."""
    yield HEADER
    for i in range(number):
        yield line({"do": "load", "page": i, "url": f"https://{site}{i}.example/"})
        provider = {"config": CONFIG_URL, "client": f"{client}{i}", "nonce": f"{site}{i}"}
        yield line({"do": "get", "page": i, "call": i, "providers": [provider]})
        for to, text in (("wellknown", WELL_KNOWN), ("config", CONFIG), ("accounts", ACCOUNTS)):
            yield line({"do": "reply", "call": i, "to": to, "text": text})


def compared(number, path):
    """What is told of the two scripts, which has to be that all is compared."""
    with open(path, "rb") as pair:
        told = subprocess.run([PROGRAM, "twin"], stdin=pair, stdout=subprocess.PIPE, check=True).stdout
    wanted = {"compared": 3 * number, "out": "twins", "quiet": 5 * number}
    if json.loads(told) != wanted:
        sys.exit(f"told {told.decode()} of {number} sign-ups")


def write(number, alone, pair):
    """Writes the first of the two scripts to one of these paths, and both of them to the other."""
    with open(alone, "w") as script:
        script.writelines(sign_ups(number, "rp", "c"))
    with open(pair, "w") as scripts:
        scripts.writelines(sign_ups(number, "rp", "c"))
        scripts.write(NEXT)
        scripts.writelines(sign_ups(number, "shop", "web"))
    compared(number, pair)


def figures():
    with tempfile.TemporaryDirectory() as folder:
        alone, pair = os.path.join(folder, "alone"), os.path.join(folder, "pair")
        write(1_000, alone, pair)
        one, both = instructions(alone) / 1_000, instructions(pair, "twin") / 1_000
        write(20_000, alone, pair)
        yield [both / one, both, one, *run(pair, "twin")]


def main():
    need_program()
    numbers = [int(word) for word in sys.argv[1:]] or [1_000, 5_000, 20_000]
    print("| sign-ups each | run s | twin s | ratio | run instructions | twin instructions | run MB | twin MB |")
    print("|---|---|---|---|---|---|---|---|")
    with tempfile.TemporaryDirectory() as folder:
        alone, pair = os.path.join(folder, "alone"), os.path.join(folder, "pair")
        for number in numbers:
            write(number, alone, pair)
            seconds, peak = run(alone)
            both, both_peak = run(pair, "twin")
            counted = f"{each(instructions(alone), number)} | {each(instructions(pair, 'twin'), number)}"
            print(f"| {number:,} | {seconds:.2f} | {both:.2f} | {both / seconds:.2f} | {counted} | {peak:.0f} | {both_peak:.0f} |")


if __name__ == "__main__":
    main()
