#!/usr/bin/env python3
"""Runs the library for C over a sign-up, and over the script of 20,000 calls, by turns with the built program; and a sign-up by the
WebAssembly module in Node, where both are there. Reports milliseconds of a processor, of the quickest run and of the one in the middle.

    library/build wasm && bench/library.py
"""
import os
import shutil
import subprocess
import tempfile

from make import made
from measure import PROGRAM, run

TOP = os.path.dirname(os.path.dirname(os.path.abspath(__file__)))
LIBRARY = os.path.join(TOP, "library")
SIGN_UP = os.path.join(TOP, "examples", "sign-up.jsonl")
NODE = """
const { readFileSync } = require('node:fs');
const { Runner } = require(process.argv[1]);
const runner = new Runner(new WebAssembly.Module(readFileSync(process.argv[2])));
const script = readFileSync(process.argv[3]);
const took = [];
for (let at = 0; at < 500; at++) {
  const begun = performance.now();
  runner.call('run', script);
  took.push(performance.now() - begun);
}
took.sort((a, b) => a - b);
console.log(took[0].toFixed(4), took[250].toFixed(4));
"""


def said(*words):
    return " | ".join(subprocess.run(words, capture_output=True, text=True, check=True).stdout.split())


def by_turns(program, script, turns=8):
    """Milliseconds of the library and of the built program over a script, by turns: a processor is not as quick at all times."""
    own, other = [], []
    for _ in range(turns):
        took = subprocess.run([program, script, "3"], capture_output=True, text=True, check=True).stdout.split()
        own.append(float(took[0]))
        other.append(1000 * min(run(script).seconds for _ in range(3)))
    return [f"{times[0]:.1f} | {times[len(times) // 2]:.1f}" for times in (sorted(own), sorted(other))]


def main():
    print("| | quickest, ms | middle, ms |")
    print("|---|---|---|")
    with tempfile.TemporaryDirectory() as folder:
        program, script = os.path.join(folder, "time"), os.path.join(folder, "script.jsonl")
        subprocess.run(["cc", "-O2", "-o", program, os.path.join(LIBRARY, "checks", "time.c"), os.path.join(LIBRARY, "out", "libfedcm.a")],
                       check=True)
        with open(script, "w", encoding="utf-8") as file:
            file.writelines(made(20_000))
        print(f"| a sign-up, from C | {said(program, SIGN_UP, '2000')} |")
        module = os.path.join(LIBRARY, "out", "fedcm.wasm")
        if shutil.which("node") and os.path.exists(module):
            took = said("node", "-e", NODE, os.path.join(LIBRARY, "page", "runner.js"), module, SIGN_UP)
            print(f"| a sign-up, by the module in Node | {took} |")
        if os.path.exists(PROGRAM):
            own, other = by_turns(program, script)
            print(f"| 20,000 calls, from C | {own} |")
            print(f"| 20,000 calls, by the program | {other} |")


main()
