"""What is made of other files: the examples that stand in the page, and the page of rules; and that the transcripts among the tests are
the program's, where it is built."""
import json
import os
import subprocess

from . import rules
from .page import read

PROGRAM = "crates/fedcm/out/fedcm"
TESTS = "viewer/tests/"


def pair(name, folder="examples/"):
    return [read(folder + name + ".jsonl"), read(folder + name + ".out.jsonl")]


# Two scripts with their transcripts, and what `twin` writes of them.
def twins():
    return [*pair("sign-up"), *pair("other-world", TESTS), read("examples/twins.out.jsonl")]


EXAMPLES = (
    ("sign-up", "A sign-up", lambda: pair("sign-up")),
    ("several-calls", "Twelve calls that interleave", lambda: pair("several-calls", TESTS)),
    ("twins", "Two worlds that cannot be told apart", twins),
    ("second-visit", "A second visit, without a dialog", lambda: pair("second-visit")),
    ("chooser-of-two", "A chooser over two providers", lambda: pair("chooser-of-two")),
    ("several", "Three providers, of which one drops out", lambda: pair("several", TESTS)),
    ("login-window", "Login windows", lambda: pair("login-window")),
    ("disconnect", "Disconnecting", lambda: pair("disconnect")),
    ("no-token", "Four calls that get no token", lambda: pair("no-token")),
    ("faulty", "An audit: a request that names the page too early", lambda: pair("faulty")),
    ("differs", "A comparison: another target", lambda: pair("differs")),
    ("bad-line", "A bad line", lambda: pair("bad-line")),
)


# The examples as a script, with each of them on a line.
def examples():
    head = "'use strict';\n\n// Made of examples/ and viewer/tests/ by `viewer/check made`: the examples that stand in the page.\n"
    made = [json.dumps({"name": name, "title": title, "texts": texts()}, ensure_ascii=True).replace("</", "<\\/")
            for name, title, texts in EXAMPLES]
    return head + "const Examples = [\n" + ",\n".join(made) + ",\n];\n"


def texts():
    return {"viewer/examples.js": examples(), "viewer/rules.html": rules.made()}


def current(tally, page):
    for path, text in texts().items():
        tally.true("%s is what it is made of (viewer/check made writes it)" % path, os.path.exists(path) and read(path) == text)
    page.open()
    listed = page.get("[...document.querySelectorAll('#example option')].map(option => option.value).filter(Boolean)")
    tally.same("the list of examples", listed, [name for name, _, _ in EXAMPLES])
    for name, title, given in EXAMPLES:
        page.open(name)
        tally.same("the example %s is drawn" % name, page.get("document.querySelector('#example').selectedOptions[0].text"), title)
        expected = [] if name != "bad-line" else page.problems()
        tally.same("the example %s: problems" % name, page.problems(), expected)


# The scripts among the tests, run by the program.
def transcripts(tally, page):
    if not os.path.exists(PROGRAM):
        print("the program is not built, so the transcripts in viewer/tests are not compared with its own")
        return
    for name in ("interleaved", "several-calls", "several", "other-world"):
        with open(TESTS + name + ".jsonl", "rb") as script:
            found = subprocess.run([PROGRAM, "run"], stdin=script, stdout=subprocess.PIPE, check=False).stdout.decode()
        tally.true("viewer/tests/%s.out.jsonl is the program's transcript" % name, found == read(TESTS + name + ".out.jsonl"))
