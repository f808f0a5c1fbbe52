"""Recordings of a browser's traffic, converted in the page's own scripts; and what the program says of what they become."""
import json
import os
import subprocess
import sys

import browser

INDEX = "file://" + os.path.join(os.path.dirname(os.path.abspath(__file__)), "index.html")
FEDCM = os.path.join(os.path.dirname(os.path.abspath(__file__)), "..", "fedcm")
STATUS_APART = 3

INPUT = """(() => {
  document.querySelector('#recordings')?.remove();
  const input = document.createElement('input');
  Object.assign(input, { type: 'file', multiple: true, id: 'recordings' });
  document.body.append(input);
})()"""


# What makes a recording unreadable.
class Unreadable(Exception):
    pass


# Both orders of recordings of the same minutes: `seen` first, then the profile's.
def convert(driven, paths, values=False):
    if not driven.evaluate("typeof Traffic === 'object'"):
        driven.open(INDEX)
    driven.evaluate(INPUT)
    driven.choose_files("#recordings", [os.path.abspath(path) for path in paths])
    answer = driven.evaluate("Traffic.ofFiles(document.querySelector('#recordings').files, %s)" % json.dumps({"values": values}))
    if "unreadable" in answer:
        raise Unreadable(answer["unreadable"])
    return answer["results"]


def save(path, text):
    with open(path, "w", encoding="utf-8", newline="") as file:
        file.write(text)
    return path


# Writes what a conversion gave, each order under its own name; the names of the files.
def write(results, prefix):
    return [save("%s.%s.%s" % (prefix, result["order"], name), result[part]) for result in results
            for part, name in (("script", "script.jsonl"), ("transcript", "transcript.jsonl"), ("pair", "pair.jsonl"),
                               ("report", "report.txt"))]


# One form of the program over a text: its status and its last record.
def judge(form, text, program=FEDCM):
    run = subprocess.run([program, form], input=text.encode(), stdout=subprocess.PIPE, stderr=subprocess.DEVNULL, check=False)
    lines = run.stdout.decode().splitlines()
    return run.returncode, json.loads(lines[-1]) if lines else {}


# The records that the program writes of a script.
def ran(script, program=FEDCM):
    run = subprocess.run([program, "run"], input=script.encode(), stdout=subprocess.PIPE, stderr=subprocess.DEVNULL, check=False)
    if run.returncode != 0:
        raise Unreadable("the program does not take the script: status %d" % run.returncode)
    return [json.loads(line) for line in run.stdout.decode().splitlines()]


# What `audit` says of a pair in words, and beside it the first row where the session here left the browser's, by `compare`.
def verdict(result, program=FEDCM):
    status, found = judge("audit", result["pair"], program)
    if found.get("out") == "audited":
        words = ["audit: the browser kept the order, in %d records" % found["records"]]
    elif found.get("out") == "faulty":
        line = result["pair"].splitlines()[found["line"] - 1]
        words = ["audit: line %d breaks the clause `%s`: %s" % (found["line"], found["clause"], brief(json.loads(line))),
                 "       this clause is %s" % result["clauses"][found["clause"]]]
    else:
        return ["audit: no answer, status %d: %s" % (status, json.dumps(found))]
    status, found = judge("compare", result["pair"], program)
    if found.get("out") == "differs":
        words.append("compare: the session here left the browser's at " + differs(result["script"].splitlines(), found))
    elif found.get("out") == "alike":
        words.append("compare: alike, in %d requests" % found["requests"])
    return words


def brief(record):
    return " ".join(str(record[name]) for name in ("out", "kind", "see") if name in record) + " of call %s" % record.get("call", "?")


def differs(lines, found):
    event = json.loads(lines[found["line"] - 1]) if found["what"] != "record" else {}
    row = " ".join(str(event[name]) for name in ("do", "to", "account") if name in event)
    due = found.get("due", found.get("due_raw"))
    return "line %d%s: call %s, %s: `%s`%s" % (found["line"], " (%s)" % row if row else "", found.get("call", "?"), found.get("kind", "?"),
                                              found["what"], ", where %s is due" % json.dumps(due) if due is not None else "")


# What viewer/convert does with its files, and viewer/record with what it recorded; the status.
def command(program, paths, options):
    driven = browser.Browser(program)
    try:
        results = convert(driven, paths, options["values"])
    except Unreadable as unreadable:
        print("viewer: %s" % unreadable, file=sys.stderr)
        return 2
    finally:
        driven.close()
    write(results, options["out"])
    for result in results:
        print(result["report"])
        if options["audit"]:
            print("\n".join(verdict(result)) + "\n")
    return 0 if results[0]["isWhole"] else STATUS_APART
