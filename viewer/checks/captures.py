"""Recordings on the page: dropped, drawn, saved; damaged ones; texts in them that mean harm; and a large one."""
import json
import os
import re
import time

import capture

from .bad import harmless
from .large import ROUNDS, between, share
from .page import read
from .traffic import FOLDER, stored

LIMIT = 3.0
SIZE = 48 * 1000 * 1000
UNREAD = 999999


# Gives the page files, and waits until they are drawn.
def give(page, paths, mark="drawn"):
    page.get("performance.clearMarks()")
    page.browser.choose_files("#files", [os.path.abspath(path) for path in paths])
    page.browser.wait("performance.getEntriesByName('%s').length > 0" % mark, 60)


def saved(page, part):
    return page.browser.download(lambda: page.browser.click("#save-" + part))


def lists(page):
    return page.text("#capture-lists")


# A recording is dropped, drawn as seen and in the profile's order, and saved; further recordings of the same minutes join.
def dropped(tally, page):
    paths = dict(stored())["hand-recorded"]
    page.open()
    tally.true("nothing is said before", page.get("document.querySelector('#capture').hidden"))
    give(page, paths)
    results = capture.convert(page.browser, paths)
    requests = results[0]["transcript"].count('"out":"request"')
    tally.same("its requests are drawn", page.drawn()["request"], requests)
    tally.same("problems", page.problems(), [])
    tally.true("what was made up stands there", "a choice, from the account of the assertion request" in lists(page))
    tally.true("the clauses stand there", "consent: judged on made-up choices" in lists(page))
    for part in ("script", "transcript", "pair", "report"):
        tally.true("saved: " + part, saved(page, part) == results[0][part])
    page.get("performance.clearMarks()")
    page.get("document.querySelector('#capture-order').value = 'profile'")
    page.get("document.querySelector('#capture-order').dispatchEvent(new Event('change'))")
    page.browser.wait("performance.getEntriesByName('drawn').length > 0")
    tally.true("saved in the profile's order", saved(page, "pair") == results[1]["pair"])
    page.browser.click("#capture-values")
    tally.true("saved with values", saved(page, "pair") == capture.convert(page.browser, paths, values=True)[1]["pair"])
    page.browser.click("#clear")
    tally.true("cleared", page.get("document.querySelector('#capture').hidden"))
    page.open()
    give(page, paths[:1])
    tally.true("a NetLog alone", "call: judged on made-up calls" in lists(page))
    give(page, paths[1:])
    tally.true("its DevTools log joins", saved(page, "pair") == results[0]["pair"])
    give(page, dict(stored())["r08-redirect-301"])
    tally.true("a request in no call is said", "1 of them in no call" in page.text("#capture-said"))


# What means harm in a recording: texts of accounts, pages and providers.
MARKS = {"Ann": "<img src=x onerror=hostile=1>", "u2": "\"><script>hostile=1</script>", "shop": "javascript:hostile=1//",
         "/fedcm.json": "/<b>fedcm.json", "signup": "constructor", "text/html": "text/html<iframe>"}


def harmful(tally, page):
    page.open()
    scripts = page.count("script")
    paths = []
    for path in dict(stored())["hand-recorded"]:
        text = read(path)
        for word, mark in MARKS.items():
            text = text.replace(word, json.dumps(mark)[1:-1].replace("\\", "\\\\") if path.endswith("jsonl") else json.dumps(mark)[1:-1])
        paths.append(page.file("harm-" + os.path.basename(path), text))
    page.browser.choose_files("#files", paths)
    page.browser.wait("!document.querySelector('#capture').hidden", 60)
    harmless(tally, page, "a recording that means harm", scripts)
    page.get("document.querySelector('#capture-values').click()")
    time.sleep(0.3)
    harmless(tally, page, "a recording that means harm, with its values", scripts)
    page.browser.click("#view-table")
    harmless(tally, page, "a recording that means harm, as a table", scripts)
    policies = page.get("document.querySelector('meta[http-equiv]').content.includes(\"default-src 'none'\")")
    tally.true("its policy stands", policies)


DAMAGE = """async (netlog, protocol, steps) => {
  const count = text => (text.match(/"out":"request"/g) ?? []).length;
  const give = (n, p) => Traffic.both(Traffic.read([{ name: 'n', text: n }, ...p === undefined ? [] : [{ name: 'p', text: p }]]));
  const whole = give(netlog, protocol);
  const sums = { errors: 0, pairs: 0, said: 0, wrong: [] };
  const one = (what, n, p) => {
    try {
      give(n, p).forEach((result, at) => {
        for (const line of (result.script + result.transcript).split('\\n')) if (line !== '') JSON.parse(line);
        const isSaid = JSON.stringify(result.lists.left) !== JSON.stringify(whole[at].lists.left);
        if (count(result.transcript) === count(whole[at].transcript)) sums.pairs += 1;
        else if (isSaid) sums.said += 1;
        else sums.wrong.push(what + ': a request is left out unsaid');
      });
    } catch (error) {
      if (error instanceof Bytes.Unreadable && error.message !== '') sums.errors += 1;
      else sums.wrong.push(what + ': ' + error.stack);
    }
  };
  for (let at = 0; at < netlog.length; at += steps.cut) one('the NetLog cut at ' + at, netlog.slice(0, at), protocol);
  for (let at = 0; at < protocol.length; at += steps.cut) one('the DevTools log cut at ' + at, netlog, protocol.slice(0, at));
  const values = [null, 7, -1, 'x', [], {}, true, [null], 'https://a.example/'];
  let number = 0;
  const visit = (root, value, path, text) => {
    for (const name of Object.keys(value ?? {})) {
      if (typeof value !== 'object') return;
      const own = value[name];
      for (const wrong of values) {
        if (typeof wrong === typeof own && wrong !== null && Array.isArray(wrong) === Array.isArray(own)) continue;
        number += 1;
        if (number % steps.wrong > 0) continue;
        value[name] = wrong;
        text([...path, name].join('.') + ' is ' + JSON.stringify(wrong));
        value[name] = own;
      }
      visit(root, own, [...path, name], text);
    }
  };
  const log = JSON.parse(netlog);
  visit(log, log, ['NetLog'], what => one(what, JSON.stringify(log), protocol));
  const rows = protocol.trimEnd().split('\\n').map(line => JSON.parse(line));
  visit(rows, rows, ['DevTools log'], what => one(what, netlog, rows.map(row => JSON.stringify(row)).join('\\n')));
  return sums;
}"""


# Recordings that are cut anywhere, and wrong types at every member in turn: an error that names what is wrong, or a pair that leaves no
# request out unsaid. The gate tries places some steps apart, others in each recording; CAPTURE_STEP=1 tries each.
def damaged_captures(tally, page):
    page.open()
    step = int(os.environ.get("CAPTURE_STEP", "0"))
    for at, (name, paths) in enumerate(stored()):
        texts = [read(path) for path in paths]
        steps = {"cut": step or 2503 + at, "wrong": step or 401 + at}
        found = page.get("(%s)(%s, %s, %s)" % (DAMAGE, json.dumps(texts[0]), json.dumps(texts[1]), json.dumps(steps)))
        tally.same("%s, damaged: what is wrong" % name, found["wrong"][:3], [])
        tally.true("%s, damaged: %d errors, %d whole pairs, %d where it is said" % (name, found["errors"], found["pairs"], found["said"]),
                   found["errors"] and found["pairs"] and found["said"])


# What is no recording at all, and what is one without replies.
def no_capture(tally, page):
    for text, words in (('{"constants":{}}', "logEventTypes"), ('{"constants":{"logEventTypes":5},"events":[]}', "logEventTypes"),
                        ('{"constants":{"a', "no JSON"), ('{"log":{}}', "entries"), ('{"log":', "no JSON")):
        try:
            capture.convert(page.browser, [page.file("none.json", text)])
            tally.true("refused: " + text, False)
        except capture.Unreadable as unreadable:
            tally.true("%s is refused: %s" % (text, unreadable), words in str(unreadable))
    log = json.loads(read(FOLDER + "/r07-cookies/netlog.json"))
    for event in log["events"]:
        event.get("params", {}).pop("bytes", None)
    page.open()
    page.browser.choose_files("#files", [page.file("bare.json", json.dumps(log))])
    page.browser.wait("!document.querySelector('#capture').hidden", 60)
    tally.true("a NetLog without bytes is refused on the page", "has no bytes" in page.text("#capture-said"))


# A NetLog as a browser writes it in some hours: one stored recording again and again, each with times and numbers of its own, and between
# them ten times as much that no conversion reads.
def large_log():
    log = json.loads(read(FOLDER + "/own-fetch-login/netlog.json"))
    log["constants"]["logEventTypes"]["HTTP_CACHE_READ_DATA"] = UNREAD
    texts = [(json.dumps(event, separators=(",", ":")), int(event["time"])) for event in log["events"]]
    events, length, turn = [], 0, 0
    while length < SIZE:
        for text, at in texts:
            moved = re.sub(r'"id":(\d+)', lambda found: '"id":%d' % (int(found[1]) + turn * 100000), text)
            events.append(moved.replace('"time":"%d"' % at, '"time":"%d"' % (at + turn * 60000)))
        filler = json.dumps({"params": {"bytes": "A" * 1000}, "phase": 0, "source": {"id": turn * 100000 + 1, "type": 1}, "type": UNREAD,
                             "time": str(texts[-1][1] + turn * 60000)})
        events += [filler] * (10 * sum(len(text) for text, _ in texts) // len(filler))
        length = sum(map(len, events)) if turn % 20 == 0 else length + 11 * sum(len(text) for text, _ in texts)
        turn += 1
    head = json.dumps(log["constants"], separators=(",", ":"))
    return '{"constants":%s,\n"events":[\n%s]}\n' % (head, ",\n".join(events)), turn


def large_capture(tally, page):
    text, turns = large_log()
    path = page.file("large.json", text)
    best = None
    for _ in range(ROUNDS):
        page.open()
        before = share()
        page.browser.choose_files("#files", [path])
        page.browser.wait("performance.getEntriesByName('converted').length > 0", 120)
        took = between(page, "given", "converted") * min(before, share()) / 1000
        best = min(best or took, took)
        if best <= LIMIT:
            break
    tally.true("%d megabytes with %d sign-ups are converted in %.1f s" % (len(text) // 1000000, turns, best), best <= LIMIT)
    tally.true("each request has its call", page.text("#capture-said").startswith("%d FedCM requests, all of them in calls" % (turns * 5)))
