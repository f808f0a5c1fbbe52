"""The page with the program in it, in a headless Chromium: each example and damaged ones by its module, and what a user does."""
import base64
import hashlib
import json
import os
import sys

HERE = os.path.dirname(os.path.abspath(__file__))
TOP = os.path.dirname(os.path.dirname(HERE))
PAGE = os.path.join(TOP, "library", "out", "page", "index.html")
AT_ONCE = 50
MOST = 100
EDITS = 10
sys.path.insert(0, os.path.join(TOP, "viewer"))

import browser  # noqa: E402

# What the module hands out for calls, as status and SHA-1.
CALLS = """(async calls => {
  globalThis.tried ??= await Runner.unpacked(FEDCM_MODULE);
  const told = [];
  for (const [form, party, bytes] of calls) {
    const { status, bytes: text } = tried.call(form, Uint8Array.from(atob(bytes), each => each.charCodeAt(0)), party);
    const sum = new Uint8Array(await crypto.subtle.digest('SHA-1', text));
    told.push([status, [...sum].map(byte => byte.toString(16).padStart(2, '0')).join('')]);
  }
  return told;
})(%s)"""
# How long an edit takes from the input to the picture.
EDIT = """(async text => {
  performance.clearMarks();
  const box = document.getElementById('edited');
  box.value = text;
  box.dispatchEvent(new Event('input'));
  while (performance.getEntriesByName('drawn').length === 0) await new Promise(done => setTimeout(done, 1));
  return performance.getEntriesByName('drawn')[0].startTime - performance.getEntriesByName('edited')[0].startTime;
})(%s)"""
DROP = """(texts => {
  document.getElementById('edit-says').textContent = '';
  const data = new DataTransfer();
  texts.forEach((text, at) => data.items.add(new File([text], at + '.jsonl')));
  document.body.dispatchEvent(new DragEvent('drop', { dataTransfer: data, bubbles: true, cancelable: true }));
})(%s)"""
TRAP = """(() => {
  const { hand } = Runner.prototype;
  Runner.prototype.hand = () => { throw new WebAssembly.RuntimeError('unreachable'); };
  document.getElementById('edited').dispatchEvent(new Event('input'));
  Runner.prototype.hand = hand;
  return document.getElementById('edit-says').textContent;
})()"""
SAYS = "document.getElementById('edit-says').textContent"


def called(driven, calls):
    """What the module of the page hands out, for forms, parties and bytes."""
    told = []
    for at in range(0, len(calls), AT_ONCE):
        part = [[form, party, base64.b64encode(given).decode()] for form, party, given in calls[at : at + AT_ONCE]]
        told += map(tuple, driven.evaluate(CALLS % json.dumps(part)))
    return told


def compare(tally, driven, what, calls, wanted):
    sums = [(status, hashlib.sha1(text).hexdigest()) for status, text in wanted]
    other = sum(got != due for got, due in zip(called(driven, calls), sums))
    tally.tell(other == 0, f"Chromium, {what}: {len(calls)} calls, {other} other")


def text_of(name):
    with open(os.path.join(TOP, "examples", name), encoding="utf-8") as file:
        return file.read()


def dropped(tally, driven, texts, says):
    driven.evaluate(DROP % json.dumps(texts))
    try:
        driven.wait(f"{SAYS}.startsWith({json.dumps(says)})")
        driven.wait("document.body.classList.contains('has-session')")
    except TimeoutError:
        pass
    said = driven.evaluate(SAYS)
    tally.tell(said.startswith(says), f"Chromium, {len(texts)} dropped: {said[:80]}")


def use(tally, driven):
    """What a user does."""
    script, transcript = text_of("sign-up.jsonl"), text_of("sign-up.out.jsonl")
    dropped(tally, driven, [script], "run: done")
    dropped(tally, driven, [script, script], "twin: twins")
    dropped(tally, driven, [script, transcript], "audit: no rule is broken")
    dropped(tally, driven, [script, transcript.replace('"Cookie', '"Coolie').replace("Origin: ", "Origyn: ")], "audit: ")
    # Other work on the machine makes single edits longer, so the quickest counts.
    times = sorted(driven.evaluate(EDIT % json.dumps(script + "\n" * at)) for at in range(EDITS))
    tally.tell(times[0] <= MOST, f"Chromium, {EDITS} edits: {times[0]:.0f} to {times[-1]:.0f} ms from the edit to the picture")
    said = driven.evaluate(TRAP)
    tally.tell("trapped" in said, f"Chromium, a trap: {said}")
    driven.evaluate(EDIT % json.dumps(script))
    tally.tell(driven.evaluate(SAYS) == "run: done", "Chromium, an edit after a trap")
    asked = [each["params"]["request"]["url"] for each in driven.events if each["method"] == "Network.requestWillBeSent"]
    others = [url for url in asked if not url.startswith("file:")]
    tally.tell(not others, f"Chromium: {len(asked)} files read, {len(others)} other requests")


def check(tally, calls, wanted, long):
    """`calls` are forms, parties and bytes, `wanted` what is due for them; `long` is such a pair of a long script, or nothing."""
    driven = browser.Browser(browser.find())
    try:
        driven.open("file://" + PAGE)
        driven.wait("!document.getElementById('edited').disabled")
        compare(tally, driven, "examples and damaged ones", calls, wanted)
        use(tally, driven)
        for call, due in long:
            compare(tally, driven, "a long script", [call], [due])
    finally:
        driven.close()
