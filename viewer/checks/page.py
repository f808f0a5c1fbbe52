"""What the checks share: the page with a session in it, what its transcript holds, and the count of what passed."""
import glob
import json
import os
import traceback
import xml.etree.ElementTree as ElementTree

from browser import Ended

SVG = "{http://www.w3.org/2000/svg}"
INDEX = "file://" + os.path.abspath("viewer/index.html")
SHOWN = ("request", "reply", "dialog", "window", "result", "dropped", "ignored")


def read(path):
    with open(path, encoding="utf-8") as file:
        return file.read()


# The examples of scripts with transcripts: what the forms `check`, `twin`, `audit`, `compare`, `save` and `slice` write is none.
def names():
    found = (os.path.basename(path)[:-len(".out.jsonl")] for path in glob.glob("examples/*.out.jsonl"))
    return sorted(name for name in found if not is_aside("examples/%s.words" % name))


def is_aside(words):
    return os.path.exists(words) and read(words).split() in (["check"], ["audit"], ["compare"], ["twin"], ["save"], ["slice", "shop.example"])


# The paths of an example's script and transcript.
def sample(name):
    return "examples/%s.jsonl" % name, "examples/%s.out.jsonl" % name


def values(path):
    found = []
    for line in read(path).splitlines():
        try:
            found.append(json.loads(line))
        except ValueError:
            pass
    return found


# How many of each are to be drawn: the transcript's records, and the script's replies.
def wanted(script, transcript):
    records = values(transcript)
    counts = {kind: sum(record.get("out") == kind for record in records) for kind in SHOWN}
    counts["reply"] = sum(event.get("do") == "reply" for event in values(script)) if script else 0
    return counts


def line(**members):
    return json.dumps(members, separators=(",", ":")) + "\n"


class Page:
    def __init__(self, driven, folder):
        self.browser, self.folder = driven, folder
        self.tall()

    # A window so high that every row of an example is in view, and so drawn.
    def tall(self):
        self.browser.size(1400, 6000)

    def file(self, name, text):
        path = os.path.join(self.folder, name)
        with open(path, "w", encoding="utf-8", newline="") as file:
            file.write(text)
        return path

    # A fresh page with the example that it opens with, or with a named one.
    def open(self, name=""):
        self.browser.call("Page.navigate", url="about:blank")
        self.browser.open(INDEX + ("#" + name if name else ""))
        self.browser.wait("performance.getEntriesByName('drawn').length > 0")
        self.get("performance.clearMarks()")

    # A fresh page, in which files are chosen.
    def show(self, *paths, mark="drawn"):
        self.open()
        self.browser.choose_files("#files", [os.path.abspath(path) for path in paths if path])
        self.browser.wait("performance.getEntriesByName('%s').length > 0" % mark, 180)

    def show_texts(self, **texts):
        self.show(*[self.file(name + ".jsonl", text) for name, text in texts.items()])

    def get(self, expression):
        return self.browser.evaluate(expression)

    def count(self, selector):
        return self.get("document.querySelectorAll(%s).length" % json.dumps(selector))

    def text(self, selector):
        return self.get("document.querySelector(%s).textContent" % json.dumps(selector))

    # What the chart has drawn: groups by their class, and of requests and replies those with one arrow.
    def drawn(self):
        arrows = {kind: self.count("#chart .row.%s > .arrow:only-of-type, #chart .row.%s > .arrow" % (kind, kind))
                  for kind in ("request", "reply")}
        return {kind: arrows.get(kind, self.count("#chart .row." + kind)) for kind in SHOWN}

    def export(self):
        return self.browser.download(lambda: self.browser.click("#export"))

    def set(self, selector, value, event="input"):
        self.get("""(() => {
          performance.clearMarks('settled');
          const field = document.querySelector(%s);
          field.value = %s;
          field.dispatchEvent(new Event(%s, { bubbles: true }));
        })()""" % tuple(map(json.dumps, (selector, value, event))))
        self.browser.wait("performance.getEntriesByName('settled').length > 0")

    def problems(self):
        return self.get("[...document.querySelectorAll('#problem-list li')].map(item => item.textContent)")


def groups(tree, kind):
    return [group for group in tree.iter(SVG + "g") if kind in group.get("class", "").split()]


# What an exported picture has, counted in its XML.
def exported(text):
    tree = ElementTree.fromstring(text)
    counts = {}
    for kind in SHOWN:
        found = groups(tree, kind)
        if kind in ("request", "reply"):
            found = [path for group in found for path in group.findall(SVG + "path") if path.get("class") == "arrow"]
        counts[kind] = len(found)
    return tree, counts


class Tally:
    def __init__(self, page):
        self.page, self.passed, self.failed = page, 0, 0

    def run(self, check):
        try:
            self.page.tall()
            check(self, self.page)
        except Ended:
            raise
        except Exception:
            self.failed += 1
            print("%s: ended by an error" % check.__name__)
            traceback.print_exc()

    def same(self, what, found, expected):
        self.true("%s: %r, and not %r" % (what, found, expected), found == expected)

    def true(self, what, holds):
        if holds:
            self.passed += 1
        else:
            self.failed += 1
            print("failed: " + what)
