"""Input that is damaged, and input that means harm."""
import re
import xml.etree.ElementTree as ElementTree

from .page import SVG, exported, line, read, sample

HEADER = line(fedcm=1, now=1, rules="example")
LOAD = line(do="load", page=1, url="https://rp.example/")
DRAWN = {"svg", "title", "desc", "style", "rect", "g", "path", "text", "tspan", "circle"}
HIDDEN = ("\u202e", "\x00", "\ufffe", "\uffff", "\u200b")


def has_problem(page, source, number, cause):
    return any(text.startswith("%s, line %d:" % (source, number)) and "(%s)" % cause in text for text in page.problems())


# A bad line is named with its cause, and the others are drawn.
def damaged(tally, page):
    script = [HEADER, "{\"do\":\"load\",\n", line(do="dance"), line(do="get", page=1, call=1, providers=[]), LOAD,
              line(do="load", page=2, url="ftp://rp.example/"), line(do="at", time=0),
              line(do="have", what="silent", origin="https://a.example/")]
    page.show_texts(damaged="".join(script))
    for number, cause in ((2, "not-json"), (3, "no-kind"), (4, "member"), (6, "bad-url"), (7, "time-back"), (8, "have-late")):
        tally.true("line %d is named as %s" % (number, cause), has_problem(page, "script", number, cause))
    tally.same("what could be read is drawn", page.count("#chart .row"), 1)
    cut_short(tally, page)
    whole_files(tally, page)


def cut_short(tally, page):
    script, transcript = map(read, sample("sign-up"))
    page.show_texts(script=script, transcript=transcript[:len(transcript) // 2])
    lines = transcript[:len(transcript) // 2].count("\n")
    tally.true("a cut transcript: its last line", has_problem(page, "transcript", lines + 1, "not-json"))
    tally.true("a cut transcript: no end", has_problem(page, "transcript", lines, "no-end"))
    whole = "".join(transcript[:len(transcript) // 2].splitlines(True)[:lines])
    tally.same("a cut transcript: the rest is drawn", page.drawn()["request"], whole.count('"out":"request"'))
    page.show_texts(script=script, transcript=read("examples/login-window.out.jsonl"))
    problems = page.problems()
    tally.true("a transcript of another script", "(other-script)" in problems[0] and any("(no-event)" in text for text in problems))
    tally.true("many problems: the others are counted", re.fullmatch(r"and \d+ more", problems[-1]))


def whole_files(tally, page):
    page.show_texts(garbage="\x00\x01garbage\nmore")
    tally.true("no script at all", has_problem(page, "script", 1, "not-json"))
    page.show_texts(empty="")
    tally.true("an empty file", has_problem(page, "script", 1, "not-json"))
    page.show_texts(mark="\ufeff" + read("examples/sign-up.jsonl"))
    tally.true("a byte order mark", has_problem(page, "script", 1, "not-json"))
    page.show_texts(header=line(fedcm=2))
    tally.true("another header", has_problem(page, "script", 1, "member"))
    page.show(*sample("bad-line"))
    tally.same("what the program did not read is grey", page.count("#chart .row.unread"), 1)
    names = [line(out=name, line=1) for name in ("__proto__", "constructor", "toString")]
    page.show_texts(names="".join(names))
    tally.same("records of no kind", [text.endswith("(no-kind)") for text in page.problems()][:3], [True] * 3)


# Markup in every text: nothing of it becomes an element, an attribute that runs, or a link.
def hostile(tally, page):
    page.open()
    scripts = page.count("script")
    page.show("viewer/tests/hostile.jsonl", "viewer/tests/hostile.out.jsonl")
    tally.same("hostile: problems", page.problems(), [])
    for place in range(page.count("#chart .row")):
        page.get("document.querySelector('#row-%d .band').dispatchEvent(new MouseEvent('click', {bubbles: true}))" % place)
        harmless(tally, page, "hostile, row %d" % place, scripts)
    page.browser.click("#view-table")
    harmless(tally, page, "hostile, table", scripts)
    tally.true("hostile: its text is shown", "<img src=x onerror=" in page.text("#table tbody"))
    text = page.export()
    tree, counts = exported(text)
    tally.same("hostile: drawn", counts, {"request": 4, "reply": 4, "dialog": 2, "window": 1, "result": 2, "dropped": 0,
                                               "ignored": 0})
    tags = {element.tag.replace(SVG, "") for element in tree.iter()}
    tally.same("hostile: elements of the export", tags - DRAWN, set())
    tally.true("hostile: no hidden characters", not any(character in text for character in HIDDEN))
    tally.true("hostile: the export is XML", ElementTree.fromstring(text) is not None)


def harmless(tally, page, where, scripts):
    found = page.get("""({
      ran: window.hostile,
      scripts: document.querySelectorAll('script').length,
      foreign: document.querySelectorAll('img, iframe, object, embed, form:not(#filters), b, [onerror], [onload], base').length,
      links: [...document.querySelectorAll('a')].map(link => link.getAttribute('href'))
        .filter(href => !/^(#|rules\\.html#)/.test(href)).length,
    })""")
    tally.same(where, found, {"scripts": scripts, "foreign": 0, "links": 0})
