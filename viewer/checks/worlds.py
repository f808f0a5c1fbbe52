"""Two worlds side by side, and what the program says of transcripts of others."""
import json
import os

from .page import read, sample, wanted

TWINS = (*sample("sign-up"), "viewer/tests/other-world.jsonl", "viewer/tests/other-world.out.jsonl")
VERDICT = "examples/twins.out.jsonl"


# The sign-in requests are tied across and equal, what may differ is faint, and the quiet length is a line.
def twins(tally, page):
    page.show(*TWINS, VERDICT)
    said = json.loads(read(VERDICT))
    tally.same("twins: problems", page.problems(), [])
    tally.same("twins: equal requests", page.count("#chart .pair.equal"), said["compared"])
    tally.same("twins: marked", page.get("[...document.querySelectorAll('#chart .link-text')].map(text => text.textContent)"), ["="] * 3)
    words = page.text("#chart .ends .title:not(title)")
    tally.true("twins: the quiet length is said", "Quiet up to kept event %d." % said["quiet"] in words)
    tally.same("twins: one line", page.count("#chart .quiet"), 1)
    tally.true("twins: no stripe crosses its words", page.get(
        "[...document.querySelectorAll('#chart .stripe')].every(stripe => stripe.getAttribute('d').split('M').length === 3)"))
    after = page.get("(pairs => pairs.slice(pairs.findIndex(pair => pair.classList.contains('ends'))).every(pair => "
                     "[...pair.querySelectorAll('.side')].every(side => side.classList.contains('dim'))))"
                     "([...document.querySelectorAll('#chart .pair')])")
    tally.true("twins: what comes after the line is faint", after)
    faint = page.get("[...document.querySelectorAll('#chart .pair')].filter(pair => pair.querySelector('.dim')).map(pair => "
                     "pair.querySelector('.side .title').textContent)")
    tally.true("twins: the gets and the pages are faint: %r" % faint, "get" in faint and "page 1 loads" in faint and "accounts" not in
               faint[:faint.index("continue")])
    tally.true("twins: requests of a pair stand at one height", page.get(
        "[...document.querySelectorAll('#chart .pair.equal')].every(pair => new Set([...pair.querySelectorAll('.side .arrow')].map("
        "path => path.getBoundingClientRect().top)).size === 1)"))
    tally.true("twins: the program's word", page.text("#verdict").startswith("twin: the two scripts are twins"))
    page.browser.click("#view-table")
    tally.same("twins: the table has the same rows", page.count("#table tbody tr"), page.count("#chart .row"))
    tally.true("twins: exported", page.export().count("link-text\">=</text>") == 3)


# In any order, as one text for both scripts, and without transcripts; and what does not fit is named.
def given(tally, page):
    page.show(TWINS[2], TWINS[1], TWINS[0], TWINS[3])
    tally.same("worlds in another order: equal requests", page.count("#chart .pair.equal"), 3)
    first = page.get("[...document.querySelectorAll('.lanes text')].find(text => text.textContent.startsWith('First world')).textContent")
    tally.true("worlds in another order: the first", first.endswith("https://forum.test"))
    page.show("examples/twins.jsonl", TWINS[1], TWINS[3])
    tally.same("the input of twin with both transcripts", page.count("#chart .pair.equal"), 3)
    page.show(*sample("twins"))
    tally.true("twins without transcripts: said", sum("There is no transcript" in text for text in page.problems()) == 2)
    tally.same("twins without transcripts: no line and no link", (page.count("#chart .quiet"), page.count("#chart .link")), (0, 0))
    other = read(TWINS[3]).replace("GET /accounts", "GET /accountz")
    page.show_texts(one=read(TWINS[0]), first=read(TWINS[1]), two=read(TWINS[2]), second=other)
    tally.same("a request that differs", (page.count("#chart .pair.equal"), page.count("#chart .pair.differs")), (2, 1))
    verdict = json.dumps({"compared": 4, "out": "twins", "quiet": 6})
    page.show_texts(one=read(TWINS[0]), first=read(TWINS[1]), two=read(TWINS[2]), second=read(TWINS[3]), said=verdict)
    tally.true("another quiet length is named", any("6 kept events are quiet" in text for text in page.problems()))


# Of scripts that are no twins the kept event is marked at which the clause fails.
def no_twins(tally, page):
    page.show(*sample("not-twins"))
    said = json.loads(read(sample("not-twins")[1]))
    tally.true("no twins: said", "no twins, by the clause %s at kept event %d" % (said["clause"], said["event"]) in page.text("#verdict"))
    tally.same("no twins: marked", page.get("[...document.querySelectorAll('#chart .fault-text')].map(text => text.textContent)"),
               ["no twins: " + said["clause"]])
    tally.true("no twins: the event", page.get("document.querySelector('#chart .pair.fault').getAttribute('aria-label')").startswith(
        "Kept event %d, the scripts are no twins, by the clause %s, rule 15.3; " % (said["event"], said["clause"])))
    tally.same("no twins: chosen, and not faint", (page.count("#chart .pair.fault.chosen"), page.count("#chart .pair.fault .dim")), (1, 0))
    tally.true("no twins: the rule", "rule 15.3" in page.text("#detail"))


# Gives a further file to the page that stands.
def further(page, path):
    page.get("performance.clearMarks()")
    page.browser.choose_files("#files", [path if path.startswith("/") else os.path.abspath(path)])
    page.browser.wait("performance.getEntriesByName('drawn').length > 0")


# The choice of two scripts as it stands on the page, and what it turns to.
def turn(page):
    page.get("performance.clearMarks()")
    page.browser.click("#turn")
    page.browser.wait("performance.getEntriesByName('drawn').length > 0")


def choice(page):
    return page.get("document.querySelector('#choice').hidden ? '' : document.querySelector('#turn').textContent")


# A second script goes beside a first without a transcript, and can be drawn alone; where the first has its transcript, the second is drawn
# in its place, and can be put beside it. Over an example it begins anew.
def one_after_other(tally, page):
    first, first_out, second, second_out = TWINS
    alone, beside = "Draw the second alone", "Draw both side by side, as two worlds"
    page.show(first)
    tally.same("one script: no choice", choice(page), "")
    further(page, second)
    tally.same("a second script: two worlds", (page.text("#summary")[:11], page.count("#chart .link")), ("Two worlds.", 0))
    tally.same("a second script: the choice", choice(page), alone)
    tally.true("a second script: no transcripts, and said", sum("There is no transcript" in text for text in page.problems()) == 2)
    further(page, second_out)
    further(page, first_out)
    tally.same("then both transcripts: equal requests", page.count("#chart .pair.equal"), 3)
    turn(page)
    tally.same("the second alone", (page.drawn(), choice(page)), (wanted(second, second_out), beside))
    turn(page)
    tally.same("both again", (page.count("#chart .pair.equal"), choice(page)), (3, alone))
    page.show(first, first_out)
    further(page, second)
    tally.same("over a whole session: the second alone", (page.count("#chart .pair"), choice(page)), (0, beside))
    further(page, second_out)
    tally.same("with its transcript", (page.drawn(), choice(page)), (wanted(second, second_out), beside))
    turn(page)
    tally.same("both sessions side by side", (page.count("#chart .pair.equal"), choice(page)), (3, alone))
    further(page, VERDICT)
    tally.true("with what twin says of them", page.text("#verdict").startswith("twin: the two scripts are twins"))
    page.show_texts(both=read(first) + read(first_out))
    further(page, second)
    tally.same("over a text with script and transcript", choice(page), beside)
    turn(page)
    tally.same("both side by side", page.count("#chart .pair") > 9 and page.count("#chart .pair .request"), 5)
    page.open("several-calls")
    further(page, second)
    tally.same("over an example: a session of its own", (page.count("#chart .pair"), choice(page)), (0, ""))


# A record that breaks a rule, or differs, is marked with its clause, and its call's rows have full colors.
def audits(tally, page):
    for name, mark, rule, title in (("faulty", "breaks origin", "18.7", "accounts"), ("differs", "differs: target", "18.14", "accounts")):
        page.show(*sample(name))
        tally.same(name + ": problems", page.problems(), [])
        marks = page.get("[...document.querySelectorAll('#chart .fault-text')].map(text => text.textContent)")
        tally.same(name + ": marked", marks, [mark])
        tally.same(name + ": the row", page.get("document.querySelector('#chart .fault .title').textContent"), title)
        tally.same(name + ": chosen", page.count("#chart .fault.chosen"), 1)
        tally.true(name + ": the rule", "rule %s" % rule in page.text("#detail") and "rule %s" % rule in page.text("#verdict"))
        tally.true(name + ": the bars of its call", page.count("#chart .tie") == 5)
    for name in ("audited", "alike"):
        page.show(*sample(name))
        tally.same(name + ": no mark", (page.count("#chart .fault"), page.problems()), (0, []))
        tally.true(name + ": said", page.get("!document.querySelector('#verdict').hidden && "
                                            "!document.querySelector('#verdict').classList.contains('refused')"))
    several(tally, page)


# Of several providers the dropped ones stand in the chooser too.
def several(tally, page):
    script, transcript = read("viewer/tests/several.jsonl"), read("viewer/tests/several.out.jsonl").splitlines(True)
    place = next(at for at, line in enumerate(transcript) if '"kind":"assertion"' in line)
    number = script.count("\n") + 1 + place + 1
    verdict = json.dumps({"clause": "cookie", "line": number, "out": "faulty"})
    page.show_texts(audit=script + '{"next":"transcript"}\n' + "".join(transcript), said=verdict)
    tally.same("several: the faulty record", page.get("document.querySelector('#chart .fault .title').textContent"), "assertion")
    tally.same("several: the dropped one", page.count("#chart .row.dropped"), 1)
    tally.true("several: the dropped one in the chooser",
               page.get("[...document.querySelectorAll('#chart .dialog .line')].some("
                        "line => line.textContent.startsWith('dropped out: third'))"))
