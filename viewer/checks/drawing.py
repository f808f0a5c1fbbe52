"""That what is drawn is what the transcript has: counts, order, marks, decisions, and the picture of README."""
from .page import SVG, exported, groups, names, read, sample, values, wanted


def title(group):
    return "".join(next(group.iter(SVG + "tspan")).itertext())


def gutter(group):
    return next(text.text for text in group.findall(SVG + "text") if text.get("class") == "faint")


# Every example: on the page and in the exported picture, each request in its place.
def examples(tally, page):
    for name in names():
        script, transcript = sample(name)
        page.show(script, transcript)
        expected = wanted(script, transcript)
        tally.same(name + ": drawn", page.drawn(), expected)
        tree, counts = exported(page.export())
        tally.same(name + ": exported", counts, expected)
        requests = [(str(record["line"]), record["kind"]) for record in values(transcript) if record["out"] == "request"]
        tally.same(name + ": order of requests", [(gutter(group), title(group)) for group in groups(tree, "request")], requests)


# A transcript alone has its requests, dialogs and results too.
def alone(tally, page):
    for name in names():
        transcript = sample(name)[1]
        page.show(transcript)
        tally.same(name + ": the transcript alone", page.drawn(), wanted(None, transcript))
        tally.same(name + ": the transcript alone, problems", page.problems(), [])


SEVERAL = "viewer/tests/several.jsonl", "viewer/tests/several.out.jsonl"


# A call of three providers, of which one drops out: each in its lane, and the chooser says whose an account is.
def several(tally, page):
    page.show(*SEVERAL)
    tally.same("several: drawn", page.drawn(), wanted(*SEVERAL))
    tally.same("several: problems", page.problems(), [])
    tally.same("several: exported", exported(page.export())[1], wanted(*SEVERAL))
    tally.same("several: lanes", lanes(page), ["user", "https://shop.example", "browser", "https://idp.example",
                                               "https://accounts.idp.example", "https://two.example", "https://login.two.example",
                                               "https://third.example"])
    tally.same("several: dropped out", texts(page, ".row.dropped text:last-of-type"),
               ["provider 2 drops outhttps://third.example · well-known-reply (status)"])
    tally.same("several: accounts", texts(page, ".row.dialog .line")[:3], [
        "Ann · accounts.idp.example · ann@idp.example", "Bob · accounts.idp.example · bob@idp.example",
        "Ann · login.two.example · ann@two.example"])
    tally.same("several: what stands out", standing_out(page), [["15", "continue"], ["15", "assertion"]])
    page.set("#filter-provider", "login.two")
    tally.same("several: requests to one", page.count("#chart .row.request"), 5)
    page.show(SEVERAL[1])
    tally.same("several: the transcript alone", page.drawn(), wanted(None, SEVERAL[1]))


def lanes(page):
    return texts(page, ".lanes g > title")


def texts(page, selector):
    return page.get("[...document.querySelectorAll('#chart %s')].map(item => item.textContent)" % selector)


def sign_up(tally, page):
    page.show(*sample("sign-up"))
    marks = page.get("[...document.querySelectorAll('#chart .row.request')].map(row => ["
                     "row.querySelector('.title').textContent, row.querySelector('.mark-text').textContent])")
    tally.same("sign-up: marks", marks, [["wellknown", "nothing"], ["config", "nothing"], ["accounts", "user"], ["metadata", "page"],
                                         ["assertion", "both"]])
    tally.same("sign-up: what stands out", standing_out(page), [["10", "continue"], ["10", "assertion"]])
    tally.same("sign-up: lanes", lanes(page), ["user", "https://shop.example", "browser", "https://accounts.idp.example",
                                               "https://idp.example"])


def standing_out(page):
    return page.get("[...document.querySelectorAll('#chart .row.first, #chart .row.decides')].map(row => ["
                    "row.querySelector('.faint').textContent, row.querySelector('.title').textContent])")


# Without a choice of this call, the decision is the one by which its permission came.
def decisions(tally, page):
    page.show(*sample("second-visit"))
    after = page.get("[...document.querySelectorAll('#chart .row.first')].map(row => "
                     "/after line (\\d+) /.exec(row.getAttribute('aria-label'))[1])")
    tally.same("second-visit: decisions", after, ["10", "10", "24", "24"])
    page.show(*sample("disconnect"))
    after = page.get("[...document.querySelectorAll('#chart .row.first')].map(row => "
                     "/by the permission of line (\\d+)/.exec(row.getAttribute('aria-label'))?.[1])")
    tally.same("disconnect: permissions", after, ["5", "4", "4", "4", "6", "6"])
    page.show(sample("second-visit")[1])
    tally.true("a transcript alone: no decision is made up",
               page.get("[...document.querySelectorAll('#chart .row.first')][0].getAttribute('aria-label')"
                        ".includes('the decision before it is not in what was given')"))


def picture(tally, page):
    page.show(*sample("sign-up"))
    text = page.export()
    tally.true("docs/sign-up.svg is the export of the sign-up (viewer/check picture writes it)", read("docs/sign-up.svg") == text)
    tally.true("README.md shows docs/sign-up.svg", "(docs/sign-up.svg)" in read("README.md"))
    page.browser.size(700, 900, dark=True)
    page.show(*sample("sign-up"))
    tally.true("the export is the same in a narrow, dark window", page.export() == text)


# The page opens with the sign-up, and a window of 1400 by 900 shows its point: the decision and the first request that tells both.
def opening(tally, page):
    page.browser.size(1400, 900)
    page.open()
    tally.same("opened: drawn", page.drawn(), wanted(*sample("sign-up")))
    tally.same("opened: chosen", page.get("document.querySelector('#detail h2').textContent"), "Line 10: assertion")
    below = page.get("[...document.querySelectorAll('#chart .row')].filter(row => row.getBoundingClientRect().bottom > innerHeight).length")
    tally.same("opened: rows below the window", below, 0)
    heights = page.get("[...new Set([...document.querySelectorAll('#chart .row:not(.dialog) > .band')]"
                       ".map(band => band.getAttribute('height')))]")
    tally.same("opened: heights of rows without a box", heights, ["30"])
    tally.true("opened: the filters are folded", page.get("!document.querySelector('#filter-box').open"))
    page.get("(box => { box.value = 'several-calls'; box.dispatchEvent(new Event('change')); })(document.querySelector('#example'))")
    page.browser.wait("document.querySelector('#summary').textContent.startsWith('95 events')")
    tally.true("another example: its calls", page.count("#chart .stripe") >= 3)


# A script without its transcript says so; what is not known is not drawn.
def script_alone(tally, page):
    page.show(sample("sign-up")[0])
    tally.true("a script alone: said", any("There is no transcript" in text for text in page.problems()))
    tally.same("a script alone: no stripe and no mark", [page.count("#chart ." + kind) for kind in ("stripe", "mark", "first")], [0, 0, 0])
    tally.same("a script alone: lanes", lanes(page), ["user", "https://shop.example", "browser", "https://accounts.idp.example",
                                                     "well-known host of https://accounts.idp.example"])


# Where the clock goes on there is a line with the time, and the time of what is in view stands above.
def times(tally, page):
    page.browser.size(1400, 900)
    page.show("viewer/tests/interleaved.jsonl", "viewer/tests/interleaved.out.jsonl")
    tally.same("the time at the beginning", page.get("document.querySelector('.clock').textContent"), "00:00:00 UTC")
    page.get("document.querySelector('#chart').scrollTop = 16000")
    page.browser.wait("document.querySelector('.clock').textContent !== '00:00:00 UTC'")
    page.set("#filter-kind", "note")
    number = sum(event.get("do") == "at" for event in values("viewer/tests/interleaved.jsonl"))
    tally.same("a line for each time", page.count("#chart .moment"), number)
    tally.true("how long it took", page.get("[...document.querySelectorAll('#chart .row')].some(row => "
                                           "row.getAttribute('aria-label').includes('60 s later, 60 s after the beginning'))"))
