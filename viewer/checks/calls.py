"""Calls that interleave: 60 calls of 12 pages at 6 providers."""
from .page import values, wanted

FILES = "viewer/tests/interleaved.jsonl", "viewer/tests/interleaved.out.jsonl"
SHOWN = """[...document.querySelectorAll('#chart .row')].map(row => [row.id, row.querySelectorAll(':scope > .faint')[1]?.textContent,
  row.classList.contains('dim')])"""


NUMBER = "document.querySelector('#chart .chosen').querySelectorAll(':scope > .faint')[1].textContent"


def shown(page):
    page.browser.size(1400, 34000)
    page.show(*FILES)


# A stripe for each call, from its get to its result, and a knot in it for each of the call's rows; no two overlap in a column.
def stripes(tally, page):
    shown(page)
    tally.same("60 calls: drawn", page.drawn(), wanted(*FILES))
    tally.same("60 calls: problems", page.problems(), [])
    found = page.get("[...document.querySelectorAll('#chart .stripe')].map(path => /M([\\d.]+) ([\\d.]+)V([\\d.]+)/.exec("
                     "path.getAttribute('d')).slice(1).map(Number))")
    tally.same("60 calls: stripes", len(found), 60)
    columns = {}
    for x, top, bottom in sorted(found):
        tally.true("stripes of a column do not overlap", top > columns.get(x, -1) and bottom > top)
        columns[x] = bottom
    most, pending = 0, set()
    results = {record["line"]: set() for record in values(FILES[1]) if record["out"] == "result"}
    for record in values(FILES[1]):
        if record["out"] == "result":
            results[record["line"]].add(record["call"])
    for number, event in enumerate(values(FILES[0]), 1):
        pending |= {event["call"]} if event.get("do") == "get" else set()
        most = max(most, len(pending))
        pending -= results.get(number, set())
    tally.same("60 calls: as many columns as calls are pending at once", len(columns), most)
    knots = page.get("document.querySelectorAll('#chart .row .knot').length")
    tally.same("60 calls: knots", knots, page.get("document.querySelectorAll('#chart .row').length - [...document.querySelectorAll("
                                                 "'#chart .row')].filter(row => !row.querySelectorAll(':scope > .faint')[1]).length"))


def choose(page, selector):
    page.get("document.querySelector(%r).querySelector('.band').dispatchEvent(new MouseEvent('click', {bubbles: true}))" % selector)


# The rows of the chosen row's call have full colors, and all others are faint.
def chosen(tally, page):
    shown(page)
    choose(page, "#chart .row.first")
    rows = page.get(SHOWN)
    call = page.get(NUMBER)
    tally.true("the chosen call's rows, and no other, have full colors", all((number == call) != dim for _, number, dim in rows))
    tally.true("there are both", 5 < sum(not dim for _, _, dim in rows) < len(rows) - 100)
    tally.same("its stripe is thicker", page.count("#chart .stripe.own"), 1)
    page.browser.press("Escape")
    page.get("document.querySelector('#chart').focus()")
    page.browser.press("c")
    tally.same("key c: the next row is of the call", page.get(NUMBER), call)


# On the chosen call's stripe, which is thicker, a ring stands for each of its rows: over the stripe, wider, and of another color inside.
def knots(tally, page):
    for height, given in ((34000, FILES), (6000, SEVERAL_CALLS)):
        page.browser.size(1400, height)
        page.show(*given)
        choose(page, "#chart .row.first")
        found = page.get(RINGS)
        tally.true("%s: a ring for each row of the call: %r" % (given[0], found), found["rings"] == found["rows"] and found["rows"] > 5)
        tally.same("%s: at the heights of their knots" % given[0], found["heights"], found["knots"])
        tally.same("%s: rings that the stripe hides" % given[0], found["hidden"], 0)
        tally.same("%s: none in the exported picture" % given[0], 'class="knot own' in page.export(), False)


SEVERAL_CALLS = "viewer/tests/several-calls.jsonl", "viewer/tests/several-calls.out.jsonl"
RINGS = """(() => {
  const rows = [...document.querySelectorAll('#chart .row:not(.dim)')].filter(row => row.querySelector('.knot'));
  const rings = [...document.querySelectorAll('#chart .knot.own')];
  const stripe = document.querySelector('#chart .stripe.own');
  const middle = item => (box => Math.round(box.top + box.height / 2))(item.getBoundingClientRect());
  const isHidden = ring => getComputedStyle(ring).fill === getComputedStyle(stripe).stroke
    || 2 * ring.r.baseVal.value <= parseFloat(getComputedStyle(stripe).strokeWidth)
    || !(stripe.compareDocumentPosition(ring) & Node.DOCUMENT_POSITION_FOLLOWING);
  return { rows: rows.length, rings: rings.length, heights: rings.map(middle), knots: rows.map(row => middle(row.querySelector('.knot'))),
    hidden: rings.filter(isHidden).length };
})()"""


# Each request of the chosen call is tied to its reply, over the provider's lane; the chosen pair stands out.
def ties(tally, page):
    shown(page)
    choose(page, "#chart .row.first")
    requests = page.count("#chart .row.request:not(.dim)")
    tally.same("a bar for each request", page.count("#chart .tie"), requests)
    tally.same("one stands out", page.count("#chart .tie.own"), 1)
    ends = page.get("""(() => {
      const bar = document.querySelector('#chart .tie.own').getBoundingClientRect();
      const row = document.querySelector('#chart .chosen .tip').getBoundingClientRect();
      const replies = [...document.querySelectorAll('#chart .row.reply:not(.dim)')];
      const reply = replies.find(each => each.getAttribute('aria-label').includes('reply: assertion')).querySelector('.arrow');
      return [bar.top - row.top, bar.bottom - reply.getBoundingClientRect().bottom, bar.left + bar.width / 2 - row.right];
    })()""")
    tally.true("it goes from the request to its reply: %r" % ends, all(abs(part) < 8 for part in ends))
    tally.true("it stands behind the words of the rows", page.get(
        "(tie => [...document.querySelectorAll('#chart .row')].every(row => tie.compareDocumentPosition(row) & "
        "Node.DOCUMENT_POSITION_FOLLOWING))(document.querySelector('#chart .tie.own'))"))


# Where there are more origins than room for lanes, those in view have lanes of their own, wherever the view is.
def lanes(tally, page):
    page.browser.size(1400, 900)
    page.show(*FILES)
    for top in (800, 2500, 5000, 9000, 14000, 20000):
        page.get("document.querySelector('#chart').scrollTop = %d" % top)
        page.get("new Promise(done => requestAnimationFrame(() => setTimeout(done, 50)))")
        found = page.get(IN_VIEW)
        tally.true("at %d: %d arrows, of which these do not end at their lane: %r" % (top, found["count"], found["wrong"]),
                   found["count"] > 8 and not found["wrong"])
        tally.true("at %d: lanes stand once" % top, len(set(found["names"])) == len(found["names"]))


# Of each request and reply in view, whether the lane at its end is the origin that its sentence names.
IN_VIEW = """(() => {
  const box = document.querySelector('#chart').getBoundingClientRect();
  const head = document.querySelector('#chart .lanes').getBoundingClientRect().bottom;
  const lanes = [...document.querySelectorAll('#chart .lane')].map(lane => [lane.querySelector('title').textContent,
    lane.querySelector('.life, .head').getBoundingClientRect()]).filter(([name]) => name);
  const at = (x, name) => lanes.some(([lane, place]) => lane === name && Math.abs((place.left + place.right) / 2 - x) < 3);
  const rows = [...document.querySelectorAll('#chart .row.request, #chart .row.reply')].filter(row => {
    const place = row.getBoundingClientRect();
    return place.top >= head && place.bottom <= box.bottom;
  });
  const wrong = rows.filter(row => {
    const name = /(?:from the browser to|; from) (https:\\S+?)(?:;| to the browser)/.exec(row.getAttribute('aria-label'))?.[1];
    const path = row.querySelector('.arrow').getBoundingClientRect();
    const x = row.classList.contains('request') ? path.right + 7 : path.right;
    return !name || !at(x, name);
  });
  return { count: rows.length, wrong: wrong.map(row => row.getAttribute('aria-label')).slice(0, 3), names: lanes.map(([name]) => name) };
})()"""
