"""How it looks: labels beside their arrows, on paper, in a narrow window, in forced colors; and the screenshots that are kept."""
import base64
import os
import re
import tempfile

from .page import sample
from .worlds import TWINS

SEVERAL = "viewer/tests/several.jsonl", "viewer/tests/several.out.jsonl"
INTERLEAVED = "viewer/tests/interleaved.jsonl", "viewer/tests/interleaved.out.jsonl"

# How far each label is from its arrow, and whether it stands within the picture. One that is long may begin before its arrow.
LABELS = """[...document.querySelectorAll('#chart .row.request, #chart .row.reply, #chart .row.page, #chart .row.decision')].map(row => {
  const label = row.querySelector('.label').getBoundingClientRect();
  const arrow = row.querySelector('.arrow').getBoundingClientRect();
  const picture = row.closest('svg').getBoundingClientRect();
  const left = row.querySelector('.mark')?.getBoundingClientRect().left ?? label.left;
  return { apart: Math.max(left - arrow.right, arrow.left - label.right), over: label.right - picture.right,
    above: arrow.top - label.bottom, cut: row.classList.contains('cut'), words: row.querySelector('.label').textContent };
})"""


# Each label stands above its own arrow or begins beside it, whatever its lanes; what is cut can be read whole where it is chosen.
def labels(tally, page):
    for width, given in ((1400, sample("sign-up")), (1400, sample("login-window")), (1400, INTERLEAVED), (1000, INTERLEAVED)):
        page.browser.size(width, 3000)
        page.show(*given)
        found = page.get(LABELS)
        far = [each["words"] for each in found if each["apart"] > 12 or abs(each["above"]) > 12 or each["over"] > 12]
        tally.same("%s, %d pixels: labels away from their arrows" % (given[0], width), far, [])
    tally.true("some are cut in the narrow window", any(each["cut"] for each in found))
    cut = page.get("document.querySelector('#chart .row.cut').id")
    page.get("document.querySelector('#%s .band').dispatchEvent(new MouseEvent('click', {bubbles: true}))" % cut)
    squeeze = "%s.replace(/\\s+/g, '')"
    whole = page.get(squeeze % "[...document.querySelectorAll('#chart .whole .line')].map(line => line.textContent).join('')")
    sentence = page.get(squeeze % ("document.querySelector('#%s').getAttribute('aria-label')" % cut))
    tally.same("what is cut stands whole below it", whole, sentence)


# Of rows of one kind what differs stands before what repeats, where a narrow window cuts them too.
def words(tally, page):
    for width in (1400, 400):
        page.browser.size(width, 34000)
        page.show(*INTERLEAVED)
        found = page.get("""[...document.querySelectorAll('#chart .row .label')].map(label =>
          [...label.querySelectorAll('tspan')].map(part => part.textContent))""")
        for title, least in (("get", 6), ("before", 6), ("assertion", 6), ("choose", 3)):
            starts = {parts[1][:30] for parts in found if len(parts) > 1 and parts[0] == title}
            tally.true("%d pixels: how labels of %s begin: %r" % (width, title, sorted(starts)), len(starts) >= least)


# The name of each lane stands within its box.
def lane_names(tally, page):
    for width in (1000, 1400, 1900):
        for given in (sample("sign-up"), sample("login-window"), sample("not-twins"), SEVERAL):
            page.browser.size(width, 900)
            page.show(*given)
            beyond = page.get(BEYOND)
            tally.same("%s, %d pixels: names beyond their boxes" % (given[0], width), beyond, [])


BEYOND = """[...document.querySelectorAll('#chart .lane')].filter(lane => lane.querySelector('.head')).flatMap(lane => {
  const box = lane.querySelector('.head').getBoundingClientRect();
  const isBeyond = ({ left, right }) => left < box.left + 1 || right > box.right - 1;
  return [...lane.querySelectorAll('text')].filter(text => isBeyond(text.getBoundingClientRect())).map(text => text.textContent);
})"""


# Every row stands on paper, once, each page with the names of the lanes; nothing of the screen does.
def printed(tally, page):
    for given in (sample("sign-up"), INTERLEAVED, TWINS):
        page.browser.size(1400, 900)
        page.show(*given)
        page.set("#filter-call", "")
        rows = int(page.text("#said").split(" ")[0].replace(",", ""))
        page.get("dispatchEvent(new Event('beforeprint'))")
        page.browser.call("Emulation.setEmulatedMedia", media="print")
        pieces = page.count("#paper svg")
        tally.same(given[0] + ": rows on paper", page.count("#paper .row"), rows)
        tally.same(given[0] + ": lanes on each page", page.count("#paper .header"), pieces)
        tally.true(given[0] + ": nothing of the screen", page.get("getComputedStyle(document.querySelector('main')).display === 'none'"))
        shape = page.get("Math.max(...[...document.querySelectorAll('#paper svg')].map(svg => svg.viewBox.baseVal.height / "
                         "svg.viewBox.baseVal.width))")
        tally.true(given[0] + ": each piece fits on a page: %.2f" % shape, shape < 1.33)
        page.browser.call("Emulation.setEmulatedMedia", media="")
        page.get("dispatchEvent(new Event('afterprint'))")
        tally.same(given[0] + ": gone from the page", page.count("#paper svg"), 0)
        pdf = base64.b64decode(page.browser.call("Page.printToPDF", timeout=120)["data"])
        pages = len(re.findall(rb"/Type\s*/Page\b", pdf))
        tally.true("%s: %d pages for %d pieces" % (given[0], pages, pieces), pieces <= pages <= pieces + 1)


# 400 pixels: nothing stands beyond, the chart has half of the window, and its rows can be chosen and read.
def narrow(tally, page):
    for given in (sample("sign-up"), INTERLEAVED):
        page.browser.size(400, 800)
        page.show(*given)
        tally.true(given[0] + ": no wider than the window", page.get("document.documentElement.scrollWidth <= innerWidth"))
        tally.true(given[0] + ": the chart too", page.get("(box => box.scrollWidth <= box.clientWidth)(document.querySelector('#chart'))"))
        top = page.get("document.querySelector('#chart').getBoundingClientRect().top")
        tally.true(given[0] + ": the chart begins at %d" % top, top < 300)
        page.get("document.querySelector('#chart .row.request .band').dispatchEvent(new MouseEvent('click', {bubbles: true}))")
        tally.true(given[0] + ": its details", "wellknown" in page.text("#detail h2"))


def forced(tally, page):
    page.browser.size(1400, 900)
    page.show(*sample("sign-up"))
    for mode in ("light", "dark"):
        page.browser.call("Emulation.setEmulatedMedia", features=[
            {"name": "forced-colors", "value": "active"}, {"name": "prefers-color-scheme", "value": mode}])
        found = page.get("""(() => {
          const style = (selector, name) => getComputedStyle(document.querySelector(selector))[name];
          return [style('#chart .arrow', 'stroke'), style('#chart .title:not(title)', 'fill'), style('#chart .stripe', 'stroke'),
            style('#chart .first .mark', 'fill'), getComputedStyle(document.body).backgroundColor];
        })()""")
        ground = found.pop()
        pill = page.get("(({ color, backgroundColor, forcedColorAdjust }) => [color, backgroundColor, forcedColorAdjust])("
                        "getComputedStyle(document.querySelector('.pill.both')))")
        tally.true("forced colors, %s: the legend's words: %r" % (mode, pill), pill[0] != pill[1] and pill[2] == "none")
        tally.true("forced colors, %s: nothing has the color of the ground: %r on %s" % (mode, found, ground), ground not in found)
    page.browser.call("Emulation.setEmulatedMedia", features=[{"name": "forced-colors", "value": "none"}])


def row(selector):
    return "document.querySelector(%r).querySelector('.band').dispatchEvent(new MouseEvent('click', {bubbles: true}))" % selector


# Six views for people to look at, in a folder outside the repository.
def shots(tally, page):
    folder = os.environ.get("VIEWER_SHOTS") or os.path.join(tempfile.gettempdir(), "viewer-shots")
    os.makedirs(folder, exist_ok=True)
    later = "document.querySelector('#chart').scrollTop = 3000; new Promise(done => setTimeout(done, 200)).then(() => %s)"
    views = (("1-opened", 1400, 900, False, None, ""), ("2-interleaved", 1400, 900, False, INTERLEAVED, later % row("#chart .row.first")),
             ("3-two-worlds", 1400, 900, False, "twins", ""), ("4-audit", 1400, 900, False, "faulty", ""),
             ("5-dark", 1400, 900, True, "several-calls", row("#chart .row.first")), ("6-narrow", 400, 800, False, None, ""))
    for name, width, height, dark, given, action in views:
        page.browser.size(width, height, dark=dark)
        page.show(*given) if isinstance(given, tuple) else page.open(given or "")
        page.get(action or "0")
        page.get("new Promise(done => requestAnimationFrame(() => setTimeout(done, 100)))")
        page.browser.screenshot(os.path.join(folder, name + ".png"))
    print("screenshots: %s" % folder)
    tally.true("six screenshots", len([name for name in os.listdir(folder) if name.endswith(".png")]) >= 6)
