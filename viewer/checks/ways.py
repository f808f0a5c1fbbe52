"""The ways to use the page: how texts come in, filters, keys, the table, names for a screen reader, colors, widths, links."""
import json
import re

from .page import INDEX, names, read, sample, wanted

GIVE = """(async () => {
  const data = new DataTransfer();
  %s
  document.body.dispatchEvent(new %s('%s', {bubbles: true, cancelable: true, %s: data}));
})()"""


def give(page, kind, event, member, texts, as_files):
    adds = ["data.items.add(new File([%s], 'text.jsonl'));" % json.dumps(text) if as_files
            else "data.setData('text/plain', %s);" % json.dumps(text) for text in texts]
    page.open()
    page.get("document.querySelector('#clear').click()")
    page.get(GIVE % ("\n".join(adds), kind, event, member))
    page.browser.wait("performance.getEntriesByName('drawn').length > 0")


# Dropped, dropped one after the other, and pasted, in the box and outside of it.
def given(tally, page):
    script, transcript = map(read, sample("sign-up"))
    expected = wanted(*sample("sign-up"))
    give(page, "DragEvent", "drop", "dataTransfer", [transcript, script], True)
    tally.same("two files dropped", page.drawn(), expected)
    give(page, "ClipboardEvent", "paste", "clipboardData", [script + transcript], False)
    tally.same("a script with its transcript behind it, pasted", page.drawn(), expected)
    page.open()
    page.browser.click("#clear")
    page.get("document.querySelector('#pasted').value = %s" % json.dumps(script + transcript))
    page.browser.click("#show-pasted")
    page.browser.wait("document.querySelectorAll('#chart .row').length > 0")
    tally.same("pasted in the box", page.drawn(), expected)
    page.show(sample("sign-up")[0])
    tally.same("a script alone", page.drawn()["reply"], 5)
    page.browser.choose_files("#files", [page.file("second.jsonl", transcript)])
    page.browser.wait("document.querySelectorAll('#chart .row.request').length === 5")
    tally.same("then its transcript", page.drawn(), expected)
    page.browser.click("#clear")
    tally.true("cleared", page.get("getComputedStyle(document.querySelector('main')).display === 'none'"))


def filters(tally, page):
    page.show(*sample("login-window"))
    everything = page.count("#chart .row")
    for name, value, selector, number in (("call", "3", ".request", 4), ("call", "1, 2", ".window", 5), ("page", "4", ".result", 1),
                                          ("page", "news.example", ".request", 5), ("provider", "https://idp", ".reply", 3),
                                          ("kind", "window", "", 7), ("kind", "both", "", 1), ("kind", "accounts", ".reply", 8),
                                          ("kind", "ignored", ".ignored", 5)):
        page.set("#filter-" + name, value)
        tally.same("%s %s: %s" % (name, value, selector), page.count("#chart .row" + selector), number)
        page.set("#filter-" + name, "")
    tally.same("no filter", page.count("#chart .row"), everything)
    page.set("#filter-call", "99")
    tally.true("nothing passes", page.get("!document.querySelector('#none').hidden") and page.count("#chart .row") == 0)
    page.set("#filter-call", "")
    page.set("#search", "Ann Okafor")
    tally.same("search", (page.count("#chart .found"), page.text("#matches")), (2, "1 of 2"))
    page.browser.click("#next")
    tally.same("the next match", page.text("#matches"), "2 of 2")
    page.set("#search", "{\"accounts\"")
    tally.same("search for text that JSON escapes", page.count("#chart .found"), 1)


def chosen(page):
    return page.get("document.querySelector('#chart').getAttribute('aria-activedescendant')")


def keys(tally, page):
    press = page.browser.press
    page.show(*sample("sign-up"))
    last = page.count("#chart .row") - 1
    page.get("document.querySelector('#chart').focus()")
    for key, row in (("Home", 0), ("ArrowDown", 1), ("ArrowUp", 0), ("End", last), ("Home", 0), ("PageDown", None)):
        press(key)
        if row is not None:
            tally.same("key " + key, chosen(page), "row-%d" % row)
    first = page.get("document.querySelector('#chart .first').id")
    page.get("document.querySelector('#chart .first .band').dispatchEvent(new MouseEvent('click', {bubbles: true}))")
    press("d")
    tally.same("key d: to the decision", chosen(page), page.get("document.querySelector('#chart .decides').id"))
    press("ArrowDown")
    tally.same("below the decision stands the request", chosen(page), first)
    press("r")
    tally.true("key r: to the reply", page.text("#said").startswith("Line 11, call 1, reply: assertion"))
    press("r")
    tally.same("key r: back to the request", chosen(page), first)
    press("Enter", "\r")
    tally.same("key Enter: to the details", page.get("document.activeElement.textContent"), "Line 10: assertion")
    press("Escape")
    tally.same("key Escape: back", page.get("document.activeElement.id"), "chart")
    press("/")
    tally.same("key /: to the search", page.get("document.activeElement.id"), "search")
    details(tally, page)


# The details of the assertion request: bytes, form, cookies, and the rule.
def details(tally, page):
    text = page.text("#detail")
    for part in ("account_id", "b81e02", "disclosure_text_shown", "__Host-session", "Zm9yIGFubiBvbmx5", "POST /assertion HTTP/1.1␍␊",
                 "rule 12.5", "rule 17.2", "Bytes (357)"):
        tally.true("details of the assertion: " + part, part in text)
    page.get("document.querySelector('#chart .row.reply .band').dispatchEvent(new MouseEvent('click', {bubbles: true}))")
    tally.true("details of a reply", "JSON of the body" in page.text("#detail") and "provider_urls" in page.text("#detail"))


def table(tally, page):
    page.show(*sample("sign-up"))
    rows = page.count("#chart .row")
    page.browser.click("#view-table")
    tally.same("the table has the same rows", page.count("#table tbody tr"), rows)
    tally.same("the table says how many", page.get("document.querySelector('#table table').ariaRowCount"), str(rows + 1))
    tells = page.get("[...document.querySelectorAll('#table tbody tr')].map(row => row.cells[6].textContent).filter(Boolean)")
    tally.same("the table has the marks", tells, ["nothing", "nothing", "user", "page", "both"])
    page.browser.click("#table tbody tr:nth-child(4) button")
    tally.same("a row's details", page.get("document.activeElement.textContent"), "Line 4: wellknown")
    page.browser.press("Escape")
    tally.true("back to the row", page.get("document.activeElement.closest('tr')?.rowIndex === 4"))
    page.browser.click("#view-chart")
    tally.same("the chart keeps the row", chosen(page), "row-3")


# What a screen reader is told: each control has a name, each row of the chart its sentence.
def names_of(page, role):
    tree = page.browser.call("Accessibility.getFullAXTree")["nodes"]
    return [node.get("name", {}).get("value", "") for node in tree
            if node.get("role", {}).get("value") == role and not node.get("ignored")]


def spoken(tally, page):
    page.show(*sample("sign-up"))
    page.get("document.querySelector('#filter-box').open = true")
    for role in ("button", "textbox", "combobox", "searchbox", "listbox", "option", "link", "heading", "complementary"):
        found = names_of(page, role)
        tally.true("each %s has a name: %r" % (role, found), found and all(found) or role in ("textbox", "searchbox"))
    rows = [name for name in names_of(page, "option") if name.startswith("Line 10")]
    tally.same("the assertion's sentence", rows[1], "Line 10, call 1, request: assertion; account b81e02 · client shop-web · POST "
               "/assertion; from the browser to https://accounts.idp.example; tells the user and the page; first of its call to tell both, "
               "after line 10 (continue); answered on line 11")
    spoken_others(tally, page)
    page.show(*sample("sign-up"))
    page.get("document.querySelector('#chart').focus()")
    page.browser.press("ArrowDown")
    tally.true("a chosen row is said", page.text("#said").startswith("Line 11"))
    focused = []
    page.get("document.querySelector('.skip').focus()")
    for _ in range(13):
        page.browser.press("Tab")
        focused.append(page.get("document.activeElement.id || document.activeElement.textContent.trim().slice(0, 20)"))
    wished = ["example", "files", "Paste", "clear", "export", "print", "view-chart", "view-table", "Filters and search",
              "How to read it, and ", "chart"]
    tally.same("the order of focus", [name for name in focused if name in wished], wished)


# Of calls that interleave, of two worlds and of an audit each row is one sentence too.
def spoken_others(tally, page):
    for name, part in (("several-calls", "pending up to line"), ("twins", "the two requests are equal, byte for byte"),
                       ("faulty", "breaks the clause origin of the audit, rule 18.7")):
        page.open(name)
        fields = page.get("[...document.querySelectorAll('select option')].map(option => option.text)")
        found = [each for each in names_of(page, "option") if each not in fields]
        tally.same("%s: rows in the tree" % name, len(found), page.count("#chart .row"))
        said = [bool(re.match(r"(Line|Kept event|first world|note)", each)) for each in found]
        tally.true("%s: each row has its sentence" % name, found and all(said))
        tally.true("%s: %s" % (name, part), any(part in each for each in found))


def luminance(color):
    parts = [int(color[at:at + 2], 16) / 255 for at in (1, 3, 5)]
    red, green, blue = [part / 12.92 if part <= 0.03928 else ((part + 0.055) / 1.055) ** 2.4 for part in parts]
    return 0.2126 * red + 0.7152 * green + 0.0722 * blue


def contrast(one, other):
    light, dark = sorted((luminance(one), luminance(other)), reverse=True)
    return (light + 0.05) / (dark + 0.05)


# Each color of text on each ground that it stands on, in both modes: at least 4.5 to 1.
def colors(tally, page):
    page.open()
    stripes = tuple("s%d" % at for at in range(6))
    grounds = {"paper": ("ink", "faint", "user", "page", "both", "decide", "link", *stripes), "soft": ("ink", "faint"),
               "band": ("ink", "faint"),
               "chosen": ("ink", "faint"), "found": ("ink", "faint"), "both": ("on-both",), "decide": ("paper",)}
    for mode in ("light", "dark"):
        page.browser.size(1400, 900, dark=mode == "dark")
        style = page.get("(names => Object.fromEntries(names.map(name => [name, "
                         "getComputedStyle(document.documentElement).getPropertyValue('--' + name).trim()])))(%s)"
                         % json.dumps(sorted({"paper", *grounds, *(text for texts in grounds.values() for text in texts)})))
        for ground, texts in grounds.items():
            for text in texts:
                found = contrast(style[text], style[ground])
                tally.true("%s: %s on %s has %.2f to 1" % (mode, text, ground, found), found >= 4.5)


# Nothing stands beyond a narrow window, and lanes that are too many stand close instead.
def widths(tally, page):
    for width in (320, 420, 700, 1000, 1920):
        page.browser.size(width, 900)
        page.show(*sample("sign-up"))
        tally.true("%d pixels: the page is no wider" % width, page.get("document.documentElement.scrollWidth <= innerWidth"))
        if width > 400:
            tally.true("%d pixels: the chart is no wider" % width,
                       page.get("(box => box.scrollWidth <= box.clientWidth)(document.querySelector('#chart'))"))
    page.browser.size(1400, 900, reduced=True)
    page.open()
    tally.same("nothing moves by itself", page.get("document.getAnimations().length"), 0)


# Each link of each row leads to a rule, or to a row of a table, that is there.
def links(tally, page):
    anchors = set(re.findall(r' id="([^"]+)"', read("viewer/rules.html")))
    rules = {"rule-" + number for number in re.findall(r"^\*\*(\d+\.\d+) ", read("docs/profile.md"), re.M)}
    tally.same("rules without an anchor", rules - anchors, set())
    missing, number = set(), 0
    for shown in [sample(name) for name in names()] + ["twins", "faulty", "differs"]:
        page.open(shown) if isinstance(shown, str) else page.show(*shown)
        for link in page.get(LINKS):
            href, text = link.split(" ", 1)
            found = re.match(r"rules\.html#((?:rule|row)-\S+)$", href)
            number += 1
            if not found or found[1] not in anchors or not (text.startswith("rule " + found[1][5:] + ":") or found[1].startswith("row-")):
                missing.add(link)
    tally.true("%d links, of which these lead nowhere: %r" % (number, missing), number > 0 and not missing)
    page.browser.open(RULES + "#rule-10.10")
    tally.true("the rule is in view", page.get("(box => box.top >= 0 && box.bottom <= innerHeight)"
                                              "(document.querySelector(':target').getBoundingClientRect())"))


LINKS = """(() => {
  const links = new Set();
  for (const row of document.querySelectorAll('#chart .row')) {
    document.getElementById(row.id).querySelector('.band').dispatchEvent(new MouseEvent('click', {bubbles: true}));
    for (const link of document.querySelectorAll('#detail a')) links.add(link.getAttribute('href') + ' ' + link.textContent);
  }
  return [...links];
})()"""
RULES = INDEX.replace("index.html", "rules.html")


# The page asks for its own files alone, and its policy refuses what is tried.
def requests(tally, page):
    page.browser.events.clear()
    page.show(*sample("sign-up"))
    asked = {event["params"]["request"]["url"] for event in page.browser.events if event["method"] == "Network.requestWillBeSent"}
    folder = INDEX.rsplit("/", 1)[0] + "/"
    tally.same("requests beyond its folder", [url for url in asked if not url.startswith((folder, "blob:"))], [])
    errors = [event for event in page.browser.events if event["method"] in ("Log.entryAdded", "Runtime.exceptionThrown")]
    tally.same("errors and warnings of the page", errors, [])
    refused = page.get("""(async () => {
      let refused = 0;
      addEventListener('securitypolicyviolation', () => { refused += 1; });
      await fetch('https://rp.example/').catch(() => {});
      const image = new Image();
      image.src = 'https://rp.example/picture.png';
      await new Promise(done => setTimeout(done, 200));
      return refused;
    })()""")
    tally.same("requests that its policy refuses", refused, 2)
