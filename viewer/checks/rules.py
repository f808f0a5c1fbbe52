"""The page of rules: docs/profile.md as HTML, with an anchor for each rule and for each row of the tables of calls."""
import html
import re

from .page import read

HEAD = """<!doctype html>
<html lang="en">
<head>
<meta charset="utf-8">
<meta http-equiv="Content-Security-Policy" content="default-src 'none'; style-src 'unsafe-inline'; base-uri 'none'; form-action 'none'">
<meta name="viewport" content="width=device-width, initial-scale=1">
<meta name="color-scheme" content="light dark">
<title>The rules</title>
<style>
:root { --rule: #c4ccd4; --target: #fff3bf; --link: #0a5ba8; color-scheme: light dark; }
@media (prefers-color-scheme: dark) { :root { --rule: #464f5a; --target: #4a3f12; --link: #86bdf7; } }
body { max-width: 60rem; margin: 0 auto; padding: 16px; font: 16px/1.5 system-ui, "Segoe UI", sans-serif; overflow-wrap: anywhere; }
a { color: var(--link); }
table { border-collapse: collapse; width: 100%; }
th, td { border-bottom: 1px solid var(--rule); padding: 3px 8px; text-align: left; vertical-align: top; }
code { font-size: .9em; }
.scroll { overflow-x: auto; }
:target { background: var(--target); outline: 3px solid var(--target); scroll-margin-top: 3rem; }
</style>
</head>
<body>
<!-- Made of docs/profile.md by `viewer/check made`. -->
"""
RULE = re.compile(r"^\*\*(\d+\.\d+) ", re.M)
ROW = re.compile(r"^\| ([CEM]\d+[a-z]?) \|", re.M)
DEFINITION = re.compile(r"^\[([^\]]+)\]: (\S+)$", re.M)
ITEM = re.compile(r"(?:- |\d+\. )")


def slug(heading):
    return re.sub(r"[^\w\- ]", "", heading.lower()).replace(" ", "-")


class Page:
    def __init__(self, text):
        self.links = dict(DEFINITION.findall(text))
        self.rules, self.rows = set(RULE.findall(text)), set(ROW.findall(text))
        self.blocks = DEFINITION.sub("", text).split("\n\n")

    def made(self):
        return HEAD + "\n".join(filter(None, (self.block(block.strip("\n")) for block in self.blocks))) + "\n</body>\n</html>\n"

    def block(self, block):
        if not block:
            return ""
        heading = re.match(r"(#+) (.*)$", block)
        if heading:
            level = len(heading[1])
            return '<h%d id="%s">%s</h%d>' % (level, slug(heading[2]), self.inline(heading[2]), level)
        if block.startswith("|"):
            return self.table(block.split("\n"))
        if ITEM.match(block):
            return self.items(block)
        # A list may stand right below the text that it belongs to.
        found = re.search(r"\n(?=- |1\. )", block)
        if found:
            return self.paragraph(block[:found.start()]) + "\n" + self.items(block[found.end():])
        return self.paragraph(block)

    def paragraph(self, text):
        rule = RULE.match(text)
        return "<p%s>%s</p>" % (' id="rule-%s"' % rule[1] if rule else "", self.inline(text))

    def items(self, block):
        kind = "ul" if block.startswith("-") else "ol"
        items = re.split(r"\n(?=- |\d+\. )", block)
        return "<%s>\n%s\n</%s>" % (kind, "\n".join("<li>%s</li>" % self.inline(ITEM.sub("", item, count=1)) for item in items), kind)

    def table(self, lines):
        head, body = self.cells(lines[0]), [self.cells(line) for line in lines[2:]]
        rows = ["<tr>%s</tr>" % "".join("<th>%s</th>" % self.inline(cell) for cell in head)] if any(head) else []
        for cells in body:
            anchor = ' id="row-%s"' % cells[0] if cells[0] in self.rows else ""
            rows.append("<tr%s>%s</tr>" % (anchor, "".join("<td>%s</td>" % self.inline(cell) for cell in cells)))
        return '<div class="scroll"><table>\n%s\n</table></div>' % "\n".join(rows)

    @staticmethod
    def cells(line):
        return [cell.strip().replace("\\|", "|") for cell in re.split(r"(?<!\\)\|", line)[1:-1]]

    def inline(self, text):
        return "".join("<code>%s</code>" % html.escape(part.strip("`")) if part.startswith("`") else self.words(part)
                       for part in re.split(r"(`[^`]+`)", text.replace("\n", " ")))

    def words(self, text):
        text = html.escape(text, quote=False)
        text = re.sub(r"\[([^\]]+)\]\(([^)]+)\)", lambda found: '<a href="%s">%s</a>' % (self.place(found[2]), found[1]), text)
        text = re.sub(r"\[([^\]]+)\](?!\()", self.reference, text)
        text = re.sub(r"\*\*(.+?)\*\*", r"<strong>\1</strong>", text)
        text = re.sub(r"(?<![\w*])\*([^*]+)\*(?![\w*])", r"<em>\1</em>", text)
        return re.sub(r"(\b(?:rules? |and |to |, )|\()?\b(\d+\.\d+|[CEM]\d+[a-z]?)\b(?![^<]*</(?:a|strong)>)", self.anchor, text)

    @staticmethod
    def place(target):
        return html.escape(target if target.startswith("#") or ":" in target else "../docs/" + target)

    def reference(self, found):
        target = self.links.get(html.unescape(found[1]))
        return '<a href="%s">%s</a>' % (html.escape(target), found[0]) if target else found[0]

    # The number of a rule where the word, another number or a bracket stands before it, and the name of a row.
    def anchor(self, found):
        before, name = found[1] or "", found[2]
        if name in self.rows:
            return '%s<a href="#row-%s">%s</a>' % (before, name, name)
        return '%s<a href="#rule-%s">%s</a>' % (before, name, name) if before and name in self.rules else found[0]


def made():
    return Page(read("docs/profile.md")).made()
