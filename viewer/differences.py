"""Where a browser differs from this program: recordings beside the program's own transcripts of their scripts, summed by kind."""
import base64
import json
import textwrap
import urllib.parse

import capture

KINDS = ("wellknown", "config", "accounts", "metadata", "assertion", "disconnect")
FIELDS = ("host", "accept", "sec-fetch-dest", "origin", "content-type", "cookie")


def records(text):
    return [json.loads(line) for line in text.splitlines()]


def head(record):
    bytes_ = record["text"] if "text" in record else base64.b64decode(record["raw"]).decode("latin-1")
    first, _, body = bytes_.partition("\r\n\r\n")
    lines = first.split("\r\n")
    fields = [(name.lower(), value.strip()) for name, _, value in (line.partition(":") for line in lines[1:])]
    return lines[0].split(" ")[0], lines[0].split(" ")[1], fields, urllib.parse.parse_qsl(body, keep_blank_values=True)


def common(one, other):
    names = [name for name, _ in other]
    return [name for name, _ in one if name in names]


# What differs between the program's request and the browser's: kinds of difference in what both have, and in what one has alone.
def request(own, seen):
    (method, target, fields, form), (method2, target2, fields2, form2) = head(own), head(seen)
    apart = [words for words, differs in (("other method", method != method2), ("other target", target != target2)) if differs]
    for name in FIELDS:
        values = [[value for field, value in each if field == name] for each in (fields, fields2)]
        if values[0] != values[1]:
            apart.append("other value of `%s`" % name)
    for name in sorted({name for name, _ in form}):
        if [value for key, value in form if key == name] != [value for key, value in form2 if key == name]:
            apart.append("other value of the member `%s`" % name)
    beside = []
    more = [name for name, _ in fields2 if name not in FIELDS + ("content-length",)]
    if more:
        beside.append("further fields: " + ", ".join("`%s`" % name for name in more))
    if common(fields, fields2) != common(fields2, fields):
        beside.append("other order of the common fields")
    own_names = [name for name, _ in form]
    beside += ['further member "%s"' % name for name, _ in form2 if name not in own_names]
    if own["line"] != seen["line"]:
        beside.append("at another event")
    return apart, beside


# The requests of a kind that a call sends to one of its providers.
def of(list_, call, kind, place):
    return [each for each in list_ if each["out"] == "request" and (each["call"], each["kind"], each["provider"]) == (call, kind, place)]


class Sums:
    def __init__(self):
        self.found, self.requests, self.alike, self.names, self.versions = {}, 0, 0, [], set()

    def put(self, kind, words, name):
        self.found.setdefault((kind, words), []).append(name)

    # One recording: the script and the transcript of the browser, and what the program writes of the script.
    def add(self, name, result, own):
        theirs = records(result["transcript"])
        self.names.append(name)
        self.versions |= {result["version"]} - {None}
        for call in sorted({each["call"] for each in own + theirs if "call" in each}):
            for place in sorted({each.get("provider", 0) for each in own + theirs if each.get("call") == call}):
                for kind in KINDS:
                    self.kind(name, kind, *[of(list_, call, kind, place) for list_ in (own, theirs)])
            self.ends(name, *[[each for each in list_ if each.get("call") == call] for list_ in (own, theirs)])

    def kind(self, name, kind, own, seen):
        for one, other in zip(own, seen):
            self.requests += 1
            apart, beside = request(one, other)
            self.alike += not apart
            for words in apart + beside:
                self.put(kind, words, name)
        for _ in range(len(seen) - len(own)):
            self.put(kind, "sent by the browser alone", name)
        for _ in range(len(own) - len(seen)):
            self.put(kind, "sent by the program alone", name)

    def ends(self, name, own, seen):
        shown = [" and ".join(each["dialog"] for each in list_ if each["out"] == "dialog") or "none" for list_ in (own, seen)]
        if shown[0] != shown[1]:
            self.put("dialog", "%s here, %s there" % tuple(shown), name)
        results = [next((each["see"] for each in list_ if each["out"] == "result"), "none") for list_ in (own, seen)]
        if results[0] != results[1]:
            self.put("result", "%s here, %s there" % tuple(results), name)

    # The tables, in Markdown.
    def text(self):
        names = "Chromium %s, %d recordings: %s." % (" and ".join(sorted(self.versions)), len(self.names), ", ".join(self.names))
        alike = "%d of %d requests that both sent are alike in method, target, the profile's fields and the members of forms."
        lines = [textwrap.fill(names, 140, break_on_hyphens=False), "", alike % (self.alike, self.requests), "",
                 "| of | what differs | how often | in |", "|---|---|---|---|"]
        order = list(KINDS) + ["dialog", "result"]
        for (kind, words), names in sorted(self.found.items(), key=lambda each: (order.index(each[0][0]), -len(each[1]), each[0][1])):
            where = sorted(set(names))
            shown = "all" if where == sorted(self.names) else ", ".join(where[:3]) + (", .." if len(where) > 3 else "")
            lines.append("| %s | %s | %d | %s |" % (kind, words, len(names), shown))
        return "\n".join(lines) + "\n"


# The tables of recordings, each a name and its files, by the program that is asked.
def measure(driven, recordings, program):
    sums = Sums()
    for name, paths in recordings:
        result = capture.convert(driven, paths, values=True)[1]
        run = capture.ran(result["script"], program)
        sums.add(name, result, run)
    return sums.text()
