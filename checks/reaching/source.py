"""The items of a crate's sources: modules, functions, types and constants, with what each of them names.

A text is cut into words and marks. Clauses (`requires`, `ensures`) and ghost items are told apart from what runs. Items that stand for
tests alone are left out.
"""
import os
import re
from typing import NamedTuple

TOKEN = re.compile(r"""
    (?P<blank>\s+|//[^\n]*|/\*.*?\*/)
  | (?P<text>b?r(?P<hashes>\#*)".*?"(?P=hashes)|b?"(?:\\.|[^"\\])*"|(?<!\w)b?'(?:\\[^\n]*?|[^'\\\n])')
  | (?P<life>(?<!\w)'[A-Za-z_]\w*(?!'))
  | (?P<word>[^\W\d][\w]*'*)
  | (?P<number>\d[\w]*(?:\.\d[\w]*)?)
  | (?P<mark>::|=>|->|.)
""", re.S | re.X)
CLOSES = {"{": "}", "(": ")", "[": "]"}
CLAUSES = ("requires", "ensures")


class Token(NamedTuple):
    kind: str
    text: str
    at: int


class Item:
    """A function, a type or a constant of the crates, or a ghost part of one."""

    def __init__(self, kind, name, crate, module, span):
        self.kind, self.name, self.crate, self.module, self.span = kind, name, crate, module, span
        self.path, self.home = None, None
        self.tokens, self.clauses, self.fields = [], [], {}
        # Of a method: the type that its `impl` is for, as a path, and the trait, as a path.
        self.owner, self.trait = None, None
        self.is_public, self.is_empty = False, False

    def label(self):
        owner = [self.owner[-1]] if self.owner else []
        return "::".join([self.crate, *self.module, *owner, self.name])


class Module:
    """The names of a module: those of its items and modules, and those that it brings in by `use`."""

    def __init__(self):
        self.modules, self.items, self.uses, self.globs = set(), {}, {}, []


def tokens_of(text):
    return [Token(found.lastgroup, found.group(), found.start()) for found in TOKEN.finditer(text) if found.lastgroup != "blank"]


def pairs_of(tokens):
    """The place of the mark that closes what a mark opens."""
    pairs, opened = {}, []
    for place, token in enumerate(tokens):
        if token.text in CLOSES and token.kind == "mark":
            opened.append(place)
        elif token.text in CLOSES.values() and token.kind == "mark":
            start = opened.pop()
            assert CLOSES[tokens[start].text] == token.text, token
            pairs[start] = place
    assert not opened
    return pairs


class Reader:
    """Reads the items of one file."""

    def __init__(self, crate, module, path, text):
        self.crate, self.path, self.text = crate, path, text
        self.tokens = tokens_of(text)
        self.pairs = pairs_of(self.tokens)
        self.modules, self.items, self.files = {}, [], []
        self.read(0, len(self.tokens), tuple(module), None, None)

    def text_at(self, place):
        return self.tokens[place].text if place < len(self.tokens) else ""

    def past(self, place, ends):
        """The place of the first of these marks that stands in no bracket."""
        while self.text_at(place) not in ends:
            place = self.pairs.get(place, place) + 1
        return place

    def span(self, start, end):
        last = self.tokens[end - 1]
        return self.tokens[start].at, last.at + len(last.text)

    def read(self, place, end, module, owner, trait):
        scope = self.modules.setdefault(module, Module())
        while place < end:
            start, attributes = place, ""
            while self.text_at(place) == "#":
                opened = place + 1 + (self.text_at(place + 1) == "!")
                attributes += " ".join(token.text for token in self.tokens[opened:self.pairs[opened] + 1])
                place = self.pairs[opened] + 1
            if place >= end:
                break
            is_public = self.text_at(place) == "pub"
            if is_public:
                place = self.pairs[place + 1] + 1 if self.text_at(place + 1) == "(" else place + 1
            is_test = "cfg ( test )" in attributes or "[ test ]" in attributes
            place = self.item(start, place, (scope, module, owner, trait), is_public, is_test)

    def item(self, start, place, home, is_public, is_test):
        scope, module, owner, trait = home
        word = self.text_at(place)
        while word in ("unsafe", "default", "extern") or word == "const" and self.text_at(place + 1) == "fn":
            place += 2 if word == "extern" else 1
            word = self.text_at(place)
        name = self.text_at(place + 1)
        if word == "fn":
            return self.function(start, place, home, is_public, is_test)
        if word == "use":
            end = self.past(place, ";")
            if not is_test:
                self.use(place + 1, end, (), scope)
            return end + 1
        if word == "mod":
            if self.text_at(place + 2) == ";":
                if not is_test:
                    scope.modules.add(name)
                    self.files.append(module + (name,))
                return place + 3
            if not is_test:
                scope.modules.add(name)
                self.read(place + 3, self.pairs[place + 2], module + (name,), None, None)
            return self.pairs[place + 2] + 1
        if word in ("impl", "trait"):
            opened = self.past(place, "{")
            if not is_test:
                if word == "impl":
                    owner, trait = self.header(place + 1, opened)
                else:
                    owner, trait = (name,), (name,)
                    self.keep(Item("type", name, self.crate, module, self.span(start, opened)), scope, (place + 2, opened))
                self.read(opened + 1, self.pairs[opened], module, owner, trait)
            return self.pairs[opened] + 1
        if word in ("struct", "enum"):
            end = self.past(place, ";{")
            end = self.pairs.get(end, end) + 1
            item = Item("type", name, self.crate, module, self.span(start, end))
            item.fields = self.fields(place + 2, end) if word == "struct" else {}
            self.keep(item, None if is_test else scope, (place + 2, end))
            return end
        if word == "ghost":
            end = self.past(place, ";") + 1
            if name != "use":
                self.keep(Item("ghost", name, self.crate, module, self.span(start, end)), None, (end, end))
            return end
        end = self.past(place, ";{")
        end = self.pairs[end] if self.text_at(end) == "{" and word not in ("const", "static", "type") else self.past(place, ";")
        if word in ("const", "static", "type") and not is_test:
            constant = Item("constant", name, self.crate, module, self.span(start, end + 1))
            constant.owner, constant.trait = owner, trait
            self.keep(constant, None if owner else scope, (place + 2, end))
        return end + 1

    def keep(self, item, scope, part):
        item.path = self.path
        item.tokens = self.tokens[part[0]:part[1]]
        self.items.append(item)
        if scope is not None:
            scope.items.setdefault(item.name, []).append(item)

    def function(self, start, place, home, is_public, is_test):
        scope, module, owner, trait = home
        item = Item("function", self.text_at(place + 1), self.crate, module, None)
        item.owner, item.trait, item.is_public = owner, trait, is_public
        runs, place = [place + 2], place + 2
        while True:
            place = self.past(place, ("{", ";", *CLAUSES))
            if self.text_at(place) not in CLAUSES:
                break
            opened = self.past(place, "{")
            item.clauses.append(self.span(place, self.pairs[opened] + 1))
            runs += [place, self.pairs[opened] + 1]
            place = self.pairs[opened] + 1
        end = self.pairs.get(place, place) + 1
        item.is_empty = end == place + 2
        item.span = self.span(start, end)
        self.keep(item, None if is_test or owner else scope, (0, 0))
        if is_test:
            item.kind = "test"
        runs.append(end)
        item.tokens = [token for first, last in zip(runs[::2], runs[1::2]) for token in self.tokens[first:last]]
        return end

    def header(self, place, opened):
        """The type and the trait of an `impl`, as paths."""
        depth, paths, path = 0, [], []
        for token in self.tokens[place:opened]:
            if token.text == "<":
                depth += 1
            elif token.text == ">":
                depth -= 1
            elif depth == 0 and token.text in ("for", "where"):
                paths.append(tuple(path))
                path = []
                if token.text == "where":
                    break
            elif depth == 0 and token.kind == "word":
                path.append(token.text)
        paths.append(tuple(path))
        return (paths[1], paths[0]) if len(paths) > 1 and paths[1] else (paths[0], None)

    def fields(self, place, end):
        """The types of a struct's fields, where such a type is a path: the words of each."""
        opened = self.past(place, ";{")
        fields = {}
        if self.text_at(opened) == "{":
            place = opened + 1
            while place < end - 1:
                while self.text_at(place) == "#":
                    place = self.pairs[place + 1] + 1
                if self.text_at(place) == "pub":
                    place = self.pairs[place + 1] + 1 if self.text_at(place + 1) == "(" else place + 1
                if self.text_at(place) == "ghost":
                    place = self.past(place, ";,}") + 1
                    continue
                last, depth = place + 2, 0
                while last < end - 1 and (depth or self.text_at(last) != ","):
                    depth += {"<": 1, ">": -1}.get(self.text_at(last), 0)
                    last = self.pairs.get(last, last) + 1
                fields[self.text_at(place)] = self.tokens[place + 2:last]
                place = last + 1
        return fields

    def use(self, place, end, front, scope):
        """The names that a `use` brings in."""
        path = list(front)
        while place < end:
            text = self.text_at(place)
            if text == "{":
                inner, last = place + 1, self.pairs[place]
                while inner < last:
                    comma = self.past(inner, ",}")
                    self.use(inner, comma, path, scope)
                    inner = comma + 1
                return
            if text == "*":
                scope.globs.append(tuple(path))
                return
            if text == "as":
                scope.uses[self.text_at(place + 1)] = tuple(path)
                return
            if text != "::":
                path.append(text)
            place += 1
        name = path[-2] if path[-1] == "self" else path[-1]
        scope.uses[name] = tuple(path[:-1] if path[-1] == "self" else path)


class Crate:
    """The sources of a crate."""

    def __init__(self, top, name, below):
        self.name, self.below = name, below
        self.folder = os.path.join(top, "crates", name)
        self.modules, self.items, self.texts = {}, [], {}
        self.root = next((root for root in ("src/lib.rt", "src/main.rt") if os.path.exists(os.path.join(self.folder, root))), None)
        waits = [((), self.root)] if self.root else []
        while waits:
            module, path = waits.pop()
            reader = self.read(module, path)
            stem = "src" if not module else os.path.join("src", *module)
            for inner in reader.files:
                path = os.path.join(stem, inner[-1] + ".rt") if inner[:-1] == module else os.path.join("src", *inner) + ".rt"
                waits.append((inner, path if os.path.exists(os.path.join(self.folder, path)) else path[:-len(".rt")] + "/mod.rt"))

    def read(self, module, path):
        with open(os.path.join(self.folder, path), encoding="utf-8") as file:
            self.texts[path] = file.read()
        reader = Reader(self.name, module, path, self.texts[path])
        for name, scope in reader.modules.items():
            self.modules[name] = scope
        self.items += reader.items
        return reader


def crates_of(top):
    """The crates of crates.txt, each with all those below it."""
    deps = {}
    with open(os.path.join(top, "crates.txt"), encoding="utf-8") as file:
        for line in file:
            name, _, below = line.partition("#")[0].partition(":")
            if name.strip():
                deps[name.split()[0]] = below.split()

    def below(name, found):
        for dep in deps[name]:
            if dep in deps and dep not in found:
                found.add(dep)
                below(dep, found)
        return found

    return {name: Crate(top, name, below(name, set())) for name in deps}
