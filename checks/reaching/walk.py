"""What a program's `main` reaches, by names.

A name is looked up as the compiler does: among the items of its module and what `use` brings in. A method is taken by its name, on each
type that what is reached names, and where the type is known (`Type::name`, `self`, a field of it) on that type alone. A method of a trait
that is none of the crates' own is taken to be called wherever its type is named. So what is found is at least what can be called, and some
more.
"""
from collections import defaultdict
from typing import NamedTuple

from reaching.source import Item

BOXES = ("Box", "Rc")


class Place(NamedTuple):
    """Where a name stands: a crate and a module of it."""

    crate: str
    module: tuple


class Walk:
    def __init__(self, crates):
        self.crates = crates
        self.methods, self.by_type = defaultdict(list), defaultdict(list)
        self.reached, self.called = set(), defaultdict(set)
        self.waits, self.strangers = [], []
        for crate in crates.values():
            for item in crate.items:
                if item.kind in ("function", "constant") and item.owner is not None:
                    self.add_method(item)

    def add_method(self, item):
        place = Place(item.crate, item.module)
        home = next((found for found in self.lookup(place, item.owner) if isinstance(found, Item) and found.kind == "type"), None)
        item.home = home
        self.methods[item.name].append(item)
        if home is not None:
            self.by_type[home].append(item)
        owns_trait = item.trait is not None and any(isinstance(found, Item) for found in self.lookup(place, item.trait))
        item.is_called_by_others = item.kind == "constant" or item.trait is not None and not owns_trait
        if home is None and item.is_called_by_others:
            self.strangers.append(item)

    # What a path names: items, and places of modules.
    def lookup(self, place, path, seen=()):
        first, rest = path[0], path[1:]
        if first == "crate":
            found = [Place(place.crate, ())]
        elif first == "super":
            found = [Place(place.crate, place.module[:-1])]
        elif first == "self":
            found = [place]
        else:
            found = self.named(place, first, seen)
            if not found and first in self.crates:
                found = [Place(first, ())]
        for name in rest:
            found = [inner for outer in found for inner in self.inside(outer, name, seen)]
        return found

    def inside(self, outer, name, seen):
        if isinstance(outer, Place):
            return self.named(outer, name, seen)
        if outer.kind != "type":
            return []
        return [method for method in self.by_type[outer] if method.name == name] or [outer]

    def named(self, place, name, seen):
        scope = self.crates[place.crate].modules.get(place.module)
        if scope is None:
            return []
        found = list(scope.items.get(name, []))
        if name in scope.modules:
            found.append(Place(place.crate, (*place.module, name)))
        if (place, name) in seen:
            return found
        seen = (*seen, (place, name))
        if name in scope.uses:
            found += self.lookup(place, scope.uses[name], seen)
        if not found:
            found = [item for path in scope.globs for item in self.lookup(place, (*path, name), seen)]
        return found

    def reach(self, item):
        if item not in self.reached:
            self.reached.add(item)
            self.waits.append(item)

    def go(self):
        while self.waits:
            item = self.waits.pop()
            if item.kind == "type":
                self.enliven(item)
            self.read(item)

    # A type that is named: its methods that are called by name, and those that other code calls.
    def enliven(self, item):
        for method in self.by_type[item]:
            callers = self.called[method.name]
            if method.is_called_by_others or any(self.sees(caller, method) for caller in callers):
                self.reach(method)

    def sees(self, caller, method):
        return method.trait is not None or caller == method.crate or method.crate in self.crates[caller].below

    def call(self, item, name):
        if item.crate in self.called[name]:
            return
        self.called[name].add(item.crate)
        for method in self.methods[name]:
            if (method.home is None or method.home in self.reached) and self.sees(item.crate, method):
                self.reach(method)

    def read(self, item):
        place, tokens = Place(item.crate, item.module), item.tokens
        at = 0
        while at < len(tokens):
            token = tokens[at]
            before = tokens[at - 1].text if at else ""
            if token.kind != "word" or token.text == "as":
                at += 1
            elif before == ".":
                at = self.member(item, tokens, at)
            elif before == "::":
                self.call(item, token.text)
                at += 1
            else:
                at = self.path(item, place, tokens, at)

    def member(self, item, tokens, at):
        after = tokens[at + 1].text if at + 1 < len(tokens) else ""
        if after in ("(", "::"):
            known = self.type_before(item, tokens, at - 1)
            own = [method for method in self.by_type[known] if method.name == tokens[at].text] if known else []
            for method in own:
                self.reach(method)
            if not own:
                self.call(item, tokens[at].text)
        return at + 1

    # The type of what stands before a dot, where it is `self`, or a field of it, or of that.
    def type_before(self, item, tokens, dot):
        names, at = [], dot
        while at > 0 and tokens[at].text == "." and tokens[at - 1].kind == "word":
            names.insert(0, tokens[at - 1].text)
            at -= 2
        if names[:1] != ["self"]:
            return None
        known = item.home
        for name in names[1:]:
            if known is None or name not in known.fields:
                return None
            known = self.plain(Place(known.crate, known.module), known.fields[name])
        return known

    # The type that a written type is, through references and the boxes of std.
    def plain(self, place, tokens):
        words = [token for token in tokens if token.kind != "life" and token.text not in ("&", "mut")]
        depth, path, inner = 0, [], []
        for token in words:
            depth += token.text == "<"
            if depth == 0 and token.kind == "word":
                path.append(token.text)
            elif depth == 0 and token.text != "::":
                return None
            elif depth:
                inner.append(token)
            depth -= token.text == ">"
        if path and path[-1] in BOXES:
            return self.plain(place, inner[1:-1])
        found = self.lookup(place, path) if path else []
        return next((it for it in found if isinstance(it, Item) and it.kind == "type"), None)

    # A path, from its first word on: what it names is reached, and each type and constant on the way.
    def path(self, item, place, tokens, at):
        path, at = [tokens[at].text], at + 1
        while at + 1 < len(tokens) and tokens[at].text == "::":
            if tokens[at + 1].kind == "word":
                path.append(tokens[at + 1].text)
                at += 2
            elif tokens[at + 1].text == "<":
                depth = 0
                at += 1
                while True:
                    depth += {"<": 1, ">": -1}.get(tokens[at].text, 0)
                    if tokens[at].kind == "word":
                        self.path(item, place, tokens[:at + 1], at)
                    at += 1
                    if depth == 0:
                        break
            else:
                break
        if path[0] == "Self" and item.owner is not None:
            self.on_type(item, item.home, path[1:])
            return at
        found = []
        for length in range(1, len(path) + 1):
            found = self.lookup(place, path[:length])
            for it in found:
                if isinstance(it, Item) and it.kind in ("type", "constant", "function"):
                    self.reach(it)
        if len(path) > 1 and not any(isinstance(it, Item) and it.kind == "function" for it in found):
            # By a type parameter, a trait or a type of others: by name.
            self.call(item, path[-1])
        return at

    def on_type(self, item, home, names):
        if not names:
            return
        own = [method for method in self.by_type[home] if method.name == names[0]] if home else []
        for method in own:
            self.reach(method)
        if not own:
            self.call(item, names[0])


def reached_from(crates, roots):
    """What these items reach, and what code of others may call on types of its own."""
    walk = Walk(crates)
    for item in [*roots, *walk.strangers]:
        walk.reach(item)
    walk.go()
    return walk.reached
