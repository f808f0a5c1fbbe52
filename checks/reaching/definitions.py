"""Which laws and clauses stand on a definition of specs/, by names.

A name is looked up in the file where it stands: among its definitions, and what `use` brings in.
"""
import glob
import os
import re
from collections import defaultdict

HEAD = re.compile(r"^(?:pub )?(?:abbrev|unfoldable|record|data)(?: pub)? ([A-Za-z_◌][^\s:]*)", re.M)
USE = re.compile(r"^\s*(?:pub |ghost )?use Rattle\.([\w.]+?)(?:\.\{([^}]*)\}| as (\w+))?;?$", re.M)
WORD = re.compile(r"[A-Za-z_][\w'-]*(?:\.[A-Za-z_][\w'-]*)*")


class Scope:
    """What the names of a file stand for: definitions by their name, modules by the name that the file gives them."""

    def __init__(self, text):
        self.names, self.aliases = {}, {}
        for path, listed, alias in USE.findall(text):
            if alias:
                self.aliases[alias] = path
            for entry in listed.split(","):
                name, _, given = entry.strip().partition(" as ")
                if name:
                    self.names[given or name] = (path, name)

    def cited(self, text):
        for word in WORD.findall(text):
            first, _, rest = word.partition(".")
            if first in self.names:
                yield self.names[first]
            elif first in self.aliases and rest:
                yield self.aliases[first], rest.split(".")[0]


class Definitions:
    def __init__(self, crates):
        self.cited_by, self.places = defaultdict(set), {}
        for crate in crates.values():
            for path in glob.glob(os.path.join(crate.folder, "specs", "**", "*.antt"), recursive=True):
                self.add_file(crate, path)
            self.add_clauses(crate)

    def add_file(self, crate, path):
        with open(path, encoding="utf-8") as file:
            text = file.read()
        inside = os.path.relpath(path, crate.folder)
        module = ".".join([crate.name, *inside[:-len(".antt")].split(os.sep)])
        heads = list(HEAD.finditer(text))
        scope = Scope(text)
        scope.names.update({head.group(1): (module, head.group(1)) for head in heads})
        self.places[crate.name, inside] = [(head.start(), (module, head.group(1))) for head in heads]
        for head, end in zip(heads, [head.start() for head in heads[1:]] + [len(text)]):
            for cited in scope.cited(text[head.start():end]):
                self.cited_by[cited].add((module, head.group(1)))
        for name, (home, inner) in list(scope.names.items()):
            if home != module:
                # `pub use` hands a name on.
                self.cited_by[home, inner].add((module, name))

    def add_clauses(self, crate):
        scopes = {path: Scope(text) for path, text in crate.texts.items()}
        for item in crate.items:
            if item.kind == "function":
                for start, end in item.clauses:
                    for cited in scopes[item.path].cited(crate.texts[item.path][start:end]):
                        self.cited_by[cited].add(item)

    def at(self, crate, path, place):
        """The definition at a place of a file."""
        heads = [name for start, name in self.places.get((crate, path), []) if start <= place]
        return heads[-1] if heads else None

    def standing_on(self, definition):
        """The functions whose clauses stand on a definition."""
        seen, waits, found = {definition}, [definition], set()
        while waits:
            for citing in self.cited_by.get(waits.pop(), ()):
                if not isinstance(citing, tuple):
                    found.add(citing)
                elif citing not in seen:
                    seen.add(citing)
                    waits.append(citing)
        return found
