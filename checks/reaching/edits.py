"""The edits that the check of a crate must refuse: what each of them changes."""
import glob
import os
import re
from typing import NamedTuple

BODY, CALL, CALLER, DEFINITION = "a body", "a body of a call that the program does not make", "a caller", "a definition"

# How a paragraph or an item of a crate's page begins that names the edits of a kind.
SAYS = {DEFINITION: "Of definitions", CALL: "Of calls that the program does not make"}


class Fault(Exception):
    """Why an edit shows nothing of the program."""


class Change(NamedTuple):
    """What an edit changes: the kind, and whose."""

    kind: str
    what: str


class Sources:
    """All crates, what of them the program reaches, what their public functions reach, and their definitions."""

    def __init__(self, crates, reached, public, definitions):
        self.crates, self.reached, self.public, self.definitions = crates, reached, public, definitions


def need(holds, why):
    if not holds:
        raise Fault(why)


def pairs_of(text):
    """The pairs of an edit: the file, the old text and the new one."""
    path, old, pairs = None, None, []
    for line in text.splitlines():
        if line.startswith("file: "):
            need(old is None, "an 'old:' line has no 'new:' line")
            path = line[len("file: "):].strip()
        elif line.startswith("old: "):
            need(path is not None and old is None, "an 'old:' line stands where none may")
            old = line[len("old: "):]
        elif line.startswith("new:"):
            need(old is not None, "a 'new:' line has no 'old:' line")
            pairs.append((path, old, line[len("new:"):].removeprefix(" ")))
            old = None
        else:
            need(not line.strip() or line.startswith("#"), "a line is none of 'file:', 'old:' and 'new:'")
    need(pairs and old is None, "it has no pair of 'old:' and 'new:'")
    return pairs


def places_of(crate, pairs):
    """The file and the place of each pair, where the text stands that it changes; a further pair is of what the earlier ones made."""
    texts, moved = {}, {}
    for path, old, new in pairs:
        if path not in texts:
            full = os.path.join(crate.folder, path)
            need(os.path.isfile(full), "there is no file " + path)
            with open(full, encoding="utf-8") as file:
                texts[path], moved[path] = file.read(), []
        found = texts[path].count(old)
        need(found == 1, "an 'old:' text stands in %s %d times, and not once" % (path, found))
        need(old != new, "a 'new:' text is the old one")
        start = texts[path].index(old)
        texts[path] = texts[path].replace(old, new)
        # The first column that differs, as it stood in the file as it is.
        first = next((at for at, (one, other) in enumerate(zip(old, new)) if one != other), min(len(old), len(new)))
        place = start + first - sum(by for at, by in moved[path] if at < start)
        moved[path].append((start, len(new) - len(old)))
        yield path, place


def item_at(crate, path, place):
    """The innermost item at a place of a source."""
    around = [item for item in crate.items if item.path == path and item.span[0] <= place < item.span[1]]
    return min(around, key=lambda item: item.span[1] - item.span[0], default=None)


def is_in_clause(item, place):
    return any(start <= place < end for start, end in item.clauses)


def of_source(crate, path, place, sources):
    """What is changed at a place of a source of a crate that is no crate of tests."""
    item = item_at(crate, path, place)
    need(item is not None and item.kind != "test", "it changes no item of the library")
    if item.kind == "ghost":
        return Change(DEFINITION, "the ghost item %s of %s" % (item.name, "::".join([crate.name, *item.module])))
    if item.kind == "function" and is_in_clause(item, place):
        need(item.is_empty, "it changes a clause of %s, and no body" % item.label())
        return Change(DEFINITION, "what the law %s says" % item.label())
    if item in sources.reached:
        return Change(BODY, item.label())
    need(item in sources.public, "it changes %s, which no public call reaches" % item.label())
    return Change(CALL, item.label())


def of_caller(crate, path, place, sources):
    """What is changed at a place of a crate of tests: a function that stands on the clauses of a call below, and on no body."""
    item = item_at(crate, path, place)
    need(item is not None and item.kind == "function", "it changes a test, and no caller beside the tests")
    need(not is_in_clause(item, place), "it changes a clause of %s, and no body" % item.label())
    need(item.clauses, "%s has no clause" % item.label())
    words = {token.text for token in item.tokens if token.kind == "word"}
    below = {it.name for name in crate.below for it in sources.crates[name].items if it.kind == "function" and it.is_public}
    need(words & below, "%s calls nothing of the crates below" % item.label())
    return Change(CALLER, item.label())


def of_definition(crate, path, place, sources):
    """What is changed at a place of the definitions of a crate."""
    definition = sources.definitions.at(crate.name, path, place)
    need(definition is not None, "it changes no definition")
    standing = sources.definitions.standing_on(definition)
    laws = sorted({item.name for item in standing if item.is_empty})
    need(standing, "no law and no clause stands on %s" % definition[1])
    on = "the laws " + ", ".join(laws) if laws else "clauses of %d functions" % len(standing)
    return Change(DEFINITION, "%s of %s, on which stand %s" % (definition[1], definition[0], on))


def change_of(crate, text, sources):
    """What an edit changes; a fault where it shows nothing of the crates."""
    changes, faults = [], []
    for path, place in places_of(crate, pairs_of(text)):
        try:
            if path.startswith("specs/"):
                changes.append(of_definition(crate, path, place, sources))
            elif not path.startswith("src/"):
                raise Fault("it changes a proof")
            elif crate.name.startswith("tests_"):
                changes.append(of_caller(crate, path, place, sources))
            else:
                changes.append(of_source(crate, path, place, sources))
        except Fault as fault:
            faults.append(fault)
    # Of several pairs one says what the edit is about.
    if not changes:
        raise faults[0]
    return min(changes, key=lambda change: change.kind != BODY)


def said_of(crate):
    """The kinds of edits that the crate's page names, by the edits' names."""
    page, said = os.path.join(crate.folder, "README.md"), {}
    if os.path.exists(page):
        with open(page, encoding="utf-8") as file:
            parts = re.split(r"\n(?:\s*\n|- )", file.read())
        for part in parts:
            for kind, words in SAYS.items():
                if part.removeprefix("- ").startswith(words):
                    said.update({name: kind for name in re.findall(r"`(\w+)`", part)})
    return said


def edits_of(crate):
    """The edits of a crate, by their names."""
    paths = sorted(glob.glob(os.path.join(crate.folder, "must-fail", "*.edit")))
    return {os.path.basename(path)[:-len(".edit")]: path for path in paths}


def changes_of(crate, sources):
    """Of each edit of a crate: its path, and the change or the fault."""
    said = said_of(crate)
    for name, path in edits_of(crate).items():
        try:
            with open(path, encoding="utf-8") as file:
                change = change_of(crate, file.read(), sources)
            if change.kind == BODY and said.get(name) == CALL:
                # What is found to be reached is some more than what can run, so a page may know better.
                change = Change(CALL, change.what)
            kind = change.kind if change.kind in SAYS else None
            need(kind is None or name in said, "it changes %s (%s), and no paragraph \"%s\" of the crate's page names it"
                 % (change.kind, change.what, SAYS.get(kind)))
            need(said.get(name) == kind, "it changes %s (%s), and the crate's page names it under \"%s\""
                 % (change.kind, change.what, SAYS.get(said.get(name))))
            yield path, change
        except Fault as fault:
            yield path, fault
