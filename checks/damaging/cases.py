"""Cases, each made from the examples and its number alone."""
import random
from typing import NamedTuple

from . import large, replies, scripts

# What the program reads at most, and takes at once, in bytes.
LIMIT = 67_108_864
PIECE = 65_536
# How many of the cases are long, and how many as long as the limit or longer.
LONG = 0.006
LIMITED = 0.0002
SIZES = [50_000, 200_000, 500_000, 1_000_000, 2_000_000, 4_000_000]
# Of how many cases one also comes in pieces.
IN_PIECES = 8


class Case(NamedTuple):
    """What the program is given: words, an input, and where this is cut where it also comes in pieces; and what was done to it."""

    number: int
    words: list
    text: bytes
    cuts: list
    done: list


def text_damaged(chance, text):
    """A damage of all bytes together."""
    way = chance.randrange(9)
    if way == 0:
        return text.removesuffix(b"\n")
    if way == 1:
        return text[: chance.randrange(len(text) + 1)]
    if way == 2:
        return chance.choice(replies.MARKS) + text
    if way == 3:
        return text.replace(b"\n", chance.choice([b"\r\n", b"\r", b"\n\n", b"\n\r"]))
    if way == 4:
        return chance.choice([b"", b"\n", b"\r", b"\x00", b" ", text[: text.find(b"\n") + 1], text[: text.find(b"\n")]])
    if way == 5:
        return text + chance.choice([b"\x00", b" ", b"\r", b"{", b"\xc3", b"\n\n\n"])
    return replies.bytes_damaged(chance, text)


def filled(chance, script):
    """The script with white space up to about the limit."""
    size = LIMIT + chance.choice([-1, 0, 1, 2, PIECE, 1_000_000])
    script.note(f"filled to {size} bytes")
    text = script.text()
    return text + chance.choice([b"\n", b" "]) * (size - len(text))


def damaged(chance, script):
    """Damages a script, and gives its bytes."""
    kind = chance.random()
    if kind < LIMITED:
        return filled(chance, script)
    if kind < LIMITED + LONG:
        chance.choice(large.DAMAGES)(chance, script, chance.choice(SIZES))
        if chance.random() < 0.2:
            scripts.paired(chance, script)
    for damage in chance.choices(*zip(*scripts.DAMAGES.items()), k=chance.choice([1, 1, 1, 1, 2, 2, 3, 5])):
        damage(chance, script)
    text = script.text()
    if chance.random() < 0.1:
        script.note("all bytes")
        text = text_damaged(chance, text)
    return text


def cuts_of(chance, text):
    """Where an input is cut into pieces."""
    way = chance.randrange(5)
    if way == 0 and len(text) < 4000:
        return list(range(1, len(text), chance.choice([1, 7, 100])))
    if way == 1:
        return list(range(PIECE + chance.choice([-1, 0, 1]), len(text), PIECE))
    if way == 2:
        ends = [place for place in range(min(len(text), 20_000)) if text[place] == 10]
        return [place + chance.choice([0, 1]) for place in ends if place > 0]
    return sorted(chance.randrange(len(text) + 1) for _ in range(chance.choice([1, 2, 5, 20])))


def make(examples, number):
    """The case of this number."""
    chance = random.Random(number)
    script = scripts.Script(chance.choice(examples), examples)
    text = damaged(chance, script)
    cuts = cuts_of(chance, text) if chance.randrange(IN_PIECES) == 0 else []
    return Case(number, script.words, text, cuts, script.done)
