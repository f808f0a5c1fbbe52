"""Entries of docs/times.md: rows of its table and items of its list, as texts with fields for figures."""
import re
import string
import textwrap

WIDTH = 140
FIGURE = r"(?:\d[\d,.]*|-)"
# Of a shape at two sizes: events, microseconds an event, instructions an event, and the peak of memory.
TWO_SIZES = "{:,}; {:,} | {:.1f}; {:.1f} | {:,.0f}; {:,.0f} | {:.0f}; {:.0f} |"


def two_sizes(small, large):
    """The figures of a shape, as it was measured at two sizes."""
    columns = [(cost.events, cost.seconds / cost.events * 1e6, cost.instructions / cost.events, cost.peak) for cost in (small, large)]
    return [figure for both in zip(*columns) for figure in both]


class Figures(string.Formatter):
    """A figure that was not counted is a dash."""

    def format_field(self, value, format_spec):
        return "-" if value != value else super().format_field(value, format_spec)


def filled(entry, figures):
    """The entry with these figures, wrapped where it is an item."""
    text = Figures().format(entry, *figures)
    return text if text.startswith("|") else wrapped(text)


def wrapped(item):
    """The item in lines, none of which begins with a dash, which would be an item of its own."""
    glued = item.replace(" - ", "\u00a0- ")
    lines = textwrap.fill(glued, WIDTH, subsequent_indent="  ", break_long_words=False, break_on_hyphens=False)
    return lines.replace("\u00a0", " ")


def fits(entry, text):
    """Whether the text is the entry with some figures."""
    pieces = string.Formatter().parse(entry)
    pattern = "".join(re.escape(literal) + ("" if field is None else FIGURE) for literal, field, _, _ in pieces)
    return re.fullmatch(pattern, " ".join(text.split())) is not None
