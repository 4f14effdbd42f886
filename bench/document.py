"""Tables as text, for the terminal and for the document, and the document's marks."""

import sys
from dataclasses import dataclass, field
from textwrap import fill

from contestants import FOLDER

WIDTH = 100  # of the terminal


@dataclass
class Table:
    caption: str
    heading: list
    rows: list
    notes: list = field(default_factory=list)
    picture: str = ""  # in the document only: a terminal shows none


def read(name):
    with open(f"{FOLDER}/{name}", encoding="utf-8") as file:
        return file.read()


def number(value):
    """Whole, with thousands: only the second program's printing makes its counts fractions."""
    return f"{value:,.0f}"


def plain(table):
    """Columns for the terminal; the first is words, the others are numbers."""
    lines = [table.heading] + table.rows if table.rows else []
    widths = [max(map(len, column)) for column in zip(*lines)]
    text = [fill(table.caption, WIDTH), ""]
    for row in lines:
        cells = [cell.rjust(width) for cell, width in zip(row[1:], widths[1:])]
        text.append("  ".join([row[0].ljust(widths[0])] + cells).rstrip())
    if table.notes:
        text += [""] + [fill(note, WIDTH) for note in table.notes]
    return "\n".join(text).rstrip()


def markdown(table):
    lines = []
    if table.rows:
        rule = ["---"] + ["---:"] * (len(table.heading) - 1)
        lines = ["| " + " | ".join(row) + " |" for row in [table.heading, rule] + table.rows]
    shown = [table.picture] if table.picture else []
    parts = [[table.caption], shown, lines, [f"- {note}" for note in table.notes]]
    return "\n\n".join("\n".join(part) for part in parts if part)


def facts():
    """The command, the machine and the versions, in one sentence."""
    made, *versions = read("facts.txt").splitlines()
    return f"{made}, with {'; '.join(versions)}."


def text_of(opening, tables):
    """The text for the document."""
    return "\n\n".join([opening] + [markdown(table) for table in tables]) + "\n"


def split_at_marks(document, name):
    """The document's text up to the first of the two marks with a name, and from the second one."""
    begin, end = f"<!-- {name}:begin -->", f"<!-- {name}:end -->"
    try:
        with open(document, encoding="utf-8") as file:
            text = file.read()
    except FileNotFoundError:
        sys.exit(f"bench: there is no {document}")
    if text.count(begin) != 1 or text.count(end) != 1 or text.index(end) < text.index(begin):
        sys.exit(f"bench: {document} must have the lines {begin} and {end}, once each, in this order")
    return text[: text.index(begin) + len(begin)], text[text.index(end) :]


def write_between_marks(document, name, text):
    before, after = split_at_marks(document, name)
    with open(document, "w", encoding="utf-8") as file:
        file.write(f"{before}\n\n{text}\n{after}")
