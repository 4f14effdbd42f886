"""Draws what a block of the hash costs each contestant of the run, the library among them, as an SVG.

   plot.py                    writes target/bench/blocks.svg
   plot.py --write DOCUMENT   and the same picture beside the document, which shows it

The bars are nanoseconds; where the run took no times, they are counted instructions, and it says so."""

import json
import os
import sys
from dataclasses import dataclass
from statistics import median
from textwrap import wrap
from xml.sax.saxutils import escape

from contestants import CONTESTANTS, FOLDER, LIBRARY
from document import Table, number, read

PICTURE = "blocks.svg"

# In pixels. A reader's font is not known: a name is given room by its number of characters.
WIDTH, MARGIN = 760, 16
HEAD, ROW, BAR = 66, 28, 18
CHARACTER, FIGURE_ROOM = 7.8, 70
NOTE_WIDTH, NOTE_ROW = 110, 16  # the first in characters

# Dark on white whatever is around it: the background is part of the picture.
PAPER, EDGE, INK, FAINT = "#ffffff", "#c9d1d9", "#1a1a1a", "#4a4f55"
MARKED, PLAIN = "#0b4f9e", "#b4c0cc"


@dataclass
class Bar:
    title: str
    value: float
    marked: bool


@dataclass
class Plot:
    short: str  # what a bar is, in three words
    heading: str
    how: str  # the heading's second line
    shows: str  # the same for the document
    bars: list


def bars_of(values):
    """The contestants that have values, by their medians, the smallest first."""
    bars = []
    for contestant in CONTESTANTS:
        if contestant.name in values:
            value = median(values[contestant.name]["block"])
            bars.append(Bar(contestant.title, value, contestant.name == LIBRARY))
    return sorted(bars, key=lambda bar: bar.value)


def plot_of(results):
    if results["times"]:
        rounds = len(results["times"][LIBRARY]["block"])
        return Plot(
            "ns per block",
            "SHA-256: nanoseconds per block of 64 bytes",
            f"Processor time, medians of {rounds} rounds in which all take turns. Shorter is faster.",
            "the nanoseconds per block, the fastest first",
            bars_of(results["times"]),
        )
    return Plot(
        "instructions per block",
        "SHA-256: x86-64 instructions per block of 64 bytes",
        "Counted, not timed: this machine is not x86-64. Shorter is fewer.",
        "counted instructions per block, as there are no times here, the fewest first",
        bars_of(results["counts"]),
    )


def call_proved(bars):
    for bar in bars:
        if bar.marked:
            bar.title += " (proved)"


def text(x, y, said, size, more=""):
    return f'<text x="{x:.1f}" y="{y:.1f}" font-size="{size}"{more}>{escape(said)}</text>'


def box(x, y, width, height, paint):
    return f'<rect x="{x:.1f}" y="{y:.1f}" width="{width:.1f}" height="{height:.1f}" {paint}/>'


def drawn(bars):
    """The bars, a line at the end of the marked one to compare the others with, and then the figures,
    which keep clear of that line by an edge of paper."""
    left = MARGIN + CHARACTER * max(len(bar.title) for bar in bars)
    scale = (WIDTH - MARGIN - FIGURE_ROOM - left) / max(bar.value for bar in bars)
    halo = f' stroke="{PAPER}" stroke-width="4" paint-order="stroke"'
    bottom = HEAD + ROW * len(bars) - (ROW - BAR) / 2
    names, lines, figures = [], [], []
    for place, bar in enumerate(bars):
        top = HEAD + ROW * place
        end = left + scale * bar.value
        weight = ' font-weight="bold"' if bar.marked else ""
        names.append(box(left, top, end - left, BAR, f'fill="{MARKED if bar.marked else PLAIN}"'))
        names.append(text(left - 8, top + BAR - 4, bar.title, 13, f' text-anchor="end"{weight}'))
        figures.append(text(end + 6, top + BAR - 4, number(bar.value), 13, halo + weight))
        if bar.marked:
            ends = f'x1="{end:.1f}" x2="{end:.1f}" y1="{HEAD - 5:.1f}" y2="{bottom:.1f}"'
            lines.append(f'<line {ends} stroke="{MARKED}" stroke-dasharray="4 3"/>')
    return names + lines + figures


def svg(plot, made):
    """The picture's text: a heading, the bars, and where the numbers come from."""
    notes = wrap(made, NOTE_WIDTH)
    below = HEAD + ROW * len(plot.bars) + NOTE_ROW
    height = below + NOTE_ROW * len(notes)
    told = "; ".join(f"{bar.title} {number(bar.value)}" for bar in plot.bars)
    lines = [
        f'<svg xmlns="http://www.w3.org/2000/svg" viewBox="0 0 {WIDTH} {height}" width="{WIDTH}"'
        f' height="{height}" font-family="sans-serif" fill="{INK}" role="img">',
        f"<title>{escape(plot.heading)}</title>",
        f"<desc>{escape(told)}. {escape(made)}</desc>",
        box(0.5, 0.5, WIDTH - 1, height - 1, f'fill="{PAPER}" stroke="{EDGE}"'),
        text(MARGIN, 26, plot.heading, 16, ' font-weight="bold"'),
        text(MARGIN, 46, plot.how, 12, f' fill="{FAINT}"'),
        *drawn(plot.bars),
    ]
    for place, note in enumerate(notes):
        lines.append(text(MARGIN, below + NOTE_ROW * place, note, 11, f' fill="{FAINT}"'))
    return "\n".join(lines + ["</svg>"]) + "\n"


def picture(results):
    """What the document says of the plot. The sentence is made of the run's numbers, so that it stays
    true; a contestant level with the library is on neither side."""
    plot = plot_of(results)
    own = next(bar.value for bar in plot.bars if bar.marked)
    shorter = [bar.title for bar in plot.bars if bar.value < own]
    longer = [bar.title for bar in plot.bars if bar.value > own]
    caption = (
        f"The plot, `{PICTURE}`, shows {plot.shows}; the library's bar is dark, with a dashed line at its"
        f" end. Shorter than it: {'; '.join(shorter) or 'none'}. Longer: {len(longer)} of the other"
        f" {len(plot.bars) - 1}."
    )
    return Table(caption, [], [], picture=f"![{plot.short}]({PICTURE})")


def main():
    made = read("facts.txt").splitlines()[0].replace("`", "") + "."
    plot = plot_of(json.loads(read("results.json")))
    # A library that the run was given as a file may be any.
    if " --library " not in made:
        call_proved(plot.bars)
    image = svg(plot, made)
    folders = [FOLDER]
    if sys.argv[1:2] == ["--write"]:
        folders.append(os.path.dirname(sys.argv[2]))
    for folder in folders:
        path = os.path.join(folder, PICTURE)
        with open(path, "w", encoding="utf-8") as file:
            file.write(image)
        print(f"written: {path}")


if __name__ == "__main__":
    main()
