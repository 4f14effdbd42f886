"""Makes the tables of rpmcrun from what lines.py counted and timed."""

from statistics import median

from document import Table, number

RPMCRUN, SECOND = "rpmcrun", "second"
HEADING = ["", "rpmcrun", "the second program, Rust", "to rpmcrun"]
NOT_HERE = "not here"


def cells(values):
    """The two programs' numbers and their ratio, as far as they are there."""
    told = [number(values[name]) if name in values else NOT_HERE for name in (RPMCRUN, SECOND)]
    both = RPMCRUN in values and SECOND in values
    return told + [f"{values[SECOND] / values[RPMCRUN]:.2f}" if both else ""]


def by_program(results, title):
    return {name: counts[title] for name, counts in results["counts"].items()}


def count_table(results):
    caption = "x86-64 instructions of a line, or of several where it says so; the program's start is taken off."
    titles = list(next(iter(results["counts"].values()), {}))
    notes = [
        "Counted under qemu as the hash is: the difference of two inputs, of 100 and of 200 times the"
        " same lines, made twice. The kernel's part of reading and writing is not in it.",
        "The 8 control lines are `F 66`, `R 1`, `S 0`, `F 9B07`, `R 49`, `P`, an empty line and `F 99`."
        " The 6 lines have 16 steps, each a block of the hash.",
    ]
    return Table(caption, HEADING, [[title, *cells(by_program(results, title))] for title in titles], notes)


def length_table(results):
    caption = (
        f"x86-64 instructions a line after many lines, of `{results['repeated'].partition(': ')[2]}`. The run"
        " ends with an error if a line costs more after a million of them."
    )
    rows = []
    for place, start in enumerate(results["starts"]):
        values = {name: costs[place] for name, costs in results["lengths"].items()}
        rows.append([f"after {start:,} lines", *cells(values)])
    return Table(caption, HEADING, rows)


def rate_table(results):
    if not results["rates"]:
        return Table("No lines a second: this machine is not x86-64, and emulated time says nothing.", [], [])
    rounds = len(next(iter(next(iter(results["rates"].values())).values())))
    caption = (
        f"Lines a second of processor time, the kernel's part included, input from a file and output to"
        f" nowhere: medians of {rounds} rounds in which the programs take turns. They are this"
        " processor's; no test asserts them."
    )
    rows = []
    for title, values in results["rates"].items():
        rows.append([title, *cells({name: median(each) for name, each in values.items()})])
    return Table(caption, HEADING, rows)


def tables(results):
    return [count_table(results), length_table(results), rate_table(results)]
