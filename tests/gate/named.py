#!/usr/bin/env python3
"""Compares the edits with docs/CONTRACTS.md, which names the wrong answers that are ruled out: in the
section of a crate, those of must-fail/ in bold and those of wrong/ not, and each once. And each function
has one in bold, but in the crates that the page excepts. A path to an edit that a page gives must be there,
what document 01 names must be tried by the gate, and every edit fits the crate as it stands: one that is tried
on demand alone would else go stale unseen."""

import pathlib
import re
import shutil
import sys
import tempfile

sys.dont_write_bytecode = True  # nothing is written beside the sources
sys.path[0] = str(pathlib.Path(__file__).resolve().parents[1])  # modules are named from tests/ on
from gate.listed import GATE, ON_DEMAND, crates, edits  # noqa: E402
from gate.room import PARTS, apply  # noqa: E402
from shared.tally import Failed, Tally  # noqa: E402

ROOT = pathlib.Path(__file__).resolve().parents[2]
PAGE = ROOT / "docs" / "CONTRACTS.md"
PAGES = [ROOT / "README.md", *sorted((ROOT / "docs").glob("*.md"))]

FROM_DOCUMENT = "What document 01 names"
EXCEPTED = re.compile(r"^No function has to have one in bold .*: (.*)\.$", re.MULTILINE)
COLUMN = "Wrong answers ruled out"
IN_WORDS = re.compile(r"\bWrong [^.:]*: ([^.]*)\.")  # in a section with no table of functions
NAME = re.compile(r"(\*\*)?`([a-z0-9_]+)`")
PATH = re.compile(r"\b([a-z0-9_]+)/(must-fail|wrong)/([a-z0-9_]+)\b")


def sections():
    """The page's sections: their text by their heading."""
    parts = re.split(r"^## (.*)\n", PAGE.read_text(), flags=re.MULTILINE)
    return dict(zip(parts[1::2], parts[2::2]))


def functions(section, column=COLUMN):
    """The table of a section: each function with its cell in a column."""
    rows = [[cell.strip() for cell in line.strip("|").split("|")] for line in section.splitlines()
            if line.startswith("|")]
    heads = [row for row in rows if column in row]
    if not heads:
        return {}
    at = heads[0].index(column)
    return {row[0]: row[at] for row in rows if row[0].startswith("`")}


def named(section):
    """The names of wrong answers in a section: those in bold, and the others."""
    cells = functions(section).values() or IN_WORDS.findall(section)
    found = [match for cell in cells for match in NAME.findall(cell)]
    return [name for bold, name in found if bold], [name for bold, name in found if not bold]


def compare(crate, section, each_function):
    """The names in a crate's section are those of its edits, and if asked for, each function has one in bold."""
    for folder, names in zip((GATE, ON_DEMAND), named(section)):
        there = [edit.label for edit in edits(ROOT, folder) if edit.crate == crate]
        if sorted(names) != sorted(there):
            which = ", ".join(sorted(set(names) ^ set(there))) or "a name that stands there twice"
            raise Failed(f"crates/{crate}/{folder}/ and the page differ in {which}")
    bare = [function for function, cell in functions(section).items() if "**" not in cell]
    if each_function and bare:
        raise Failed(f"no wrong answer in bold, from crates/{crate}/{GATE}/, of {', '.join(bare)}")
    return ", ".join(f"{len(names)} in {folder}" for folder, names in zip((GATE, ON_DEMAND), named(section)))


def paths():
    """Each path to an edit that a page gives is there."""
    found = {(page, path) for page in PAGES for path in PATH.findall(page.read_text())}
    if not found:
        raise Failed("no page gives one")
    for page, (crate, folder, label) in sorted(found):
        if not (ROOT / "crates" / crate / folder / f"{label}.edit").is_file():
            raise Failed(f"{page.relative_to(ROOT)}: there is no crates/{crate}/{folder}/{label}.edit")
    return f"{len(found)} of them"


def fit():
    """Each edit can be made: its texts stand in their files, and once."""
    found, failures = edits(ROOT, GATE) + edits(ROOT, ON_DEMAND), []
    with tempfile.TemporaryDirectory() as room:
        for edit in found:
            folder = pathlib.Path(room) / edit.folder / edit.name
            for part in PARTS:  # and not out/, which rt makes, and which is large
                if (ROOT / "crates" / edit.crate / part).is_dir():
                    shutil.copytree(ROOT / "crates" / edit.crate / part, folder / part)
            try:
                apply(edit, folder)
            except Failed as failure:
                failures.append(f"{edit.name}: {failure}")
    if failures:
        raise Failed("\n  ".join(failures))
    return f"{len(found)} of them"


def by_the_gate(text):
    rows = [line for line in text.splitlines() if line.startswith("| ") and not line.startswith("| Document")]
    others = [row for row in rows if [folder for _, folder, _ in PATH.findall(row)] != [GATE]]
    if others or not rows:
        raise Failed(f"not by one edit of {GATE}/: {'; '.join(others) or 'there is no row'}")
    return f"{len(rows)} errors and wrong devices"


def main():
    tally = Tally()
    found = sections()
    excepted = {name for line in EXCEPTED.findall(PAGE.read_text()) for _, name in NAME.findall(line)}
    for crate in crates(ROOT):
        tally.test(f"wrong answers of {crate}", lambda: compare(crate, found.get(crate, ""), crate not in excepted))
    tally.test("what document 01 names", lambda: by_the_gate(found[FROM_DOCUMENT]))
    tally.test("paths to edits", paths)
    tally.test("edits that fit", fit)
    return tally.end()


if __name__ == "__main__":
    sys.exit(main())
