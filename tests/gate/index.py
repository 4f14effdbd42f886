#!/usr/bin/env python3
"""Compares the index of the tests, tests/README.md, with the files and with the parts of the two runs; and
every path below tests/ that a file of the project names with what is there.

tests/gate/index.py: that what is wrong is found out is shown first, on a small index.
"""

import collections
import os
import pathlib
import re
import sys

sys.dont_write_bytecode = True  # nothing is written beside the sources
sys.path[0] = str(pathlib.Path(__file__).resolve().parents[1])  # modules are named from tests/ on
from shared.tally import Failed, Tally  # noqa: E402

ROOT = pathlib.Path(__file__).resolve().parents[2]
INDEX = ROOT / "tests/README.md"
RUNS = ("tests/run", ".ci/run")
NOT_READ = {".git", "target", "out", "__pycache__"}  # folders

RUNNABLE = {"test", "on demand", "script"}
KINDS = RUNNABLE | {"module", "program", "data"}

HEADING = re.compile(r"## `(tests/[^`]*)`")
ROW = re.compile(r"\| `([^`]+)` \| ([^|]+) \| [^|]+ \| ([^|]+) \|")
PART = re.compile(r"^ *part .*?(tests/\S+)", re.MULTILINE)
NAMED = re.compile(r"(?<!target/)\btests/[\w./*-]*")

Row = collections.namedtuple("Row", "path kind alone")


def rows(index):
    """The files that the index names, by the folders of its headings."""
    folder, found = "", []
    for line in index.splitlines():
        if heading := HEADING.match(line):
            folder = heading[1]
        elif row := ROW.fullmatch(line):
            found.append(Row(folder + row[1], row[2], row[3]))
    return found


# ---- each gives what is wrong, a list of words


def not_listed(index, files):
    times = collections.Counter(row.path for row in rows(index))
    wrong = [f"{path} is not in the index" for path in files if not times[path]]
    return wrong + [f"{path} stands there {count} times" for path, count in times.items() if count > 1]


def not_there(index, files):
    return [f"there is no {row.path}" for row in rows(index) if row.path not in files]


def wrong_kinds(index, runnable):
    """`runnable`: the files that can be run."""
    wrong = [f"{row.path} is of no kind: {row.kind}" for row in rows(index) if row.kind not in KINDS]
    for row in rows(index):
        if (row.kind in RUNNABLE) != (row.path in runnable):
            wrong.append(f"{row.path}, {row.kind}, {'can' if row.path in runnable else 'cannot'} be run")
    return wrong


def wrong_parts(index, runs):
    """`runs`: the text of the two runs. A test is a part there, and nothing else is."""
    parts = set(PART.findall(runs))
    return [f"{row.path} is {row.kind}, but {'a' if row.path in parts else 'no'} part of a run"
            for row in rows(index) if (row.kind == "test") != (row.path in parts)]


def wrong_commands(index):
    tests = [row for row in rows(index) if row.kind in ("test", "on demand")]
    return [f"{row.path}: {row.alone} runs another" for row in tests
            if row.alone[1:].split("`")[0].split(" ")[0] != row.path]


def wrong_names(texts):
    """`texts`: the project's files by path. A name with a star fits some file."""
    wrong = []
    for path, text in texts.items():
        names = {name.rstrip("./-") for name in NAMED.findall(text)}
        wrong += [f"{path} names {name}" for name in sorted(names) if not any(ROOT.glob(name))]
    return wrong


# ---- tests


def project_files():
    for folder, folders, files in os.walk(ROOT):
        folders[:] = sorted(set(folders) - NOT_READ)
        for file in sorted(files):
            path = pathlib.Path(folder, file)
            yield path.relative_to(ROOT).as_posix(), path


def nothing_wrong(wrong):
    if wrong:
        raise Failed("; ".join(wrong))


def found_out(wrong, words):
    if wrong != [words]:
        raise Failed(f"it says {wrong}, not `{words}`")


def test_self(tally):
    """An index of two files, and what is wrong with it beside other files. The path of a file that is not
    there must not stand here in one piece."""
    one, two = "tests/" + "one.py", "tests/" + "two.py"
    index = f"## `tests/`\n| `one.py` | test | - | `{one} X` |\n| `two.py` | module | - | `one.py` |\n"
    double = index + "| `two.py` | data | - | - |\n"
    for title, wrong, words in [
        ("a file without a row", not_listed(index, [one, two, "new"]), "new is not in the index"),
        ("a row twice", not_listed(double, [one, two]), f"{two} stands there 2 times"),
        ("a row without a file", not_there(index, [one]), f"there is no {two}"),
        ("a module that can be run", wrong_kinds(index, [one, two]), f"{two}, module, can be run"),
        ("a test that is no part", wrong_parts(index, "must x " + one), f"{one} is test, but no part of a run"),
        ("a command of another test", wrong_commands(index.replace(one, two)), f"{one}: `{two} X` runs another"),
        ("a path that is not there", wrong_names({"file": f"see {one}, target/{two}."}), f"file names {one}"),
    ]:
        tally.test(f"found out: {title}", lambda: found_out(wrong, words))


def main():
    tally = Tally()
    test_self(tally)
    index, found = INDEX.read_text(), dict(project_files())
    files = [path for path in found if path.startswith("tests/")]
    runnable = [path for path in files if os.access(found[path], os.X_OK)]
    runs = "".join((ROOT / run).read_text() for run in RUNS)
    texts = {name: path.read_text(errors="replace") for name, path in found.items()}
    for title, wrong in [
        ("every file stands in the index, once", not_listed(index, files)),
        ("every file of the index is there", not_there(index, files)),
        ("what the index says can be run, can be", wrong_kinds(index, runnable)),
        ("every test is a part of a run, and nothing else is", wrong_parts(index, runs)),
        ("the command of each test", wrong_commands(index)),
        ("every path below tests/ that the project names is there", wrong_names(texts)),
    ]:
        tally.test(title, lambda: nothing_wrong(wrong))
    return tally.end()


if __name__ == "__main__":
    sys.exit(main())
