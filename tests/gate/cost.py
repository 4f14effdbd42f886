#!/usr/bin/env python3
"""What the edits of the gate cost beside the proofs: an edit costs at most a check of its crate, and all of them
may cost 1.5 times the proofs.

rt tells no seconds, and it takes over from earlier runs on the machine what has not changed. So what is asserted is
what no clock can change: the ratio by the seconds that docs/PERFORMANCE.md gives for a check of each crate, with the
edits as they stand now. So an edit too many in must-fail/ is told, on every machine alike. A crate that the page does not
have yet counts by its lines, at the page's seconds a line.

tests/gate/cost.py
tests/gate/cost.py --csv FILE  by the seconds of a file with the columns crate and seconds, in the place of the page's
"""

import argparse
import csv
import pathlib
import sys

sys.dont_write_bytecode = True  # nothing is written beside the sources
sys.path[0] = str(pathlib.Path(__file__).resolve().parents[1])  # modules are named from tests/ on
from gate.listed import GATE, crates, edits  # noqa: E402
from shared.tally import Failed, Tally  # noqa: E402

ROOT = pathlib.Path(__file__).resolve().parents[2]
PAGE = ROOT / "docs" / "PERFORMANCE.md"
MOST = 1.5


def lines(crate):
    """The lines of a crate's code, definitions and proofs."""
    files = [path for part in ("src", "specs", "proofs") for path in (ROOT / "crates" / crate / part).glob("**/*.*t")]
    return sum(len(path.read_text(encoding="utf-8").splitlines()) for path in files)


def on_page():
    """The seconds that the page has for the crates, by its table's column."""
    rows = [[cell.strip() for cell in line.strip("|").split("|")] for line in PAGE.read_text().splitlines()
            if line.startswith("|")]
    head = next((row for row in rows if row[0] == "crate" and "seconds" in row), None)
    if head is None:
        raise Failed(f"{PAGE.relative_to(ROOT)} has no table of crates with their seconds")
    listed = [row for row in rows[rows.index(head):] if row[0] in crates(ROOT) and len(row) == len(head)]
    return {row[0]: float(row[head.index("seconds")].replace(",", "")) for row in listed}


def in_file(path):
    with open(path, newline="", encoding="utf-8") as file:
        return {row["crate"]: float(row["seconds"]) for row in csv.DictReader(file) if row["crate"] in crates(ROOT)}


def weighed(seconds):
    """The seconds of each crate's edits, if each costs a check of its crate."""
    tried = dict.fromkeys(seconds, 0)
    for edit in edits(ROOT, GATE):
        tried[edit.crate] += seconds[edit.crate]
    return tried


def whole(page):
    """The page's seconds; of a crate that it does not have, those of so many lines."""
    speed = sum(page.values()) / sum(map(lines, page))
    return {name: page.get(name, lines(name) * speed) for name in crates(ROOT)}


def show(proofs, tried):
    count = dict.fromkeys(proofs, 0)
    for edit in edits(ROOT, GATE):
        count[edit.crate] += 1
    print(f"{'crate':16}{'seconds':>9}{'edits':>7}{'seconds':>9}")
    for name in proofs:
        print(f"{name:16}{proofs[name]:9.1f}{count[name]:7}{tried[name]:9.1f}")
    print(f"{'all':16}{sum(proofs.values()):9.1f}{sum(count.values()):7}{sum(tried.values()):9.1f}")


def ratio(proofs, tried):
    return sum(tried.values()) / sum(proofs.values())


def within(seconds):
    missing = [name for name in crates(ROOT) if name not in seconds]
    if missing:
        raise Failed(f"no seconds are given for {', '.join(missing)}")
    found = ratio(seconds, weighed(seconds))
    if found > MOST:
        raise Failed(f"{found:.2f}, above {MOST}: move edits from must-fail/ to wrong/, the dearest first")
    return f"{found:.2f}, at most {MOST}"


def main():
    parser = argparse.ArgumentParser(description=__doc__, formatter_class=argparse.RawDescriptionHelpFormatter)
    parser.add_argument("--csv", metavar="FILE", type=pathlib.Path)
    given = parser.parse_args()
    tally = Tally()
    where = given.csv or PAGE.relative_to(ROOT)
    seconds = in_file(given.csv) if given.csv else whole(on_page())
    show(seconds, weighed(seconds))
    tally.test(f"edits to proofs, by the seconds of {where}", lambda: within(seconds))
    return tally.end()


if __name__ == "__main__":
    sys.exit(main())
