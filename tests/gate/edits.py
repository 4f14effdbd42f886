#!/usr/bin/env python3
"""Tries the wrong versions that the gate does not try, crates/NAME/wrong/*.edit: the prover has to refuse
each because a fact fails, by the same reading of what rt says as in the gate (prover.py).

Each is tried by `rt must-fail`, on a copy of the crates (room.py).

tests/gate/edits.py             all of them: on demand, and before a release
tests/gate/edits.py NAME..      those of a crate
tests/gate/edits.py NAME/LABEL  one of them, or one of crates/NAME/must-fail
    --must-fail                 those that the gate tries, too

rt tries as many at a time as there are processors. What it says of the edits of a crate is kept in
target/edits/log/NAME.log, and of the crate as it stands in target/edits/log/NAME-as-it-stands.log.
"""

import argparse
import pathlib
import sys
import time

sys.dont_write_bytecode = True  # nothing is written beside the sources
sys.path[0] = str(pathlib.Path(__file__).resolve().parents[1])  # modules are named from tests/ on
from gate.listed import GATE, ON_DEMAND, crates, edits  # noqa: E402
from gate.room import Room  # noqa: E402
from shared.tally import Tally  # noqa: E402

ROOT = pathlib.Path(__file__).resolve().parents[2]


def chosen(root, words, gate_too):
    """The edits that the words name, all without a word; and the words that name none."""
    of_gate, others = edits(root, GATE), edits(root, ON_DEMAND)
    usual = of_gate + others if gate_too else others
    if not words:
        return usual, []
    named = [edit for edit in of_gate + others if edit.name in words or (edit in usual and edit.crate in words)]
    unknown = [word for word in words if not any(word in (edit.name, edit.crate) for edit in named)]
    return sorted(named, key=lambda edit: list(crates(root)).index(edit.crate)), unknown


class Trial:
    """Edits that are tried, and what came of it."""

    def __init__(self, root, wanted):
        self.room = Room(root)
        self.wanted = wanted
        self.tally = Tally()
        self.ended = 0
        self.repeats = []
        self.table = []

    def progress(self, name):
        bad = f", {self.tally.failed} failed so far" if self.tally.failed else ""
        print(f"[{self.ended} of {len(self.wanted)} edits{bad}] {name}", flush=True)

    def end(self, edit, found):
        """Counts an edit by what rt says of it."""
        before = self.tally.failed
        self.tally.test(edit.name, lambda: f"refused: {self.room.verdict(edit, found)}")
        if self.tally.failed > before:
            self.repeats.append(f"to repeat: tests/gate/edits.py {edit.name}  # {self.room.shown(edit.path)}, "
                                f"log {self.room.shown(self.room.log(edit.crate))}")
        self.ended += 1
        self.progress(edit.name)

    def crate(self, name):
        """Tries the edits of one crate, if it is proved as it stands."""
        before, started = self.tally.failed, time.monotonic()
        self.tally.test(f"{name} as it stands", lambda: self.room.prepare(name))
        if self.tally.failed > before:
            self.repeats.append(f"to repeat: env -C crates/{name} rt check  # its edits were not tried")
            return
        checked = time.monotonic()
        mine = [edit for edit in self.wanted if edit.crate == name]
        found = self.room.attempt(name, mine)
        for edit in mine:
            self.end(edit, found)
        self.table.append((name, len(mine), self.tally.failed - before, checked - started, time.monotonic() - checked))

    def run(self):
        self.room.enter()
        try:
            for name in dict.fromkeys(edit.crate for edit in self.wanted):
                self.crate(name)
        finally:
            self.room.leave()

    def summary(self):
        print("Seconds by the clock:")
        print(f"{'crate':16}{'edits':>7}{'failed':>8}{'as it stands':>14}{'the edits':>11}")
        for name, count, failed, whole, seconds in self.table:
            print(f"{name:16}{count:7}{failed:8}{whole:14.1f}{seconds:11.1f}")
        if self.ended < len(self.wanted):
            print(f"not tried: {len(self.wanted) - self.ended} edits")
        for line in self.repeats:
            print(line)
        return self.tally.end()


def main():
    parser = argparse.ArgumentParser(description=__doc__, formatter_class=argparse.RawDescriptionHelpFormatter)
    parser.add_argument("words", nargs="*", metavar="NAME[/LABEL]")
    parser.add_argument("--must-fail", action="store_true", help="try the gate's edits too")
    given = parser.parse_args()
    wanted, unknown = chosen(ROOT, given.words, given.must_fail)
    if unknown:
        parser.error(f"no edit is named by {', '.join(unknown)}")
    started = time.monotonic()
    trial = Trial(ROOT, wanted)
    trial.run()
    print(f"{trial.ended} edits in {time.monotonic() - started:.0f} s by the clock")
    return trial.summary()


if __name__ == "__main__":
    sys.exit(main())
