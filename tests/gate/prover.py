#!/usr/bin/env python3
"""Reads what `rt ci` wrote in the run before it, which tests/gate/proofs keeps in target/gate/ci.log.

A must-fail edit shows something only if it is refused because a fact no longer holds, and not
because the proof file no longer fits the code: so of no edit may rt say the latter. Each crate that is
listed is proved, in that run or in an earlier one of the same files on this machine, which rt names. And the
proofs rest on no assumed contract: only the programs that read and write name any. rt says which with the proof
of a program or a static library, over all that it reaches; of one that it has kept `rt check` is asked.
"""

import pathlib
import re
import subprocess
import sys

sys.dont_write_bytecode = True  # nothing is written beside the sources
sys.path[0] = str(pathlib.Path(__file__).resolve().parents[1])  # modules are named from tests/ on
from gate.listed import GATE, crates, edits, linked  # noqa: E402
from gate.reading import refused, tried  # noqa: E402
from shared.tally import Failed, Tally  # noqa: E402

ROOT = pathlib.Path(__file__).resolve().parents[2]
LOG = ROOT / "target" / "gate" / "ci.log"

# The contracts of C functions that a program's proof assumes: those of the standard library's reading and writing.
ASSUMED = {"rpmcrun": {
    "libc": "libc::read, libc::write",
    "os": "os::c::__xpg_strerror_r, os::c::rattle_errno",
}}

# What rt says of a crate: that this run proved it, or that an earlier one did.
PROVED = re.compile(r"^rt: (\w+)(?: (proved)$| is (kept): an earlier run on this machine proved the same files\b)", re.MULTILINE)
AXIOMS = re.compile(r"^axioms (\w+): (.*) (?:reached of|\(\d+ of) the \d+ declared\)?$", re.MULTILINE)


def section(log, crate):
    """What the prover said of a crate in this run."""
    found = re.search(rf"^== {crate}\n(.*?)^rt: {crate} proved$", log, re.MULTILINE | re.DOTALL)
    if not found:
        raise Failed("rt shows nothing of its proof")
    return found[1]


def checked(crate):
    """The same, by `rt check`."""
    done = subprocess.run(["rt", "check"], cwd=ROOT / "crates" / crate, stdin=subprocess.DEVNULL, stdout=subprocess.PIPE,
                          stderr=subprocess.STDOUT, text=True, errors="replace", check=False)
    if done.returncode != 0:
        raise Failed(f"rt check ends with status {done.returncode}: {done.stdout.strip()[-300:]}")
    # the crates below come first: this crate's own last line is the last of its kind
    return re.split(r"^logic=proved .*\n(?=[\s\S]*^logic=proved )", done.stdout, flags=re.MULTILINE)[-1]


def assumes_nothing(crate, said):
    """The contracts that a crate's proof assumes are the ones listed above, or none."""
    ends = [line for line in said.splitlines() if line.startswith("logic=proved ")]
    if len(ends) != 1:
        raise Failed(f"it is said {len(ends)} times that it is proved")
    lines = [line for line in said.splitlines() if line.startswith("axioms ")]
    found = {of: names for of, names in AXIOMS.findall(said) if names != "none"}
    counted = re.search(r" (axioms|foreign)=", ends[0]) is not None
    wanted = ASSUMED.get(crate, {})
    if len(lines) != len(AXIOMS.findall(said)) or found != wanted or counted != bool(wanted):
        raise Failed(f"it assumes {lines or ends[0]}")
    if crate in linked(ROOT) and not lines:
        raise Failed("rt says nothing of what it assumes")


def proved(crate, log):
    """A crate is proved, and assumes nothing."""
    found = [by_this or kept for name, by_this, kept in PROVED.findall(log) if name == crate]
    if len(found) != 1:
        raise Failed(f"rt says {len(found)} times that it is proved")
    if found == ["proved"]:
        assumes_nothing(crate, section(log, crate))
    elif crate in linked(ROOT):
        assumes_nothing(crate, checked(crate))
    return "" if found == ["proved"] else "by an earlier run on this machine, of the same files"


def edit(tried_one, found):
    """One must-fail edit, by its line."""
    said = found.get(tried_one.name, [])
    if len(said) != 1:
        raise Failed(f"rt speaks of it {len(said)} times")
    return refused(said[0])[:120]


def main():
    if not LOG.is_file():
        sys.exit(f"there is no {LOG.relative_to(ROOT)}: run tests/gate/proofs first")
    log = LOG.read_text(errors="replace")
    found = tried(log)
    tally = Tally()
    for crate in crates(ROOT):
        tally.test(f"proof of {crate}", lambda: proved(crate, log))
    for tried_one in edits(ROOT, GATE):
        tally.test(f"edit {tried_one.name}", lambda: edit(tried_one, found))
    return tally.end()


if __name__ == "__main__":
    sys.exit(main())
