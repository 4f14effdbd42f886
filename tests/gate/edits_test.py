#!/usr/bin/env python3
"""Tests that edits.py tells wrong versions apart: it passes an edit that is refused because a fact fails,
and no other. It tries edits of a crate of two lines of code, in a repository of its own."""

import contextlib
import io
import pathlib
import sys
import tempfile

sys.dont_write_bytecode = True  # nothing is written beside the sources
sys.path[0] = str(pathlib.Path(__file__).resolve().parents[1])  # modules are named from tests/ on
from gate.edits import Trial, chosen  # noqa: E402
from shared.tally import Failed, Tally  # noqa: E402

CODE = """\
// Two functions.

#![tactic(auto)]

ghost use Rattle.std.specs.Prelude.{◌≡◌};
ghost use Rattle.small.specs.Small.{same};

pub fn echo(x: usize) -> usize
    ensures { result ≡ same x }
{
    x
}

pub fn seven() -> usize
    ensures { result ≡ 7 }
{
    7
}
"""
SPEC = """\
use Rattle.std.specs.Prelude.{ℕ}

abbrev pub same : ℕ → ℕ
same x = x

abbrev pub twin : ℕ → ℕ
twin x = x
"""
PROOF = """\
use Rattle.std.proofs.Common.{◌≡◌, ℕ}
use mathlib.Core.Path.{refl}
use Rattle.small.specs.Small.{same, twin}

pub twins : (x : ℕ) → twin x ≡ same x
twins x = refl
"""
FILES = {
    "crates.txt": "small:\n",
    "crates/small/src/lib.rt": CODE,
    "crates/small/specs/Lib.antt": "pub mod Small\n",
    "crates/small/specs/Small.antt": SPEC,
    "crates/small/proofs/Lib.antt": "mod Twins\n",
    "crates/small/proofs/Twins.antt": PROOF,
}

# A wrong version: the file, the text that is replaced with the new one, once or more, and what edits.py has to say of it.
VERSIONS = {
    "a_fact_fails": ("src/lib.rt", [("    7", "    8")], "ok small/a_fact_fails (refused: note: src/lib.rt:"),
    "nothing_is_wrong": ("src/lib.rt", [("// Two", "// Both")], "FAIL small/nothing_is_wrong: NOT REFUSED"),
    "the_proof_does_not_fit": ("specs/Small.antt", [("pub twin : ", "pub copy : "), ("twin x = x", "copy x = x")],
                               "FAIL small/the_proof_does_not_fit: the proof file does not fit"),
    "no_such_text": ("src/lib.rt", [("    9", "    8")],
                     "FAIL small/no_such_text: BAD EDIT: an 'old:' text is in src/lib.rt 0 times"),
    "not_a_program": ("src/lib.rt", [("    7", "    7 +")],
                      "FAIL small/not_a_program: BAD EDIT: it did not reach the prover"),
}


def repository(root):
    edits = {f"crates/small/wrong/{label}.edit": f"file: {file}\n" + "".join(f"old: {old}\nnew: {new}\n" for old, new in pairs)
             for label, (file, pairs, _) in VERSIONS.items()}
    for name, text in (FILES | edits).items():
        path = root / name
        path.parent.mkdir(parents=True, exist_ok=True)
        path.write_text(text)


def tried(root):
    """What edits.py prints of this repository."""
    printed = io.StringIO()
    with contextlib.redirect_stdout(printed):
        trial = Trial(root, chosen(root, [], False)[0])
        trial.run()
        trial.summary()
    return printed.getvalue().splitlines()


def has(lines, wanted):
    if not any(line.startswith(wanted) for line in lines):
        raise Failed(f"no line begins with `{wanted}`: {lines}")


def ends(lines, wanted):
    if lines[-1] != wanted:
        raise Failed(f"the last line is `{lines[-1]}`, not `{wanted}`")


def main():
    tally = Tally()
    with tempfile.TemporaryDirectory() as folder:
        root = pathlib.Path(folder)
        repository(root)
        lines = tried(root)
        for label, (_, _, wanted) in VERSIONS.items():
            tally.test(label.replace("_", " "), lambda: has(lines, wanted))
        repeat = "to repeat: tests/gate/edits.py small/no_such_text  # crates/small/wrong/no_such_text.edit, log target/"
        tally.test("a line to repeat what failed", lambda: has(lines, repeat))
        tally.test("the count", lambda: ends(lines, "2 passed, 4 failed"))
        (root / "crates/small/src/lib.rt").write_text(CODE.replace("    7", "    8"))
        lines = tried(root)
        tally.test("a crate that is not proved", lambda: has(lines, "FAIL small as it stands: it is not proved"))
        tally.test("its edits are not tried", lambda: has(lines, f"not tried: {len(VERSIONS)} edits"))
        tally.test("the count then", lambda: ends(lines, "0 passed, 1 failed"))
    return tally.end()


if __name__ == "__main__":
    sys.exit(main())
