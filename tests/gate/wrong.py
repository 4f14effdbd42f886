#!/usr/bin/env python3
"""Shows that the tests of rpmcrun and of the device fail on wrong programs: builds the wrong versions of
the second program (wrong_versions.py) below target/wrong, and hands each to the test script that has to
catch it, as rpmcrun, or as the device beside the right one.

First the right version goes through each of these scripts, in the same way, and has to pass. A wrong version
is caught where its script fails first in the check that it names, and says of two things compared that they
differ. A version that passes, that fails in another check, or that ends or cannot be run is not caught.

tests/gate/wrong.py [WORD]..: only the versions in whose names one of the words stands. It is not part of
tests/run, and needs the second program that tests/run has built; it takes some minutes.
"""

import pathlib
import re
import shutil
import subprocess
import sys

sys.dont_write_bytecode = True  # nothing is written beside the sources
sys.path[0] = str(pathlib.Path(__file__).resolve().parents[1])  # modules are named from tests/ on
from gate.wrong_versions import DEVICE, HISTORIES, VERSIONS  # noqa: E402
from shared.tally import Failed, Tally  # noqa: E402

ROOT = pathlib.Path(__file__).resolve().parents[2]
SECOND = ROOT / "target" / "second" / "second"
LONGEST_NOTE = 200


def edited(text, old, new):
    if text.count(old) != 1:
        raise Failed(f"the edit does not fit: `{old}` stands there {text.count(old)} times")
    return text.replace(old, new)


def build(edit):
    """The wrong version's program."""
    folder = ROOT / "target" / "wrong" / edit.name.replace(" ", "-")
    shutil.rmtree(folder, ignore_errors=True)
    shutil.copytree(ROOT / "second" / "src", folder / "src")
    file = folder / "src" / edit.file
    text = edited(file.read_text(), edit.old, edit.new)
    file.write_text(edited(text, *edit.also) if edit.also else text)
    rustc = ["rustc", "-O", "-A", "warnings", "-o", folder / "second", folder / "src" / "main.rs"]
    done = subprocess.run(rustc, capture_output=True, text=True)
    if done.returncode != 0:
        raise Failed(f"it does not compile: {done.stderr[:800]}")
    return folder / "second"


def command_of(script, program):
    """The words that run a test script on a second program."""
    command = [ROOT / "tests" / script]
    if script == HISTORIES:
        return command + ["--program", f"{program} rpmcrun", "--second", SECOND]
    if script == DEVICE:
        return command + ["--shim", f"{SECOND} device", "--second", program]
    return command + [program, "rpmcrun"]


def passes(script, tests):
    """The right version passes, and each of these tests is made."""
    done = subprocess.run(command_of(script, SECOND), stdout=subprocess.PIPE, stderr=subprocess.DEVNULL, text=True)
    lines = done.stdout.splitlines()
    failures = [line for line in lines if line.startswith("FAIL ")]
    if failures or done.returncode != 0 or not re.fullmatch("[1-9][0-9]* passed, 0 failed", (lines or [""])[-1]):
        raise Failed(f"it ended with status {done.returncode}: {(failures or lines or ['it says nothing'])[-1]}")
    missing = [test for test in tests if not any(f"{line} (".startswith(f"ok {test} (") for line in lines)]
    if missing:
        raise Failed(f"it does not make: {'; '.join(missing)}")
    return f"{lines[-1]}, {len(tests)} of them for wrong versions"


def first_failure(script, program):
    """The first line of a test script that says FAIL, or nothing. The script is ended then."""
    command = command_of(script, program)
    with subprocess.Popen(command, stdout=subprocess.PIPE, stderr=subprocess.DEVNULL, text=True) as running:
        line = next((line for line in running.stdout if line.startswith("FAIL ")), "")
        running.kill()
    return line.rstrip("\n")


def catch(edit, good_scripts):
    check = edit.caught_by
    if check.script not in good_scripts:
        raise Failed(f"{check.script} does not pass the right version")
    line = first_failure(check.script, build(edit))
    if not line:
        raise Failed(f"{check.script} did not catch it")
    if not re.match(f"FAIL {re.escape(check.test)}: {check.says}", line):
        raise Failed(f"not by a difference in `{check.test}`: {line[:LONGEST_NOTE]}")
    return f"{check.script}: {line[:LONGEST_NOTE]}"


def main():
    words = sys.argv[1:]
    chosen = [edit for edit in VERSIONS if not words or any(word in edit.name for word in words)]
    scripts = {}
    for edit in chosen:
        scripts.setdefault(edit.caught_by.script, set()).add(edit.caught_by.test)
    tally, good_scripts = Tally(), set()
    for script, tests in scripts.items():
        failed = tally.failed
        tally.test(f"the right version passes {script}", lambda: passes(script, sorted(tests)))
        good_scripts |= {script} if tally.failed == failed else set()
    for edit in chosen:
        tally.test(f"caught: {edit.name}", lambda: catch(edit, good_scripts))
    return tally.end()


if __name__ == "__main__":
    sys.exit(main())
