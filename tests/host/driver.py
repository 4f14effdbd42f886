#!/usr/bin/env python3
"""Tests that the scenes of examples/session.c fail where the device is wrong.

tests/host/driver.py SESSION COMMAND..: the session is run with devices that tell one status in the place of
another (tests/host/relay.py, over rpmcrun, which the command runs). For each, the check that is named here has
to fail, and so has the session as a whole. With the card of the incident nothing else may fail: the driver goes
on with it, and says so.
"""

import pathlib
import shlex
import subprocess
import sys

sys.dont_write_bytecode = True  # nothing is written beside the sources
sys.path[0] = str(pathlib.Path(__file__).resolve().parents[1])  # modules are named from tests/ on
from shared.tally import Failed, Tally  # noqa: E402

RELAY = pathlib.Path(__file__).resolve().parent / "relay.py"
PATIENCE = 120  # seconds for a session

# What the wrong device does: the status, the one told in its place, the check that fails.
WRONG = {
    "a lost session key told as done": ("08", "80", "power dip: under a renewed session key"),
    "a wrong signature told as a lost session key": ("04", "08", "copied card: it gets no session"),
    "a wrong signature told as done": ("04", "80", "copied card: it gets no session"),
    "an unset counter told as a wrong signature": ("02", "04", "a card that was never paired is told"),
    "a missing counter told as a wrong signature": ("06", "04", "missing counter: a session"),
    "busy told as done": ("01", "80", "pairing"),
    "busy told as the power-on state": ("01", "00", "pairing"),
}

# The card of the incident: a lost session key told as a wrong signature.
INCIDENT = ("08", "04", "power dip: no renewal was odd")


def run(session, command, status, other):
    relayed = session + [sys.executable, str(RELAY), status, other] + command
    return subprocess.run(relayed, capture_output=True, text=True, timeout=PATIENCE)


def fails(session, command, status, other, check):
    done = run(session, command, status, other)
    lines = done.stdout.splitlines() or ["nothing"]
    if done.returncode != 1 or f"FAIL {check}" not in lines:
        last = f"status {done.returncode}, the last line: {lines[-1]} {done.stderr[-200:]}"
        raise Failed(f"`{check}` does not fail; {last}")
    return lines[-1]


def fails_alone(session, command, status, other, check):
    lines = run(session, command, status, other).stdout.splitlines()
    failed = [line for line in lines if line.startswith("FAIL")]
    if failed != [f"FAIL {check}"]:
        raise Failed(f"these fail: {failed}")
    return lines[-1]


def main():
    if len(sys.argv) < 3:
        sys.exit("usage: tests/host/driver.py SESSION COMMAND..")
    session, command, tally = shlex.split(sys.argv[1]), sys.argv[2:], Tally()
    for title, wrong in WRONG.items():
        tally.test(f"a wrong device fails: {title}", lambda: fails(session, command, *wrong))
    tally.test("the card of the incident: told, and nothing else", lambda: fails_alone(session, command, *INCIDENT))
    return tally.end()


if __name__ == "__main__":
    sys.exit(main())
