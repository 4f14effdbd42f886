#!/usr/bin/env python3
"""Tests the command that a user runs, `./run`, with the first session of README.md.

tests/rpmcrun/command.py --host SHIM COMMAND: the lines that the README gives to `./run` are given to COMMAND,
and what it prints has to be what the README shows. The frames in them have to be those that the
host's C library builds (SHIM, tests/host/shim.c) of the keys, data and tag that the README names, and
the reply one that it reads as good.
"""

import pathlib
import re
import shlex
import subprocess
import sys

sys.dont_write_bytecode = True  # nothing is written beside the sources
sys.path[0] = str(pathlib.Path(__file__).resolve().parents[1])  # modules are named from tests/ on
from shared.programs import Program, expect  # noqa: E402
from shared.tally import Failed, Tally  # noqa: E402

README = pathlib.Path(__file__).resolve().parents[2] / "README.md"
SESSION = re.compile(r"    \$ \./run <<'END'\n((?:    .*\n)*?)    END\n((?:    .*\n)*)")
NAMED = r"{} `([0-9A-F]+)`"

FRAME_SIZES = {"00": 64, "01": 40, "02": 40, "03": 48}


def unindented(block):
    return [line[4:] for line in block.splitlines()]


def session():
    """What the README gives to the program, and what it shows."""
    found = SESSION.search(README.read_text())
    if not found:
        raise Failed("README.md has no session of ./run")
    return unindented(found.group(1)), unindented(found.group(2))


def named(what):
    """The bytes that the README names, as digits."""
    found = re.search(NAMED.format(what), README.read_text())
    if not found:
        raise Failed(f"README.md names no {what}")
    return found.group(1)


def printed_as_shown(command):
    given, shown = session()
    text = "".join(line + "\n" for line in given).encode()
    done = subprocess.run(command, input=text, capture_output=True, timeout=900)
    if done.returncode != 0:
        raise Failed(f"it ended with status {done.returncode}: {done.stderr.decode(errors='replace').strip()}")
    answers = done.stdout.decode(errors="replace").splitlines()
    if len(answers) != len(shown):
        raise Failed(f"it prints {len(answers)} lines, not {len(shown)}")
    expect("./run", ["the start"] + given, answers, shown)
    return f"{len(given)} lines"


def built_by_the_host(host):
    """Each frame of the session, built again from the README's words."""
    root_key, key_data, value, tag = (named(what) for what in ("root key", "key data", "value", "tag"))
    session_key = host.ask_lines([f"K {root_key} {key_data} {'00' * 32}"])[0].split()[1]
    data = {"00": (root_key, "-"), "01": (root_key, key_data), "02": (session_key, value), "03": (session_key, tag)}
    frames = [line[2:] for line in session()[0] if line.startswith("F 9B")]
    lines = []
    for frame in frames:
        key, given = data[frame[2:4]]
        lines.append(f"B {int(frame[2:4])} 0 {key} {given} {'00' * FRAME_SIZES[frame[2:4]]}")
    if {frame[2:4] for frame in frames} != set(data):
        raise Failed("the session has not all four types of frame")
    expect("the host's library", lines, host.ask_lines(lines), ["0 " + frame for frame in frames])
    reply = next(line.split()[2] for line in session()[1] if len(line) == len("R 0 ") + 2 * 49)
    verdict = host.ask_lines([f"V {session_key} {tag} {reply}"])
    expect("the host's library", ["the reply"], verdict, ["0 good 0 00000001"])
    return f"{len(frames)} frames"


def main():
    if len(sys.argv) < 4 or sys.argv[1] != "--host":
        sys.exit(__doc__)
    host = Program("the host's library", shlex.split(sys.argv[2]))
    tally = Tally()
    tally.test("README: the frames are the host's", lambda: built_by_the_host(host))
    tally.test("README: ./run prints what is shown", lambda: printed_as_shown(sys.argv[3:]))
    return tally.end()


if __name__ == "__main__":
    sys.exit(main())
