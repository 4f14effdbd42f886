#!/usr/bin/env python3
"""Tests that no secret picks a branch or an address.

tests/host/traces.py PLUGIN CALLS: the program (tests/host/trace/calls.c) makes many calls of one kind, with other
keys, data and signatures each time and the same lengths and answer. Under qemu the plugin
(tests/host/trace/trace.c) hashes the addresses of all instructions executed and of all memory used, in
order, and these traces must be the same for all calls of a kind. It is shown first that two functions
which are no good are found out: a comparison that stops early, and a table indexed by a secret.
"""

import pathlib
import shutil
import subprocess
import sys

sys.dont_write_bytecode = True  # nothing is written beside the sources
sys.path[0] = str(pathlib.Path(__file__).resolve().parents[1])  # modules are named from tests/ on
from shared.tally import Failed, Tally  # noqa: E402

CALLS = 1000  # of a kind
CALLS_A_LENGTH = 100
LENGTHS = range(56)  # of messages that are hashed

NO_GOOD = {"a comparison that stops early": "stops_early", "a table indexed by a secret": "looks_up"}
KINDS = [
    "build_root_key",
    "build_session_key",
    "build_increment",
    "build_request",
    "session_key",
    "read_reply_busy",
    "read_reply_failed",
    "read_reply_wrong_tag",
    "read_reply_wrong_signature",
    "read_reply_good",
    "part_wrong_tag",
    "part_wrong_signature",
    "part_good",
    "block",
]


class Tracer:
    """The program under the emulator, with the plugin between its marks."""

    def __init__(self, plugin, calls):
        self.emulator = shutil.which("qemu-x86_64")
        self.calls = calls
        marks = subprocess.run([self.emulator, calls, "marks"], capture_output=True, text=True, check=True)
        self.plugin = f"{plugin},{marks.stdout.strip()}"

    def traces(self, kind, length, count):
        """The traces of so many calls, a line each: hash, instructions, accesses."""
        command = [self.emulator, "-plugin", self.plugin, self.calls, kind, str(length), str(count)]
        done = subprocess.run(command, capture_output=True, text=True, check=False)
        lines = [line.split(" ", 1)[1] for line in done.stderr.splitlines() if line.startswith("trace ")]
        if done.returncode != 0 or len(lines) != count:
            said = (done.stdout + done.stderr).strip()[-300:]
            raise Failed(f"{len(lines)} traces of {count} calls, status {done.returncode}: {said}")
        return lines


def found_out(tracer, kind):
    different = len(set(tracer.traces(kind, 0, CALLS)))
    if different == 1:
        raise Failed(f"all {CALLS} calls have the same trace")
    return f"{different} different traces of {CALLS} calls"


def same(tracer, kind, length, count):
    traces = tracer.traces(kind, length, count)
    odd = [number for number, trace in enumerate(traces) if trace != traces[0]]
    if odd:
        raise Failed(f"{len(odd)} of {count} calls have another trace than the first; the first of them is {odd[0]}")
    return traces[0].split(" ")[1:]


def same_kind(tracer, kind):
    instructions, accesses = same(tracer, kind, 0, CALLS)
    return f"{CALLS} calls, each of {instructions} instructions and {accesses} accesses"


def same_lengths(tracer, kind):
    for length in LENGTHS:
        same(tracer, kind, length, CALLS_A_LENGTH)
    return f"{CALLS_A_LENGTH} calls of each of {len(LENGTHS)} lengths"


def main():
    if len(sys.argv) != 3:
        sys.exit("usage: tests/host/traces.py PLUGIN CALLS")
    tracer, tally = Tracer(*sys.argv[1:]), Tally()
    for title, kind in NO_GOOD.items():
        tally.test(f"found out: {title}", lambda: found_out(tracer, kind))
    for kind in KINDS:
        tally.test(f"same trace: {kind}", lambda: same_kind(tracer, kind))
    for kind in ("hash", "hmac"):
        tally.test(f"same trace: {kind}", lambda: same_lengths(tracer, kind))
    return tally.end()


if __name__ == "__main__":
    sys.exit(main())
