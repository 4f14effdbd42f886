#!/usr/bin/env python3
"""Compares two implementations of the device, the library (through its shim) and the second program,
and both with what document 01 says.

The same requests go to both, and their answers must be the same, byte for byte. First come the calls
that are refused, single frames, the document's examples and every kind of job step by step: their
answers are also compared with what the document wants, worked out in the tests. Then random
requests; last, coverage: it fails if something that document 01 names was not reached, as
reached.py lists it. A run is fixed by its seed, which is printed.
"""

import hashlib
import pathlib
import random
import sys

sys.dont_write_bytecode = True  # nothing is written beside the sources
sys.path[0] = str(pathlib.Path(__file__).resolve().parents[1])  # modules are named from tests/ on
from device import bad, examples, frames, steps  # noqa: E402
from device.bytes import POWER_ON, digits, image_of, put, slot  # noqa: E402
from device.reached import Reached  # noqa: E402
from device.talk import expect_same, try_cases, try_histories  # noqa: E402
from device.walks import Walk  # noqa: E402
from hash.blocks import after_first_block  # noqa: E402
from shared.programs import Comparison  # noqa: E402
from shared.tally import Failed, Tally  # noqa: E402

WALKS = 5000

HISTORIES = {
    "the document's examples": examples.examples,
    "what a job keeps": examples.kept,
    "jobs, one step a call": steps.all_step_by_step,
    "jobs, in two calls": steps.all_in_two_calls,
    "jobs, cut by a power-up after each step": lambda: steps.all_cuts("power-up"),
    "jobs, cut by a reset after each step": lambda: steps.all_cuts("reset"),
}


def compare_blocks(rng):
    """The tests' own first block, against hashlib: a padded message of at most 55 bytes is one."""
    messages = [rng.randbytes(length) for length in range(56)]
    for message in messages:
        block = message + b"\x80" + bytes(55 - len(message)) + (8 * len(message)).to_bytes(8, "big")
        if after_first_block(block) != hashlib.sha256(message).digest():
            raise Failed(f"another digest of {message.hex()}")
    return f"{len(messages)} messages"


def no_requests():
    """Lines that are no request, each answered by `?`."""
    image, state = digits(image_of([slot()])), digits(POWER_ON)
    lines = ["", " ", "U", "U ", "U 0", "U 9b", "U 0G", " U -", "U - ", "U - -", "UU -", "u -", "X -", "F", "W"]
    lines += [f"F {image} {state} 66", f"F {image} {state} 66 - -", f"F {image} {state} 6 -", f"F {image} - 66 -"]
    lines += [f"F - {state} 66 g", f"F {image} {state[:-2]} 66 -", f"F {image} {state}00 66 -", f"F  {state} 66 -"]
    for quota in ("", "-", "-1", "+1", "01", "00", "A", "1 ", "4294967296", "18446744073709551617", "1.0"):
        lines.append(f"W {image} {state} {quota}")
    flags = ("enabled", "job", "reply_there", "key0_there", "key1_there", "key2_there", "key3_there")
    for name, value in [(flag, value) for flag in flags for value in (2, 255)] + [("kind", 7), ("kind", 255)]:
        wrong = digits(put(POWER_ON, **{name: value}))
        lines += [f"F {image} {wrong} - -", f"W {image} {wrong} 1"]
    return [(line, "?") for line in lines]


def compare_random(programs, rng, count, reached):
    """Goes on with every walk by one request at a time, until there are enough."""
    walks = [Walk(rng) for _ in range(min(WALKS, count))]
    asked = 0
    while asked < count:
        lines = [walk.request() for walk in walks]
        first, second = [program.ask_lines(lines) for program in programs]
        expect_same(programs, lines, first, second)
        for walk, line, text in zip(walks, lines, first):
            walk.go_on(reached.take(walk, line, text))
        asked += len(lines)
    if asked == 0:
        raise Failed("there was no such request")
    return f"{asked} requests"


def main():
    given = Comparison(__doc__, "device", 120_000, "random requests")
    programs, tally, reached = (given.library, given.second), Tally(), Reached()
    rng = random.Random(given.seed)
    tally.test("the tests' own block of SHA-256", lambda: compare_blocks(rng))
    for name, cases in (bad.GROUPS | frames.GROUPS).items():
        tally.test(name, lambda: try_cases(programs, cases()))
    for name, histories in HISTORIES.items():
        tally.test(name, lambda: try_histories(programs, histories()))
    tally.test("lines that are no request", lambda: try_cases(programs, no_requests()))
    tally.test("random requests", lambda: compare_random(programs, rng, given.count, reached))
    reached.test(tally)
    return tally.end()


if __name__ == "__main__":
    sys.exit(main())
