#!/usr/bin/env python3
"""Tests the program rpmcrun over pipes against the scope document: its session, its examples at the
edges, and which lines it takes.

tests/rpmcrun/examples.py COMMAND: each row of the table below is the history of a program of its own, a line
and its answer at a time, so an answer that is not sent at once fails. Frames are signed with
Python's own hmac. P12 (value FFFFFFFFh) and P13 (root state 5) need an image that no such history
reaches, and are not here. The P of a name is the document's; rows without one stand there unmarked.
"""

import pathlib
import sys

sys.dont_write_bytecode = True  # nothing is written beside the sources
sys.path[0] = str(pathlib.Path(__file__).resolve().parents[1])  # modules are named from tests/ on
from rpmcrun.talk import FIRST_LINE, at_once, converse, expect  # noqa: E402
from shared.signer import (  # noqa: E402
    ALL_FF,
    increment_frame,
    request_frame,
    root_key_frame,
    session_key_frame,
    signature,
    signed_reply,
)
from shared.tally import Tally  # noqa: E402

SESSION_INPUT = ["P", "R 2", "F 9B07", "S 3", "R 1", "F 66", "F 99", "R 1"]
SESSION_OUTPUT = """\
counters 4
P 0
R 0 00FF
F 0
S 0 0
R 0 04
F 0
F 0
R 0 00
"""


KEY = bytes(range(0x20, 0x40))
DATA = bytes.fromhex("00112233")
TAG = b"dappleteg 12"
FF_SESSION_KEY = signature(ALL_FF, DATA)


# ---- parts of histories: a line and its answer


def sent(frame):
    return [("F " + frame.hex().upper(), "F 0")]


def status_is(status):
    return [("R 1", f"R 0 {status}")]


def refused_on_arrival(frame, status):
    """The status stands at once, and there is no step to do."""
    return sent(frame) + status_is(status) + [("S 255", "S 0 0")] + status_is(status)


def ends(frame, steps, status):
    """Busy until the last of its steps is done."""
    before = [(f"S {steps - 1}", f"S 0 {steps - 1}")] + status_is("01")
    return sent(frame) + status_is("01") + before + [("S 255", "S 0 1")] + status_is(status)


def cut(frame, steps):
    return sent(frame) + [(f"S {steps}", f"S 0 {steps}")] + status_is("01") + [("P", "P 0")] + status_is("00")


def root_unset_and_value_is(counter, value):
    """The counter is set at a value and the root is unset: session keys come from the FFh key."""
    reply = b"\x80" + signed_reply(FF_SESSION_KEY, TAG + value.to_bytes(4, "big"))
    return (
        ends(session_key_frame(counter, ALL_FF, DATA), 8, "80")
        + ends(request_frame(counter, FF_SESSION_KEY, TAG), 8, "80")
        + [("R 49", "R 0 " + reply.hex().upper())]
    )


def both_unset(counter):
    """No session key without a counter; and a root key write has all 15 steps to do."""
    return refused_on_arrival(session_key_frame(counter, ALL_FF, DATA), "02") + ends(
        root_key_frame(counter, KEY), 15, "80"
    )


def seven_increments(counter):
    frames = [increment_frame(counter, FF_SESSION_KEY, value) for value in range(7)]
    return [pair for frame in frames for pair in ends(frame, 5, "80")]


# ---- the table

SET_BY_FF_KEY = ends(root_key_frame(1, ALL_FF), 6, "80")

ROWS = [
    ("the session, a line at a time", list(zip(SESSION_INPUT, SESSION_OUTPUT.splitlines()[1:]))),
    (
        "P1 9B alone: status stays",
        sent(b"\x9b") + status_is("00") + sent(b"\x9b\x07") + status_is("04") + sent(b"\x9b") + status_is("04"),
    ),
    ("P2 9B 00: 04h", refused_on_arrival(b"\x9b\x00", "04")),
    ("P3 9B 04: 04h", refused_on_arrival(b"\x9b\x04", "04")),
    ("P4 type 00, 64 bytes, counter 4: 06h", refused_on_arrival(root_key_frame(4, KEY), "06")),
    ("P5 type 01, 40 bytes, counter 4: 04h", refused_on_arrival(session_key_frame(4, ALL_FF, DATA), "04")),
    ("type 00, 63 bytes, counter 4: 04h", refused_on_arrival(root_key_frame(4, KEY)[:63], "04")),
    ("P6 type 01, counter unset: 02h", refused_on_arrival(session_key_frame(0, ALL_FF, DATA), "02")),
    (
        "P7 type 03, counter set, no session key: 08h",
        SET_BY_FF_KEY + refused_on_arrival(request_frame(1, FF_SESSION_KEY, TAG), "08"),
    ),
    (
        "P8 type 00 on a set root: 02h, no steps",
        ends(root_key_frame(2, KEY), 15, "80") + refused_on_arrival(root_key_frame(2, KEY), "02"),
    ),
    ("P9 good type 00, all unset: 01h after 14 steps, 80h after 15", ends(root_key_frame(3, KEY), 15, "80")),
    (
        "P10 the same cut after 14: counter set at 0, root unset",
        cut(root_key_frame(0, KEY), 14)
        + root_unset_and_value_is(0, 0)
        + ends(root_key_frame(0, KEY), 13, "80"),
    ),
    ("P10 cut after 13: neither set", cut(root_key_frame(0, KEY), 13) + both_unset(0)),
    (
        "P11 good all-FFh key, root unset, counter set at 7: 80h after 4, still 7",
        SET_BY_FF_KEY
        + root_unset_and_value_is(1, 0)
        + seven_increments(1)
        + ends(root_key_frame(1, ALL_FF), 4, "80")
        + root_unset_and_value_is(1, 7),
    ),
    (
        "P14 66, 96 00, 99: no reset",
        sent(b"\x9b\x07") + sent(b"\x66") + sent(b"\x96\x00") + sent(b"\x99") + status_is("04"),
    ),
    (
        "idle after a failure, read of 52 bytes, also where a reply was",
        sent(b"\x9b\x07") + [("R 52", "R 0 04" + "FF" * 51)]
        + SET_BY_FF_KEY + root_unset_and_value_is(1, 0)
        + sent(b"\x9b\x07") + [("R 52", "R 0 04" + "FF" * 51)],
    ),
    (
        "the ends of the ranges",
        sent(b"\x66") + sent(b"\x9b\x07" + bytes(254)) + status_is("04")
        + [("R 256", "R 0 04" + "FF" * 255), ("S 0", "S 0 0"), ("S 255", "S 0 0")],
    ),
    (
        "any other line",
        [(line, "?") for line in (
            "", " ", "P ", " P", "p", "P 0", "PP", "Q", "?", "F", "F ", "F  66", "F 66 ", " F 66", "F\t66", "F66",
            "f 66", "F 6", "F 669", "F 9b", "F 0x66", "F 6G", "F -", "F " + "00" * 257, "S", "S ", "S 256", "S -1",
            "S +1", "S 1.0", "S 01", "S 00", "S A", "S 4294967296", "S 18446744073709551616", "S 1 ", "s 1", "R",
            "R ", "R 0", "R 257", "R -1", "R +1", "R 01", "R 65792", "R 4294967297", "R 1\r", "P\r", "R 1 1",
            "S " + "0" * 600, "F " + "66" * 100_000,
        )]
        + status_is("00"),
    ),
]


# ---- running them


def say_all(command, text, wanted):
    expect("output", at_once(command, text.encode(), len(wanted)), wanted.encode())


def main():
    command = sys.argv[1:]
    if not command:
        sys.exit("usage: tests/rpmcrun/examples.py COMMAND")
    tally = Tally()
    for name, history in ROWS:
        pairs = [(line.encode(), wanted.encode()) for line, wanted in history]
        tally.test(f"rpmcrun: {name}", lambda: converse(command, pairs))
    whole = "\n".join(SESSION_INPUT)
    tally.test("rpmcrun: the session, at once", lambda: say_all(command, whole + "\n", SESSION_OUTPUT))
    tally.test("rpmcrun: its last line without newline", lambda: say_all(command, whole, SESSION_OUTPUT))
    tally.test("rpmcrun: no input", lambda: say_all(command, "", FIRST_LINE.decode() + "\n"))
    return tally.end()


if __name__ == "__main__":
    sys.exit(main())
