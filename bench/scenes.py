"""The scenes of the device's benchmark, in the lines that device.c reads; the tests' signer signs the frames."""

import sys
from dataclasses import dataclass
from pathlib import Path

sys.path.append(str(Path(__file__).resolve().parents[1] / "tests"))  # behind this folder: only the signer is from there
from shared.signer import (  # noqa: E402
    ALL_FF,
    increment_frame,
    request_frame,
    root_key_frame,
    session_key_frame,
    signature,
    signed_frame,
    signed_reply,
)

ROOT_KEY = bytes(range(32))
KEY_DATA = bytes(range(0x20, 0x24))
TAG = bytes(range(0x40, 0x4C))
HIGHEST = 0xFFFFFFFF

DONE, BUSY = 0x80, 0x01

SESSION_KEY = signature(ROOT_KEY, KEY_DATA)
REPLY = bytes([DONE]) + signed_reply(SESSION_KEY, TAG + bytes(4))


def root_key(key, counter=0):
    return root_key_frame(counter, key)


def session_key(counter=0):
    return session_key_frame(counter, ROOT_KEY, KEY_DATA)


def increment(value):
    return increment_frame(0, SESSION_KEY, value)


def request():
    return request_frame(0, SESSION_KEY, TAG)


def reserved_byte_1(frame):
    """The frame as it would be signed if its reserved byte were 1."""
    return signed_frame(SESSION_KEY, frame[:3] + b"\x01" + frame[4:])


def spoiled(frame):
    """The frame with one bit of its signature wrong."""
    return frame[:-1] + bytes([frame[-1] ^ 1])


def line(frame):
    return f"F {frame.hex()}"


def work(quota):
    return f"S {quota:02}"


# What a call starts from. The counter of PAIRED is 0; that of WITHOUT_ROOT is set and root is not.
FRESH = ["P"]
PAIRED = FRESH + [line(root_key(ROOT_KEY)), work(15)]
SESSION = PAIRED + [line(session_key()), work(8)]
ANSWERED = SESSION + [line(request()), work(8)]
WITHOUT_ROOT = FRESH + [line(root_key(ALL_FF)), work(6)]
AT_HIGHEST = SESSION + [f"W 08 {HIGHEST:08x}"]
BAD_SLOT = SESSION + ["W 00 00000005"]
AT_WORK = FRESH + [line(root_key(ROOT_KEY)), work(2)]


@dataclass
class Job:
    """A job and its steps in order: a hash step is named by its HMAC, a store by what it stores."""

    title: str
    before: list
    frame: bytes
    steps: list

    def lines(self):
        return self.before + [line(self.frame)]


SENT = ["type 00, signature"] * 4
MADE = ["type 01, new session key"] * 4
UPDATED = ["type 01, signature"] * 4
INCREMENTED = ["type 02, signature"] * 4
ASKED = ["type 03, signature"] * 4
REPLIED = ["type 03, reply"] * 4
HMACS = [names[0] for names in (SENT, MADE, UPDATED, INCREMENTED, ASKED, REPLIED)]

KEY_WORDS = ["a key word"] * 8
COUNTER_WORDS = ["value 0", "counter state 0"]
ROOT_WORD = ["root state 0"]
VALUE_WORD = ["the next value"]
STORES = ["a key word", "value 0", "counter state 0", "root state 0", "the next value"]

KEY_AND_COUNTER = "type 00, key and counter"
JOBS = [
    Job(KEY_AND_COUNTER, FRESH, root_key(ROOT_KEY), SENT + KEY_WORDS + COUNTER_WORDS + ROOT_WORD),
    Job("type 00, key alone", WITHOUT_ROOT, root_key(ROOT_KEY), SENT + KEY_WORDS + ROOT_WORD),
    Job("type 00, counter alone", FRESH, root_key(ALL_FF), SENT + COUNTER_WORDS),
    Job("type 00, nothing to store", WITHOUT_ROOT, root_key(ALL_FF), SENT),
    Job("type 01", PAIRED, session_key(), MADE + UPDATED),
    Job("type 02", SESSION, increment(0), INCREMENTED + VALUE_WORD),
    Job("type 03", SESSION, request(), ASKED + REPLIED),
]


@dataclass
class Failing:
    """A job that fails one of checks 8 to 10: in which step, and the status that it posts."""

    title: str
    before: list
    frame: bytes
    step: int
    status: int

    def lines(self):
        return self.before + [line(self.frame)]


FAILING = [
    Failing("type 00, bad signature", FRESH, spoiled(root_key(ROOT_KEY)), 4, 0x02),
    Failing("type 01, bad signature", PAIRED, spoiled(session_key()), 8, 0x04),
    Failing("type 02, bad signature", SESSION, spoiled(increment(0)), 4, 0x04),
    Failing("type 02, not the value", SESSION, increment(HIGHEST), 4, 0x10),
    Failing("type 02, the highest value", AT_HIGHEST, increment(HIGHEST), 4, 0x20),
    Failing("type 03, bad signature", SESSION, spoiled(request()), 4, 0x04),
]


@dataclass
class Call:
    """A call that is no step, the status that it leaves, and what a read puts out."""

    title: str
    before: list
    call: str
    status: int
    output: bytes = b""


def taken(title, before, frame, status):
    return Call(title, before, line(frame), status)


REFUSED = [
    taken("check 1, type 04", SESSION, b"\x9b\x04" + bytes(38), 0x04),
    taken("check 2, type 01 of 39 bytes", SESSION, session_key()[:-1], 0x04),
    taken("check 3, reserved byte 1", SESSION, reserved_byte_1(session_key()), 0x04),
    taken("check 4, type 00, counter 1", SESSION, root_key(ROOT_KEY, counter=1), 0x06),
    taken("check 4, type 01, counter 1", SESSION, session_key(counter=1), 0x04),
    taken("check 5, type 03, bad slot", BAD_SLOT, request(), 0x20),
    taken("check 6, type 00, root set", PAIRED, root_key(ROOT_KEY), 0x02),
    taken("check 6, type 01, counter unset", FRESH, session_key(), 0x02),
    taken("check 7, type 02, counter unset", FRESH, increment(0), 0x08),
    taken("check 7, type 03, no session key", PAIRED, request(), 0x08),
]

SHORT = [
    Call("66h", SESSION, "F 66", DONE),
    Call("99h, enabled", SESSION + ["F 66"], "F 99", 0x00),
    Call("99h, not enabled", SESSION, "F 99", DONE),
    Call("an empty frame", SESSION, "F", DONE),
    Call("9Bh alone", SESSION, "F 9b", DONE),
    Call("type 01 while busy", AT_WORK, line(session_key()), BUSY),
]

READS = [
    Call("a read of 49 bytes, with a reply", ANSWERED, "F 9600", DONE, REPLY),
    Call("a read of 49 bytes, without", SESSION, "F 9600", DONE, bytes([DONE]) + bytes([0xFF] * 48)),
    Call("a read of 49 bytes, busy", AT_WORK, "F 9600", BUSY, bytes([BUSY] * 49)),
]

IDLE_WORK = Call("work, idle", SESSION, work(15), DONE)
POWER_UP = Call("power-up", SESSION, "P", 0x00)
