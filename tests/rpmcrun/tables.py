"""Whole ranges in histories of rpmcrun: every length of a read, of a frame, every quota, every type and
first byte, what may stand between 66h and 99h, many increments, and every sort of other line."""

import itertools
import random

from device.bytes import pattern, word
from rpmcrun.history import History
from rpmcrun.lines import SORTS
from shared.signer import (
    ALL_FF, increment_frame, request_frame, root_key_frame, session_key_frame, signature, signed_frame,
)

KEY = pattern(32, 71)
DATA = pattern(4, 72)
TAG = pattern(12, 73)
SESSION_KEY = signature(ALL_FF, DATA)
WRONG_KEY = root_key_frame(3, KEY)[:-1] + b"\x00"  # a job of four steps that changes nothing
INCREMENTS = 300  # so that the value's last byte wraps
LINES_OF_A_SORT = 25


def with_session(name, reached):
    """A history in which counter 0 is set and has a session key; root is not set."""
    history = History(name, reached)
    history.run(root_key_frame(0, ALL_FF))
    history.run(session_key_frame(0, ALL_FF, DATA))
    return history


def reads(reached):
    """Every length while busy, with a reply, without one after a failure, and after power-up."""
    history = with_session("reads", reached)
    for frame, steps in ((WRONG_KEY, 3), (request_frame(0, SESSION_KEY, TAG), 8), (b"\x9b\x07", 0)):
        history.power_up()
        history.run(session_key_frame(0, ALL_FF, DATA))
        history.frame(frame)
        history.work(steps)
        for length in range(1, 257):
            history.read(length)
    history.power_up()
    for length in range(1, 257):
        history.read(length)
    return history


def quotas(reached):
    """Every quota, idle, and on a job that has four steps or, every third time, eight."""
    history = with_session("quotas", reached)
    for quota in range(256):
        history.work(quota)
        history.frame(WRONG_KEY if quota % 3 else request_frame(0, SESSION_KEY, TAG))
        history.work(quota)
        history.read(1)
        history.work(255)
        history.read(49)
    return history


def frame_lengths(reached):
    """Frames of every length, by the first bytes that mean something and one that does not."""
    history = with_session("lengths of frames", reached)
    fronts = [bytes([0x9B, sort]) for sort in range(5)] + [b"\x96", b"\x66", b"\x99", b"\x05"]
    for length in range(1, 257):
        for first in fronts:
            history.frame(first.ljust(length, b"\x00")[:length])
            history.work(255)
            history.read(1)
    return history


def first_bytes(reached):
    """Every first byte with one byte and two, after 66h and before 99h, with a reply to lose; and every
    type, reserved byte and counter number of command frames."""
    history = with_session("first bytes", reached)
    request, increment = request_frame(0, SESSION_KEY, TAG), increment_frame(0, SESSION_KEY, 1)
    for byte in range(256):
        for frame in (bytes([byte]), bytes([byte, 0x00]), bytes([byte, 0x00, 0x00])):
            history.run(session_key_frame(0, ALL_FF, DATA))
            history.run(request)
            for each in (b"\x66", frame, b"\x99"):
                history.frame(each)
            history.read(49)
        for at in (1, 2, 3):
            for sound in (root_key_frame(0, ALL_FF), session_key_frame(0, ALL_FF, DATA), increment, request):
                history.run(sound[:at] + bytes([byte]) + sound[at + 1 :])
                history.read(1)
    return history


def faults_at_once(reached):
    """Every set of faults of a frame of each type, for a counter that is unset, one without a session
    key, one with, and one with root set: the first failing check decides."""
    history = with_session("faults at once", reached)
    history.run(root_key_frame(1, ALL_FF))
    history.run(root_key_frame(3, KEY))
    for counter, sort in itertools.product(range(4), (0x03, 0x02, 0x01, 0x00)):
        for faults in itertools.product((False, True), repeat=5):
            history.run(faulty(counter, sort, faults))
            history.read(1)
    return history


def faulty(counter, sort, faults):
    """A frame with some of five faults: data, reserved byte, counter, signature, length."""
    data, reserved, beyond, signed, length = faults
    head = bytes([0x9B, sort, 9 if beyond else counter, 1 if reserved else 0])
    rest = (b"", DATA, word(9 if data else 0), TAG)[sort]
    key = (ALL_FF[1:] + b"\x00", signature(ALL_FF, DATA), SESSION_KEY, SESSION_KEY)[sort]
    frame = signed_frame(key, head + (key if sort == 0x00 else rest))
    frame = frame[:-1] + bytes([frame[-1] ^ signed])
    return frame[:-1] if length else frame


def between_66_and_99(reached):
    """One thing and two, idle and busy: which of them lets the reset happen."""
    history = with_session("between 66 and 99", reached)
    things = (b"", b"?", b"P", b"R 1", b"S 0", b"S 1", b"S 255", b"F 66", b"F 99", b"F 9600", b"F 96", b"F 9B", b"F 00")
    things += (b"F 9B07", b"F " + WRONG_KEY.hex().upper().encode(), b"F 6600", b"F 9900", b"F 960000", b"f 66")
    for busy in (False, True):
        for one in things:
            for other in things:
                history.frame(WRONG_KEY if busy else b"\x9b\x07")
                history.frame(b"\x66")
                history.say(one)
                history.say(other)
                history.frame(b"\x99")
                history.read(1)
                history.work(255)
    return history


def increments(reached):
    """Two counters in turns, with a request now and then; the same increment again is refused."""
    history = with_session("increments", reached)
    history.run(root_key_frame(2, KEY))
    history.run(session_key_frame(2, KEY, DATA))
    session_keys = {0: SESSION_KEY, 2: signature(KEY, DATA)}
    for value in range(INCREMENTS):
        for counter, session_key in session_keys.items():
            history.run(increment_frame(counter, session_key, value))
            history.read(1)
            if value % 16 == 0 or value in (255, 256, 257):
                history.run(increment_frame(counter, session_key, value))
                history.read(1)
                history.run(request_frame(counter, session_key, TAG))
                history.read(49)
    return history


def other_lines(reached):
    """Every sort of other line, idle with a reply, enabled, and busy: it changes nothing."""
    rng, history = random.Random(1), with_session("other lines", reached)
    request = request_frame(0, SESSION_KEY, TAG)
    for name, sort in SORTS.items():
        for number in range(LINES_OF_A_SORT):
            history.run(session_key_frame(0, ALL_FF, DATA))
            if number % 3 == 0:
                history.frame(WRONG_KEY)
            else:
                history.run(request)
            history.frame(b"\x66")
            if history.say(sort(rng)) == b"?":
                reached.note("other lines", name)
            history.frame(b"\x99" if number % 3 == 1 else b"\x66")
            history.work(255)
            history.read(49)
    return history


def ends(reached):
    """Inputs that end after each sort of line, with and without the last newline; and no input."""
    histories = [History("no input", reached).end(newline=True)]
    for last in (b"P", b"F 66", b"F " + b"00" * 256, b"S 255", b"R 256", b"", b"Q", b"F " + b"0" * 513, b"P" * 70_000):
        for newline in (True, False):
            history = History(f"ends with {last[:8]!r}, {'newline' if newline else 'no newline'}", reached)
            history.read(1)
            history.say(last)
            histories.append(history.end(newline))
    return histories


TABLES = (reads, quotas, frame_lengths, first_bytes, faults_at_once, between_66_and_99, increments, other_lines)


def all_tables(reached):
    return [table(reached).end(newline=True) for table in TABLES]
