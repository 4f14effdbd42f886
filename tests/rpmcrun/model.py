"""Document 01's rpmcrun as a model that knows whole frames only, and no step of a job.

What a frame comes to that finds the device idle is worked out on its arrival, after the document's
list of checks, and happens when as many steps are done as the document counts for it. So a device
that works in steps, and the model, are two ways to the same answers. What happens on the way is told
to `reached`.
"""

import dataclasses
import re

from device.bytes import (
    COUNTER_ONLY,
    FRAME_LENGTHS,
    INCREMENT,
    KIND_NAMES,
    LENGTHS,
    NOTHING,
    REQUEST,
    ROOT_KEY,
    ROOT_KEY_AND_COUNTER,
    SESSION_KEY,
    word,
)
from device.interruptions import interruption
from shared.signer import ALL_FF, signature, signed_reply

COUNTERS = 4
MOST = 0xFFFFFFFF
# The bytes of a frame that are signed, by type. Not the signer's table: what a host signs and what a device
# checks are read from document 01 twice, so that a mistake in one shows.
SIGNED = (4, 8, 8, 16)
LENGTHS_NAMED = (1, 2, 40, 48, 64, 256)
SETS_COUNTER = 14  # the steps of the 15 after which the counter is set

LINE = re.compile(rb"(P)|F ((?:[0-9A-F]{2}){1,256})|S (0|[1-9][0-9]{0,2})|R ([1-9][0-9]{0,2})")


@dataclasses.dataclass
class Counter:
    """A counter as the document compares it: a value while it is set, a key while root is set."""

    value: int | None = None
    root_key: bytes | None = None
    session_key: bytes | None = None

    @property
    def key_in_use(self):
        return self.root_key or ALL_FF


@dataclasses.dataclass
class Job:
    """A frame that passed checks 1 to 7, with what it will come to: the first failing check of 8 to
    10, or 0, and its status, after how many steps."""

    frame: bytes
    kind: int
    check: int
    status: int
    done: int = 0

    @property
    def length(self):
        if self.check == 0:
            return LENGTHS[self.kind]
        return 8 if self.kind == SESSION_KEY else 4


class Model:
    """The program between two lines."""

    def __init__(self, reached):
        self.reached = reached
        self.counters = [Counter() for _ in range(COUNTERS)]
        self.since_enabled = None  # what came since a 66h, until a 99h
        self.restart()

    def restart(self):
        self.status, self.reply, self.enabled, self.job = 0x00, b"", False, None
        for counter in self.counters:
            counter.session_key = None

    # ---- lines

    def answer(self, line):
        parts = LINE.fullmatch(line)
        power, frame, quota, length = parts.groups() if parts else [None] * 4
        if power:
            return self.power_up()
        if frame:
            return self.frame(bytes.fromhex(frame.decode()))
        if quota and int(quota) <= 255:
            return self.work(int(quota))
        if length and int(length) <= 256:
            return self.read(int(length))
        self.reached.note("lines", "?")
        self.between("?")
        return b"?"

    def power_up(self):
        self.reached.note("lines", "P")
        self.between("P")
        self.interrupt("power-up")
        return b"P 0"

    def frame(self, frame):
        self.reached.note("lines", "F")
        self.reached.note("frame lengths", length_name(len(frame)))
        self.take(frame)
        return b"F 0"

    def work(self, quota):
        self.reached.note("lines", "S")
        self.between("S")
        job, done = self.job, 0
        if job is not None:
            done = min(quota, job.length - job.done)
            job.done += done
            if job.done == job.length:
                self.end(job)
        self.reached.note("steps done", f"{done}" if job is not None else "idle")
        return b"S 0 %d" % done

    def read(self, length):
        self.reached.note("lines", "R")
        self.between("R")
        self.enabled = False
        if self.job is not None:
            told, sort = b"\x01" * length, "busy"
        else:
            told, sort = bytes([self.status]) + self.reply, "reply" if self.reply else "no reply"
        size = "1" if length == 1 else "2 to 49" if length <= 49 else "above 49"
        self.reached.note("reads", f"{sort}, {size}")
        self.reached.note("statuses", f"{told[0]:02X}")
        return b"R 0 " + told[:length].ljust(length, b"\xff").hex().upper().encode()

    # ---- frames by first byte

    def take(self, frame):
        enabled, self.enabled = self.enabled, False
        if frame == b"\x66":
            self.since_enabled = {"66"} if enabled else set()
            self.enabled = True
        elif frame == b"\x99":
            self.note_reset(enabled)
            if enabled:
                self.interrupt("reset")
        elif frame[0] != 0x9B or len(frame) < 2:
            self.between("9B alone" if frame[0] == 0x9B else "96 xx" if is_read(frame) else "other")
        elif self.job is not None:
            self.between("9B.. while busy")
        else:
            self.between("9B.. taken")
            self.arrive(frame)

    def between(self, what):
        if self.since_enabled is not None:
            self.since_enabled.add(what)

    def note_reset(self, enabled):
        """What stood between a 66h and this 99h, where it was one sort of thing."""
        if self.since_enabled is not None and len(self.since_enabled) < 2:
            what = "".join(self.since_enabled) or "nothing"
            self.reached.note("between 66 and 99", f"{what}: {'reset' if enabled else 'none'}")
        self.since_enabled = {"99"} if enabled else None

    # ---- a frame that finds the device idle

    def arrive(self, frame):
        self.reply = b""
        failing = list(self.failing(frame))
        check, status = failing[0] if failing else (0, 0x80)
        if len(failing) > 1:
            self.reached.note("faults at once", f"{check} before {failing[1][0]}, type {frame[1]:02X}")
        if 1 <= check <= 7:
            self.status = status
            self.reached.note("checks", self.check_name(check, frame))
        else:
            self.job = Job(frame, self.kind_of(frame), check, status)
            self.reached.note("jobs begun", KIND_NAMES[self.job.kind])

    def failing(self, frame):
        """The checks that a frame fails, with their statuses, as far as it has what they look at. The
        first decides. There is no check 5: no slot of this image ever gets bad, as a counter's state
        is stored before its root's."""
        sort = frame[1]
        if sort > 0x03:
            yield 1, 0x04
            return
        is_whole = len(frame) == FRAME_LENGTHS[sort]
        if not is_whole:
            yield 2, 0x04
        if frame[3:4] > b"\x00":
            yield 3, 0x04
        if len(frame) < 3 or frame[2] >= COUNTERS:
            yield 4, 0x06 if sort == 0x00 else 0x04
            return
        counter = self.counters[frame[2]]
        if (sort == 0x00 and counter.root_key) or (sort == 0x01 and counter.value is None):
            yield 6, 0x02
        if sort >= 0x02 and (counter.value is None or counter.session_key is None):
            yield 7, 0x08
        if is_whole and not self.is_signed(frame, counter):
            yield 8, 0x02 if sort == 0x00 else 0x04
        if is_whole and sort == 0x02 and frame[4:8] != word(counter.value or 0):
            yield 9, 0x10
        if is_whole and sort == 0x02 and counter.value == MOST:
            yield 10, 0x20

    @staticmethod
    def is_signed(frame, counter):
        key = counter.session_key
        if frame[1] <= 0x01:
            key = signature(counter.key_in_use, frame[4:8]) if frame[1] == 0x01 else frame[4:36]
        if key is None:
            return False
        right = signature(key, frame[: SIGNED[frame[1]]])
        return frame[36:] == right[-28:] if frame[1] == 0x00 else frame[-32:] == right

    def kind_of(self, frame):
        if frame[1] != 0x00:
            return (SESSION_KEY, INCREMENT, REQUEST)[frame[1] - 1]
        unset = self.counters[frame[2]].value is None
        if frame[4:36] == ALL_FF:
            return COUNTER_ONLY if unset else NOTHING
        return ROOT_KEY_AND_COUNTER if unset else ROOT_KEY

    def check_name(self, check, frame):
        """The name of a check of 1 to 7 that failed, with what tells its cases apart."""
        if check == 1:
            return "1"
        name = f"{check}, type {frame[1]:02X}"
        if check != 7:
            return name
        return f"{name}, {'counter unset' if self.counters[frame[2]].value is None else 'no session key'}"

    # ---- the end of a job

    def end(self, job):
        self.job, self.status = None, job.status
        name = KIND_NAMES[job.kind]
        self.reached.note("checks", f"{job.check}, {name}" if job.check else "none fails")
        self.reached.note("jobs ended", f"{name} {job.status:02X}, counter {job.frame[2]}")
        if job.check == 0:
            self.carry_out(job.frame)

    def carry_out(self, frame):
        """What a frame without a failing check changes."""
        counter = self.counters[frame[2]]
        if frame[1] == 0x00:
            counter.value = counter.value or 0
            if frame[4:36] != ALL_FF:
                counter.root_key = frame[4:36]
        elif frame[1] == 0x01:
            counter.session_key = signature(counter.key_in_use, frame[4:8])
        elif frame[1] == 0x02:
            counter.value += 1
        else:
            self.reply = signed_reply(counter.session_key, frame[4:16] + word(counter.value))

    def interrupt(self, way):
        """A reset or a power-up: a job is dropped, but a counter that its own steps set stays set."""
        job = self.job
        if job is not None:
            title = "interruptions" if job.check == 0 else "interruptions of jobs that would fail"
            self.reached.note(title, interruption(job.kind, job.done, way))
            if (job.check, job.kind, job.done) == (0, ROOT_KEY_AND_COUNTER, SETS_COUNTER):
                self.counters[job.frame[2]].value = 0
        self.restart()


def is_read(frame):
    return frame[0] == 0x96 and len(frame) == 2


def length_name(length):
    """The lengths that mean something, and what is between them."""
    between = ((39, "3 to 39"), (47, "41 to 47"), (63, "49 to 63"), (255, "65 to 255"))
    if length in LENGTHS_NAMED:
        return str(length)
    return next(name for most, name in between if length <= most)
