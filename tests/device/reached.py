"""What random device requests reached, and what they have to reach: everything that document 01 names,
as images and states of any sort can be handed in."""

from device.bytes import (
    HEADER_LENGTH,
    INCREMENT,
    KIND_NAMES,
    LONGEST_IMAGE,
    REQUEST,
    SESSION_KEY,
    SLOT_LENGTH,
    number,
    slot_place,
    word_at,
)
from device.interruptions import interruption, interruptions
from device.rules import CAUSES, arrival_check, faults, image_faults, is_taken, wanted_answer
from device.talk import expect
from shared.coverage import Coverage

# The statuses that a failed check of 8 to 10 posts, by kind of job.
FAILING = {kind: (0x02,) for kind in range(4)}
FAILING |= {SESSION_KEY: (0x04,), INCREMENT: (0x04, 0x10, 0x20), REQUEST: (0x04,)}
CHECK_OF_STATUS = {0x02: 8, 0x04: 8, 0x10: 9, 0x20: 10}

VALUES = (0, 0xFFFF, 0xFFFFFFFE)  # incremented: no byte wraps, two do, and the highest that can be


def all_checks():
    names = ["1"] + [f"{check}, type {sort:02X}" for check in (2, 3, 4) for sort in range(4)]
    bad = ("root state neither", "counter state neither", "root set alone")
    names += [f"5, type {sort:02X}, {how}" for sort in range(4) for how in bad] + ["6, type 00", "6, type 01"]
    names += [f"7, type {sort:02X}, {why}" for sort in (2, 3) for why in ("counter unset", "no session key", "both")]
    names += [f"{CHECK_OF_STATUS[status]}, {KIND_NAMES[kind]}" for kind in FAILING for status in FAILING[kind]]
    return names + ["none fails"]


# What must be reached, by title.
WANTED = {
    "refusals": [f"{letter} {n}" for letter in "UFW" for n in range(4 if letter == "U" else 5)],
    "refused for one cause alone": [cause for causes in CAUSES.values() for cause in causes],
    "images": [f"{count} counters" for count in range(1, 5)] + [
        "offset 16", "another offset", "nothing behind the last slot", "bytes behind the last slot", "65,536 bytes",
        "a length that is no multiple of 4",
    ],
    "statuses": [f"{status:02X}" for status in (0x00, 0x01, 0x02, 0x04, 0x06, 0x08, 0x10, 0x20, 0x80)],
    "checks": all_checks(),
    "jobs begun": list(KIND_NAMES),
    "jobs ended": [f"{KIND_NAMES[k]} {s:02X}" for k, failing in FAILING.items() for s in (0x80, *failing)],
    "interruptions": interruptions(),
    "values incremented": [f"{value:08X}" for value in VALUES] + ["another"],
    "steps done": [str(steps) for steps in range(16)],
    "reads": ["busy", "reply", "no reply"],
    "resets": ["done idle", "done busy", "not enabled"],
    "frames while busy": ["9B", "other"],
}


class Answer:
    """An answer by its parts; image, steps and output are None where there are none."""

    def __init__(self, letter, line):
        first, *fields = line.split(" ")
        self.number = int(first)
        self.steps = int(fields.pop(0)) if letter == "W" else None
        parts = [bytes.fromhex("" if field == "-" else field) for field in fields] + [None, None]
        self.state, self.image, self.output = parts[:3]


class Reached(Coverage):
    """What answers reached. Hand-made states have statuses of any sort, so there may be other names."""

    def __init__(self):
        super().__init__(WANTED, is_complete=False)

    def take(self, walk, line, text):
        """Checks an answer as far as the rules go, counts it, and gives its parts."""
        wanted = wanted_answer(walk)
        if wanted is not None:
            expect("both programs, unlike document 01: the library", line, text, wanted)
        answer = Answer(walk.letter, text)
        self.note("refusals", f"{walk.letter} {answer.number}")
        if answer.number != 0:
            self.note_refusal(walk)
            return answer
        self.note("statuses", f"{answer.state[0]:02X}")
        self.note_image(walk.image)
        if walk.letter == "U":
            self.note_interruption(walk, "power-up")
        elif walk.letter == "F":
            self.note_frame(walk, answer)
        else:
            self.note_work(walk, answer)
        return answer

    def note_refusal(self, walk):
        found = image_faults(walk.image) if walk.letter == "U" else faults(walk.image, walk.state)
        if len(found) == 1:
            self.note("refused for one cause alone", found[0][1])

    def note_image(self, image):
        count, offset = word_at(image, 0), word_at(image, 4)
        behind = len(image) - offset - SLOT_LENGTH * count
        self.note("images", f"{count} counters")
        self.note("images", "offset 16" if offset == HEADER_LENGTH else "another offset")
        self.note("images", "bytes behind the last slot" if behind else "nothing behind the last slot")
        if len(image) == LONGEST_IMAGE:
            self.note("images", "65,536 bytes")
        if len(image) % 4:
            self.note("images", "a length that is no multiple of 4")

    def note_interruption(self, walk, way):
        if number(walk.state, "job") == 1 and not faults(walk.image, walk.state):
            kind, step = (number(walk.state, name) for name in ("kind", "step"))
            self.note("interruptions", interruption(kind, step, way))

    def note_frame(self, walk, answer):
        frame, was_busy = walk.given, number(walk.state, "job") == 1
        if is_taken(walk):
            failing = arrival_check(walk.image, walk.state, frame)
            if failing:
                self.note("checks", f"{failing[0]}{failing[2]}")
            else:
                self.note("jobs begun", KIND_NAMES[number(answer.state, "kind")])
        elif frame == b"\x99":
            done = "done busy" if was_busy else "done idle"
            self.note("resets", done if number(walk.state, "enabled") else "not enabled")
            if number(walk.state, "enabled"):
                self.note_interruption(walk, "reset")
        elif frame[:1] == b"\x96" and len(frame) == 2:
            idle = "reply" if number(walk.state, "reply_there") else "no reply"
            self.note("reads", "busy" if was_busy else idle)
        elif was_busy and frame:
            self.note("frames while busy", "9B" if frame[0] == 0x9B else "other")

    def note_work(self, walk, answer):
        self.note("steps done", str(answer.steps))
        if number(walk.state, "job") == 0 or number(answer.state, "job") == 1:
            return
        kind, status = number(walk.state, "kind"), answer.state[0]
        self.note("jobs ended", f"{KIND_NAMES[kind]} {status:02X}")
        self.note("checks", f"{CHECK_OF_STATUS[status]}, {KIND_NAMES[kind]}" if status != 0x80 else "none fails")
        if kind == INCREMENT and status == 0x80:
            value = word_at(answer.image, slot_place(answer.image, number(walk.state, "counter")) + 8) - 1
            self.note("values incremented", f"{value:08X}" if value in VALUES else "another")
