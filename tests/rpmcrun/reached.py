"""What histories of rpmcrun reached, as the model saw it, and what they have to reach.

All that rpmcrun's image allows is here. What it does not allow, and so is no part of this:
- check 5 and with it a bad slot: all slots begin unset, and jobs alone store state words, the
  counter's before the root's, each 0; so root is never set under an unset counter;
- check 10: value FFFFFFFFh would take 4,294,967,295 increments, one after the other;
- so status 20h, which only these two give;
- check 7 by an unset counter that has a session key: a session key needs a set counter, and no
  counter is ever unset again;
- refusals: the image's header never changes, and a job always fits it.
tests/device/compare.py reaches these on images and states of its own.
"""

from device.bytes import KIND_NAMES, SESSION_KEY
from device.interruptions import interruptions
from rpmcrun.lines import SORTS
from rpmcrun.model import COUNTERS
from shared.coverage import Coverage

ROOT_KEY_KINDS = KIND_NAMES[:4]
FAILING_LENGTHS = [8 if kind == SESSION_KEY else 4 for kind in range(len(KIND_NAMES))]


def failing_status(name):
    return "02" if name in ROOT_KEY_KINDS else "04"


def checks():
    names = ["1"] + [f"{check}, type {sort:02X}" for check in (2, 3, 4) for sort in range(4)]
    names += ["6, type 00", "6, type 01"]
    names += [f"7, type {sort:02X}, {why}" for sort in (2, 3) for why in ("counter unset", "no session key")]
    return names + [f"8, {name}" for name in KIND_NAMES] + ["9, increment", "none fails"]


def faults_at_once():
    """Two faults in a frame, neighbours in the list of checks for its type."""
    names = []
    for sort, ready in ((0x00, 6), (0x01, 6), (0x02, 7), (0x03, 7)):  # the check that asks for the slot's state
        pairs = [(2, 3), (2, 4), (2, ready), (3, 4), (3, ready), (3, 8), (ready, 8)]
        pairs += [(3, 9), (8, 9)] if sort == 0x02 else []
        names += [f"{one} before {other}, type {sort:02X}" for one, other in pairs]
    return names


def ended_jobs():
    names = [f"{name} {status}" for name in KIND_NAMES for status in ("80", failing_status(name))] + ["increment 10"]
    return [f"{name}, counter {counter}" for name in names for counter in range(COUNTERS)]


STAY_RESET = ("nothing", "S", "?", "66")
NO_RESET = ("P", "R", "96 xx", "9B alone", "9B.. while busy", "9B.. taken", "99", "other")

# What must be reached, by title.
WANTED = {
    "lines": list("PFSR?"),
    "statuses": ["00", "01", "02", "04", "06", "08", "10", "80"],
    "checks": checks(),
    "faults at once": faults_at_once(),
    "jobs begun": list(KIND_NAMES),
    "jobs ended": ended_jobs(),
    "interruptions": interruptions(),
    "interruptions of jobs that would fail": interruptions(FAILING_LENGTHS),
    "steps done": [str(steps) for steps in range(16)] + ["idle"],
    "reads": [f"{sort}, {size}" for sort in ("busy", "reply", "no reply") for size in ("1", "2 to 49", "above 49")],
    "frame lengths": ["1", "2", "3 to 39", "40", "41 to 47", "48", "49 to 63", "64", "65 to 255", "256"],
    "between 66 and 99": [f"{what}: reset" for what in STAY_RESET] + [f"{what}: none" for what in NO_RESET],
    "other lines": list(SORTS),
    "ends of input": ["no line"] + [f"{last}, {end}" for last in ("a line", "?") for end in ("newline", "no newline")],
}


class Reached(Coverage):
    """What histories reached, as the model tells it."""

    def __init__(self):
        super().__init__(WANTED, is_complete=True)
