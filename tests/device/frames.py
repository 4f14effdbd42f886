"""Single frames on devices of every sort: requests with the answers that document 01 wants, for its
sections "Frames by first byte" and "A taken OP1 frame", checks 1 to 7."""

from device.bytes import (
    COUNTER_ONLY,
    FRAME_LENGTHS,
    INCREMENT,
    KEYS,
    NO_REPLY,
    NOTHING,
    POWER_ON,
    REQUEST,
    ROOT_KEY,
    ROOT_KEY_AND_COUNTER,
    SESSION_KEY,
    SET,
    UNSET,
    WORN,
    busy,
    frame_answer,
    frame_line,
    get,
    image_of,
    number,
    pattern,
    put,
    session_keys,
    slot,
    started,
    taken,
)
from device.talk import UNWRITTEN
from shared.signer import ALL_FF

STORED_KEY = pattern(32, 21)
IN_ORDER = slot(SET, SET, 7, STORED_KEY)
WITHOUT_KEYS = put(WORN, **session_keys([None] * 4))
BUSY = busy(INCREMENT, 0, 2)


def case(image, state, frame, after):
    return frame_line(image, state, frame, UNWRITTEN), frame_answer(0, after, image, UNWRITTEN)


# ---- by first byte


def read_output(state, length):
    if number(state, "job") == 1:
        return b"\x01" * length
    told = get(state, "reply") if number(state, "reply_there") == 1 else b""
    return (get(state, "status") + told)[:length].ljust(length, b"\xff")


def after_idle_or_busy(state, first, rest):
    """What a frame leaves; if it is a taken OP1 frame here, its length or type is wrong."""
    if (first, len(rest)) == (0x66, 0):
        return put(state, enabled=1)
    if (first, len(rest)) == (0x99, 0) and number(state, "enabled") == 1:
        return POWER_ON
    if first == 0x9B and rest and number(state, "job") == 0:
        return taken(state, 0x04)
    return put(state, enabled=0)


def first_bytes():
    image = image_of([IN_ORDER] * 4)
    cases = []
    for state in (WORN, put(WORN, enabled=0), put(WORN, status=0x20, **NO_REPLY), BUSY, put(BUSY, enabled=0)):
        for first in range(256):
            for rest in (b"", b"\x00", b"\x01\x00", b"\x04" * 39, b"\xff" * 63):
                frame = bytes([first]) + rest
                output = UNWRITTEN if (first, len(rest)) != (0x96, 1) else read_output(state, len(UNWRITTEN))
                wanted = frame_answer(0, after_idle_or_busy(state, first, rest), image, output)
                cases.append((frame_line(image, state, frame, UNWRITTEN), wanted))
        cases.append(case(image, state, b"", state))
    return cases


def reads():
    image = image_of([IN_ORDER] * 2)
    statuses = (0x00, 0x02, 0x04, 0x06, 0x08, 0x10, 0x20, 0x80)
    idle = [put(WORN, status=status, **NO_REPLY) for status in statuses]
    cases = []
    for state in [WORN, BUSY, put(BUSY, status=0x80), put(WORN, enabled=0)] + idle:
        for length in list(range(71)) + [256, 1000]:
            before, dummy = pattern(length, 2), bytes([length % 256])
            wanted = frame_answer(0, put(state, enabled=0), image, read_output(state, length))
            cases.append((frame_line(image, state, b"\x96" + dummy, before), wanted))
    return cases


# ---- lengths of OP1 frames

# What frames of the right length leave, by type: a status in digits, or the number of a kind of job.
FRESH = [ROOT_KEY_AND_COUNTER, "02", "08", "08"]
USED = ["02", SESSION_KEY, INCREMENT, REQUEST]


def arrives(image, state, frame, wanted):
    if isinstance(wanted, str):
        return case(image, state, frame, taken(state, int(wanted, 16)))
    return case(image, state, frame, started(image, state, frame, wanted))


def lengths():
    cases = []
    devices = [(image_of([slot()] * 4), WITHOUT_KEYS, FRESH), (image_of([IN_ORDER] * 4), WORN, USED)]
    for image, state, row in devices:
        for frame_type in (0x00, 0x01, 0x02, 0x03, 0x04, 0xFF):
            whole = bytes([0x9B, frame_type, 0x00, 0x00]) + pattern(66, frame_type)
            cases.append(case(image, state, whole[:1], put(state, enabled=0)))
            for length in range(2, 71):
                right = FRAME_LENGTHS.get(frame_type) == length
                cases.append(arrives(image, state, whole[:length], row[frame_type] if right else "04"))
            cases += [case(image, BUSY, whole[:length], put(BUSY, enabled=0)) for length in range(1, 71)]
        cases.append(case(image, state, b"", state))
    return cases


# ---- checks 1 to 7

BAD_SLOTS = [
    (SET, UNSET), (5, UNSET), (5, SET), (UNSET, 5), (SET, 5), (5, 5), (1, SET), (UNSET, 1), (0xFFFFFFFE, SET),
    (UNSET, 0xFFFFFFFE), (0x80000000, SET), (UNSET, 0x7FFFFFFF), (0x0000FFFF, SET), (UNSET, 0xFF000000),
]

# Frames by type and key sent.
SENT = {
    "root key": bytes([0x9B, 0x00, 0x00, 0x00]) + pattern(60, 1),
    "all-FFh key": bytes([0x9B, 0x00, 0x00, 0x00]) + ALL_FF + pattern(28, 1),
    "nearly all-FFh key": bytes([0x9B, 0x00, 0x00, 0x00]) + ALL_FF[:-1] + b"\xfe" + pattern(28, 1),
    "session key": bytes([0x9B, 0x01, 0x00, 0x00]) + pattern(36, 2),
    "increment": bytes([0x9B, 0x02, 0x00, 0x00]) + pattern(36, 3),
    "request": bytes([0x9B, 0x03, 0x00, 0x00]) + pattern(44, 4),
}

# What each of them leaves where nothing else fails: by the states of root and counter, and whether
# there is a session key.
ROWS = {
    (UNSET, UNSET, False): [ROOT_KEY_AND_COUNTER, COUNTER_ONLY, ROOT_KEY_AND_COUNTER, "02", "08", "08"],
    (UNSET, UNSET, True): [ROOT_KEY_AND_COUNTER, COUNTER_ONLY, ROOT_KEY_AND_COUNTER, "02", "08", "08"],
    (UNSET, SET, False): [ROOT_KEY, NOTHING, ROOT_KEY, SESSION_KEY, "08", "08"],
    (UNSET, SET, True): [ROOT_KEY, NOTHING, ROOT_KEY, SESSION_KEY, INCREMENT, REQUEST],
    (SET, SET, False): ["02", "02", "02", SESSION_KEY, "08", "08"],
    (SET, SET, True): ["02", "02", "02", SESSION_KEY, INCREMENT, REQUEST],
}
ROWS |= {(*states, there): ["20"] * 6 for states in BAD_SLOTS for there in (False, True)}


def with_byte(frame, place, byte):
    return frame[:place] + bytes([byte]) + frame[place + 1 :]


def misshapen(frame, count):
    """A frame with each fault of checks 1 to 4, alone and before a later one, and its status."""
    beyond = [with_byte(frame, 2, counter) for counter in (count, count + 1, 128, 255)]
    found = [(one, "06" if frame[1] == 0 else "04") for one in beyond]
    for one in [frame] + beyond:
        found += [(with_byte(one, 3, reserved), "04") for reserved in (0x01, 0x80, 0xFF)]
        found += [(one[:-1], "04"), (one + b"\x00", "04"), (with_byte(one, 1, 0x04), "04")]
    return found


def checks_on_arrival():
    cases = []
    for count in (1, 2, 3, 4):
        counter = count - 1
        for (root, used, there), row in ROWS.items():
            ours = slot(root, used, 7, STORED_KEY)
            image = image_of([IN_ORDER] * counter + [ours], gap=pattern(4 * counter, 1), tail=IN_ORDER * 4)
            keys = [KEYS[i] if (i == counter) == there else None for i in range(4)]
            state = put(WORN, **session_keys(keys))
            for frame, wanted in zip(SENT.values(), row):
                aimed = with_byte(frame, 2, counter)
                cases.append(arrives(image, state, aimed, wanted))
                cases += [arrives(image, state, wrong, status) for wrong, status in misshapen(aimed, count)]
    return cases


GROUPS = {
    "frames by first byte": first_bytes,
    "reads": reads,
    "lengths of OP1 frames": lengths,
    "checks on arrival": checks_on_arrival,
}
