"""Images, states and lines of the device tests: their bytes, laid out as document 01 and
second/src/state_bytes.rs say."""

from shared.signer import ALL_FF

SET, UNSET = 0x00000000, 0xFFFFFFFF

HEADER_LENGTH, SLOT_LENGTH = 16, 48
LONGEST_IMAGE = 65_536

# The kinds of job by number, and their lengths in steps (document 01, "Steps").
ROOT_KEY_AND_COUNTER, ROOT_KEY, COUNTER_ONLY, NOTHING, SESSION_KEY, INCREMENT, REQUEST = range(7)
KIND_NAMES = ("root key and counter", "root key", "counter only", "nothing", "session key", "increment", "request")
LENGTHS = (15, 13, 6, 4, 8, 5, 8)

# The types of OP1 frames, with their lengths.
FRAME_LENGTHS = {0x00: 64, 0x01: 40, 0x02: 40, 0x03: 48}


# ---- images


def word(number):
    return number.to_bytes(4, "big")


def word_at(data, place):
    return int.from_bytes(data[place : place + 4], "big")


def with_word(data, place, number):
    return data[:place] + word(number) + data[place + 4 :]


def header(count, offset, size, total):
    return word(count) + word(offset) + word(size) + word(total)


def slot(root=UNSET, counter=UNSET, value=UNSET, key=ALL_FF):
    return word(root) + word(counter) + word(value) + word(UNSET) + key


def image_of(slots, gap=b"", tail=b""):
    """An image with bytes between header and first slot, and behind the last slot."""
    offset = HEADER_LENGTH + len(gap)
    total = offset + SLOT_LENGTH * len(slots) + len(tail)
    return header(len(slots), offset, SLOT_LENGTH, total) + gap + b"".join(slots) + tail


def slot_place(image, counter):
    return word_at(image, 4) + SLOT_LENGTH * counter


def root_key_in_use(image, counter):
    place = slot_place(image, counter)
    return ALL_FF if word_at(image, place) == UNSET else image[place + 16 : place + 48]


# ---- states


def places():
    """The parts of a state in order, by name: where each begins, and its length."""
    parts = [("status", 1), ("enabled", 1), ("job", 1), ("kind", 1), ("counter", 1), ("step", 1), ("kept", 4)]
    parts += [("reply_there", 1), ("reply", 48)]
    for counter in range(4):
        parts += [(f"key{counter}_there", 1), (f"key{counter}", 32)]
    parts += [("chain", 32), ("inner", 32), ("frame", 64), ("root", 32), ("made", 32)]
    start, found = 0, {}
    for name, length in parts:
        found[name] = (start, length)
        start += length
    return found


PLACES = places()
STATE_LENGTH = 383


def put(state, **parts):
    """The state with some parts changed; each is its bytes, or a number."""
    changed = bytearray(state)
    for name, value in parts.items():
        start, length = PLACES[name]
        data = value.to_bytes(length, "big") if isinstance(value, int) else value
        if len(data) != length:
            raise ValueError(f"{name} has {length} bytes, not {len(data)}")
        changed[start : start + length] = data
    return bytes(changed)


def get(state, name):
    """A part of a state: its bytes."""
    start, length = PLACES[name]
    return state[start : start + length]


def number(state, name):
    """A part of a state as a number."""
    return int.from_bytes(get(state, name), "big")


# What is not there has one form in these bytes: no reply is zeros, no job the kind "nothing" and zeros.
NO_REPLY = {"reply_there": 0, "reply": 0}
NO_JOB = {"job": 0, "kind": NOTHING} | dict.fromkeys(
    ("counter", "step", "kept", "inner", "frame", "root", "made"), 0
)
POWER_ON = put(bytes(STATE_LENGTH), **NO_JOB)


def pattern(length, start):
    """Bytes of which no two neighbours are alike, other ones for each start."""
    return bytes((start + 37 * at) % 256 for at in range(length))


def session_keys(keys):
    """The parts of a state that are its session keys; None where there is none."""
    parts = {}
    for counter, key in enumerate(keys):
        parts |= {f"key{counter}_there": int(key is not None), f"key{counter}": key or 0}
    return parts


# An idle state after a good request: each part has something to lose.
KEYS = [pattern(32, 11 + counter) for counter in range(4)]
WORN = put(
    POWER_ON, status=0x80, enabled=1, reply_there=1, reply=pattern(48, 3), chain=pattern(32, 5), **session_keys(KEYS)
)


def busy(kind, counter, step, state=WORN):
    """A state with a job of any numbers."""
    kept = {"kept": 0x01020304, "inner": pattern(32, 6), "frame": pattern(64, 7), "root": pattern(32, 8)}
    return put(state, status=0x01, job=1, kind=kind, counter=counter, step=step, made=pattern(32, 9), **kept)


def taken(state, status):
    """The state after an OP1 frame is taken with a status: the reply is forgotten."""
    return put(state, status=status, enabled=0, **NO_REPLY)


def started(image, state, frame, kind):
    """The state after a frame that becomes a job: the frame and the root key in use are kept."""
    kept = {"frame": frame.ljust(64, b"\0"), "root": root_key_in_use(image, frame[2])}
    numbers = {"job": 1, "kind": kind, "counter": frame[2], "step": 0}
    return put(taken(state, 0x01), kept=0, inner=0, made=0, **numbers, **kept)


# ---- lines


def digits(data):
    return data.hex().upper() or "-"


def power_up_line(image):
    return f"U {digits(image)}"


def frame_line(image, state, frame, output):
    return f"F {digits(image)} {digits(state)} {digits(frame)} {digits(output)}"


def work_line(image, state, quota):
    return f"W {digits(image)} {digits(state)} {quota}"


def power_up_answer(refusal, state):
    return f"{refusal} {digits(state)}"


def frame_answer(refusal, state, image, output):
    return f"{refusal} {digits(state)} {digits(image)} {digits(output)}"


def work_answer(refusal, steps, state, image):
    return f"{refusal} {steps} {digits(state)} {digits(image)}"


# The fields of an answer, by the request's letter.
ANSWER_FIELDS = {
    "U": ("number", "state"),
    "F": ("number", "state", "image", "output"),
    "W": ("number", "steps", "state", "image"),
}
