"""Document 01's rules for a device call that does no step: the refusals with their causes, checks 1 to
7, and the whole answer to a call that is refused or a frame that is taken."""

from device.bytes import (
    COUNTER_ONLY, FRAME_LENGTHS, HEADER_LENGTH, INCREMENT, LENGTHS, LONGEST_IMAGE, NOTHING, POWER_ON, REQUEST,
    ROOT_KEY, ROOT_KEY_AND_COUNTER, SESSION_KEY, SET, SLOT_LENGTH, UNSET, frame_answer, number, power_up_answer,
    slot_place, started, taken, word_at, work_answer,
)
from shared.signer import ALL_FF

# ---- refusals

CAUSES = {
    1: ("shorter than 16 bytes", "longer than 65,536", "word 3 is not the length"),
    2: ("count 0", "count above 4"),
    3: ("offset below 16", "offset no multiple of 4", "slot size not 48", "slots past the end"),
    4: ("counter not below the count", "step not below the length"),
}


def causes_of(refusal, tests):
    return [(refusal, cause) for cause, is_so in zip(CAUSES[refusal], tests) if is_so]


def image_faults(image):
    """What is wrong with an image: numbers with causes, in order, as far as there are words to look at."""
    if len(image) < HEADER_LENGTH:
        return [(1, "shorter than 16 bytes")]
    count, offset, size, total = (word_at(image, place) for place in (0, 4, 8, 12))
    wrong = {
        1: (False, len(image) > LONGEST_IMAGE, total != len(image)),
        2: (count == 0, count > 4),
        3: (
            offset < HEADER_LENGTH, offset % 4 != 0, size != SLOT_LENGTH, offset + SLOT_LENGTH * count > len(image),
        ),
    }
    return [pair for refusal, tests in wrong.items() for pair in causes_of(refusal, tests)]


def faults(image, state):
    """The same for an image and a state that are handed in together."""
    found = image_faults(image)
    if len(image) < HEADER_LENGTH or number(state, "job") == 0:
        return found
    tests = (
        number(state, "counter") >= word_at(image, 0),
        number(state, "step") >= LENGTHS[number(state, "kind")],
    )
    return found + causes_of(4, tests)


def refusal_of(found):
    """The number that is given for these faults."""
    return found[0][0] if found else 0


# ---- checks 1 to 7


def badness(root, counter):
    """What makes a slot bad, or nothing."""
    if root not in (SET, UNSET):
        return "root state neither"
    if counter not in (SET, UNSET):
        return "counter state neither"
    return "root set alone" if (root, counter) == (SET, UNSET) else ""


def why_not_ready(counter, has_key):
    """What a frame of type 02 or 03 misses, or nothing."""
    if counter == UNSET:
        return "counter unset" if has_key else "both"
    return "" if has_key else "no session key"


def arrival_check(image, state, frame):
    """The first failing check of 1 to 7: its number, its status, and its case; or None."""
    sort, count = frame[1], word_at(image, 0)
    of_type = f", type {sort:02X}"
    if sort > 0x03:
        return 1, 0x04, ""
    if len(frame) != FRAME_LENGTHS[sort]:
        return 2, 0x04, of_type
    if frame[3] != 0:
        return 3, 0x04, of_type
    if frame[2] >= count:
        return 4, 0x06 if sort == 0x00 else 0x04, of_type
    root, counter = (word_at(image, slot_place(image, frame[2]) + at) for at in (0, 4))
    bad = badness(root, counter)
    if bad:
        return 5, 0x20, f"{of_type}, {bad}"
    if (sort == 0x00 and root == SET) or (sort == 0x01 and counter == UNSET):
        return 6, 0x02, of_type
    missing = why_not_ready(counter, number(state, f"key{frame[2]}_there") == 1)
    if sort >= 0x02 and missing:
        return 7, 0x08, f"{of_type}, {missing}"
    return None


def kind_of(image, frame):
    if frame[1] != 0x00:
        return (SESSION_KEY, INCREMENT, REQUEST)[frame[1] - 1]
    stores_key, unset = frame[4:36] != ALL_FF, word_at(image, slot_place(image, frame[2]) + 4) == UNSET
    if stores_key:
        return ROOT_KEY_AND_COUNTER if unset else ROOT_KEY
    return COUNTER_ONLY if unset else NOTHING


# ---- answers


def is_taken(walk):
    return walk.letter == "F" and walk.given[:1] == b"\x9b" and len(walk.given) > 1 and number(walk.state, "job") == 0


def wanted_answer(walk):
    """The whole answer where it is a refusal or a frame that is taken, else None."""
    image, state = walk.image, walk.state
    if walk.letter == "U":
        return power_up_answer(refusal_of(image_faults(image)), POWER_ON)
    refused = refusal_of(faults(image, state))
    if refused and walk.letter == "W":
        return work_answer(refused, 0, state, image)
    if refused:
        return frame_answer(refused, state, image, walk.output)
    if not is_taken(walk):
        return None
    failing = arrival_check(image, state, walk.given)
    if failing is None:
        after = started(image, state, walk.given, kind_of(image, walk.given))
    else:
        after = taken(state, failing[1])
    return frame_answer(0, after, image, walk.output)
