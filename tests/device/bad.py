"""Device calls that are refused, and their neighbours that are not: requests with the answers that
document 01 wants. A refused call gives its number and changes nothing."""

import itertools

from device.bytes import (
    HEADER_LENGTH,
    LENGTHS,
    LONGEST_IMAGE,
    POWER_ON,
    REQUEST,
    SLOT_LENGTH,
    WORN,
    busy,
    frame_answer,
    frame_line,
    header,
    image_of,
    pattern,
    power_up_answer,
    power_up_line,
    put,
    slot,
    with_word,
    work_answer,
    work_line,
)
from shared.signer import root_key_frame

COUNT, OFFSET, SIZE, TOTAL = 0, 4, 8, 12  # where the header's words stand
COUNTS = (1, 2, 3, 4)
IMAGES = {count: image_of([slot()] * count, tail=b"\xff" * 8) for count in COUNTS}

FRAMES = [b"", b"\x66", b"\x99", b"\x96\x00", b"\x9b", b"\x9b\x04", b"\x00", root_key_frame(0, pattern(32, 1))]
QUOTAS = (0, 1, 15, 4294967295)
STATES = (WORN, put(WORN, enabled=0), busy(REQUEST, 0, 3))


# ---- calls on one image or state


def refused_calls(refusal, image, state):
    """A frame of each sort and work of several quotas. The read's output stays as well."""
    cases = []
    for frame in FRAMES:
        output = pattern(len(frame) % 7 + 48, 2)
        line = frame_line(image, state, frame, output)
        cases.append((line, frame_answer(refusal, state, image, output)))
    for quota in QUOTAS:
        cases.append((work_line(image, state, quota), work_answer(refusal, 0, state, image)))
    return cases


def refused(refusal, image):
    """All calls; a refused power-up gives the power-on state."""
    cases = [(power_up_line(image), power_up_answer(refusal, POWER_ON))]
    for state in STATES:
        cases += refused_calls(refusal, image, state)
    return cases


def accepted_calls(image, state):
    """The empty frame changes nothing, 66h enables reset, a quota of 0 does no step."""
    output = pattern(5, 2)
    return [
        (frame_line(image, state, b"", output), frame_answer(0, state, image, output)),
        (frame_line(image, state, b"\x66", output), frame_answer(0, put(state, enabled=1), image, output)),
        (work_line(image, state, 0), work_answer(0, 0, state, image)),
    ]


def accepted(image):
    return [(power_up_line(image), power_up_answer(0, POWER_ON))] + accepted_calls(image, WORN)


# ---- groups


def short_images():
    cases = []
    for length in range(21):
        fitting = header(1, HEADER_LENGTH, SLOT_LENGTH, length).ljust(length, b"\xff")[:length]
        cases += refused(1 if length < HEADER_LENGTH else 3, fitting)
        for byte in (b"\x00", b"\xff"):  # here word 3 is not the length
            cases += refused(1, byte * length) if length > 0 else []
    return cases


def long_images():
    cases = []
    for length in (LONGEST_IMAGE - 1, LONGEST_IMAGE, LONGEST_IMAGE + 1):
        offset = (length - 4 * SLOT_LENGTH) // 4 * 4
        image = header(4, offset, SLOT_LENGTH, length).ljust(length, b"\xff")
        cases += refused(1, image) if length > LONGEST_IMAGE else accepted(image)
    cases += refused(1, with_word(image, TOTAL, LONGEST_IMAGE))
    return cases


def wrong_totals():
    cases = []
    for image in IMAGES.values():
        length = len(image)
        for total in (length - 1, length + 1, 0, length << 8, length + (1 << 16), 0xFFFFFFFF):
            cases += refused(1, with_word(image, TOTAL, total))
        cases += refused(1, image[:-1]) + refused(1, image + b"\xff")
    return cases


def wrong_counts():
    counts = (0, 5, 6, 255, 256, 260, 0x01000000, 0x04000000, 0x80000001, 0xFFFFFFFF)
    return [case for count in counts for case in refused(2, with_word(IMAGES[4], COUNT, count))]


def wrong_offsets():
    cases = []
    for count, image in IMAGES.items():
        size = SLOT_LENGTH * count
        near = [(1 << 32) - 4, (1 << 32) - 16, 1 << 31, (1 << 31) - 4, (1 << 16) + 16]
        # in 32 bits the slots would end at 0, 4, 16 and 40
        wrapping = [(1 << 32) - size + end for end in (0, 4, 16, 40)]
        for offset in [0, 4, 8, 12, 13, 14, 15, 17, 18, 19, 21, 22, 23] + near + wrapping:
            cases += refused(3, with_word(image, OFFSET, offset))
    return cases


def wrong_sizes():
    sizes = (0, 1, 12, 16, 44, 47, 49, 52, 96, 192, 304, 576, 0x3000, 0x30000000, 0x80000030, 0xFFFFFFFF)
    return [case for image in IMAGES.values() for size in sizes for case in refused(3, with_word(image, SIZE, size))]


def ends_of_slots():
    """Slots that end past the image, at its end, and before it; so lengths that are not a multiple
    of 4 too, which are accepted."""
    cases = []
    for count in COUNTS:
        for gap in (b"", pattern(4, 1), pattern(40, 1)):
            image = image_of([slot()] * count, gap=gap)
            for less in (1, 2, 3, 4, 47, 48):
                cases += refused(3, with_word(image, TOTAL, len(image) - less)[:-less])
            for more in range(9):
                cases += accepted(with_word(image, TOTAL, len(image) + more) + pattern(more, 1))
    return cases


FAULTS = {
    1: [lambda image: with_word(image, TOTAL, len(image) + 1), lambda image: image[:-1]],
    2: [lambda image: with_word(image, COUNT, 0), lambda image: with_word(image, COUNT, 5)],
    3: [lambda image: with_word(image, OFFSET, 18), lambda image: with_word(image, SIZE, 47)],
}
BAD_STATES = (busy(REQUEST, 9, 0), busy(REQUEST, 0, 8))


def faults_at_once():
    """Two faults or more: the lowest number is given."""
    cases = []
    for numbers in ((1, 2), (1, 3), (2, 3), (1, 2, 3), (1,), (2,), (3,)):
        for faults in itertools.product(*(FAULTS[number] for number in numbers)):
            image = IMAGES[4]
            for fault in reversed(faults):
                image = fault(image)
            cases += refused(min(numbers), image)
            for state in BAD_STATES:
                cases += refused_calls(min(numbers), image, state)
    return cases


def jobs_beyond():
    """A job beyond its length, or of a counter that there is not: every call is refused."""
    cases = []
    for count, image in IMAGES.items():
        for kind, length in enumerate(LENGTHS):
            numbers = [(0, length), (0, length + 1), (count - 1, 255)]
            numbers += [(count, 0), (count + 1, length - 1), (255, 0), (255, 255)]
            for counter, step in numbers:
                cases += refused_calls(4, image, busy(kind, counter, step))
                cases += refused_calls(4, image, put(busy(kind, counter, step), status=0x80, enabled=0))
    return cases


def jobs_inside():
    """The last step and the last counter are accepted; and without a job its numbers mean nothing."""
    cases = []
    for count, image in IMAGES.items():
        for kind, length in enumerate(LENGTHS):
            for counter, step in ((0, 0), (count - 1, 0), (0, length - 1), (count - 1, length - 1)):
                cases += accepted_calls(image, busy(kind, counter, step))
            for counter, step in ((0, length), (count, 0), (255, 255)):
                state = put(busy(kind, counter, step), job=0, status=0x04)
                cases += accepted_calls(image, state)
                cases.append((work_line(image, state, 15), work_answer(0, 0, state, image)))
    return cases


GROUPS = {
    "images of 0 to 20 bytes": short_images,
    "images of 65,535 to 65,537 bytes": long_images,
    "word 3 is not the length": wrong_totals,
    "counts": wrong_counts,
    "offsets": wrong_offsets,
    "slot sizes": wrong_sizes,
    "ends of slots": ends_of_slots,
    "several faults at once": faults_at_once,
    "jobs beyond their length or the count": jobs_beyond,
    "jobs within both, and none": jobs_inside,
}
