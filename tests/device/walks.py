"""Random requests to the device: images, states, frames and quotas from a seeded generator.

A walk is an image and a state that go from call to call as the calls leave them, and are now and
then replaced. So jobs are met at every step, and also states that no history leads to.
"""

from device.bytes import (
    FRAME_LENGTHS,
    HEADER_LENGTH,
    LENGTHS,
    LONGEST_IMAGE,
    POWER_ON,
    SET,
    SLOT_LENGTH,
    UNSET,
    frame_line,
    get,
    image_of,
    number,
    power_up_line,
    put,
    session_keys,
    slot,
    with_word,
    word_at,
    work_line,
)
from shared.signer import ALL_FF, increment_frame, request_frame, root_key_frame, session_key_frame

STATUSES = (0x00, 0x01, 0x02, 0x04, 0x06, 0x08, 0x10, 0x20, 0x80)
TYPES_OF_KINDS = (0, 0, 0, 0, 1, 2, 3)
MOST = 4294967295


def chance(rng, part):
    return rng.random() < part


# ---- images


def random_key(rng):
    return ALL_FF if chance(rng, 0.2) else rng.randbytes(32)


def random_states(rng):
    """The state words of a slot: in order nine times of ten."""
    if chance(rng, 0.9):
        return rng.choice(((UNSET, UNSET), (UNSET, SET), (SET, SET)))
    one = rng.choice((1, 5, 0x80000000, 0xFFFFFFFE, rng.getrandbits(32)))
    return rng.choice(((SET, UNSET), (one, SET), (UNSET, one), (SET, one), (one, one)))


def random_slot(rng):
    value = rng.choice((0, 7, 0xFFFF, MOST - 1, MOST, MOST, rng.getrandbits(32)))
    return slot(*random_states(rng), value, random_key(rng))


def fault(rng, image):
    """The image with something wrong in its header or its length, most times."""
    place = rng.choice((0, 4, 8, 12))
    near = (word_at(image, place) + rng.choice((-4, -1, 1, 2, 4))) % (1 << 32)
    wrong = rng.choice((near, near, 0, 5, 12, 18, 47, 49, 576, MOST - 3, MOST - 15, rng.getrandbits(32)))
    sort = rng.randrange(4)
    if sort == 0:
        return image[: rng.randrange(len(image))]
    if sort == 1:
        shorter = image[: rng.randrange(HEADER_LENGTH, len(image))]
        return with_word(shorter, 12, len(shorter))
    return with_word(image, place, wrong)


def random_image(rng):
    slots = [random_slot(rng) for _ in range(rng.choice((1, 2, 3, 4, 4)))]
    gap, behind = rng.randbytes(4 * rng.choice((0, 0, 1, 5))), rng.choice((0, 0, 1, 6, 60, 300))
    if chance(rng, 0.003):  # a longest image, or one byte too long
        behind = LONGEST_IMAGE - len(image_of(slots, gap)) + rng.choice((0, 0, 1))
    image = image_of(slots, gap, rng.randbytes(behind))
    while chance(rng, 0.2):
        image = fault(rng, image) if len(image) > HEADER_LENGTH else image
    return image


# ---- frames


def slot_or_none(image, counter):
    """The bytes of a slot, as far as there are such in a faulty image."""
    place = word_at(image, 4) + SLOT_LENGTH * counter
    return image[place : place + SLOT_LENGTH].ljust(SLOT_LENGTH, b"\xff")


def random_counter(rng, image):
    count = image[3] if len(image) > 3 else 0
    return rng.randrange(count) if 1 <= count <= 4 and chance(rng, 0.95) else rng.choice((0, count, 4, 255))


def good_frame(rng, image, state, frame_type, counter):
    """A frame whose signature verifies now, with the counter's value as data most times."""
    ours, key = slot_or_none(image, counter), get(state, f"key{counter % 4}")
    if frame_type == 0:
        return root_key_frame(counter, random_key(rng))
    if frame_type == 1:
        root_key = ALL_FF if word_at(ours, 0) == UNSET else ours[16:]
        return session_key_frame(counter, root_key, rng.randbytes(4))
    if frame_type == 2:
        value = word_at(ours, 8)
        return increment_frame(counter, key, value if chance(rng, 0.8) else rng.choice((0, 7, MOST, value ^ 1)))
    return request_frame(counter, key, rng.randbytes(12))


def random_command(rng, image, state):
    frame_type = rng.randrange(4)
    frame = bytearray(good_frame(rng, image, state, frame_type, random_counter(rng, image)))
    if chance(rng, 0.25):
        place = rng.choice((1, 3, 4, 8, 16, 36, len(frame) - 1, rng.randrange(1, len(frame))))
        frame[place] ^= rng.choice((1, 0x80, 0xFF))
    if chance(rng, 0.04):
        del frame[rng.randrange(1, len(frame)) :]
    if chance(rng, 0.03):
        frame += rng.randbytes(rng.randrange(1, 9))
    return bytes(frame)


def random_frame(rng, image, state):
    if chance(rng, 0.55):
        return random_command(rng, image, state)
    named = (b"\x66", b"\x99", b"\x66", b"\x99", b"\x96" + rng.randbytes(1), b"\x96\x00", b"\x9b", b"")
    if chance(rng, 0.85):
        return rng.choice(named)
    first = rng.choice((b"\x66", b"\x99", b"\x96", b"\x9b", rng.randbytes(1)))
    return first + rng.randbytes(rng.choice((0, 1, 2, 3, rng.randrange(70), FRAME_LENGTHS[rng.randrange(4)] - 1)))


# ---- states


def random_state(rng, image):
    """Any bytes that make a state."""
    kind, frame = rng.randrange(7), rng.randbytes(64)
    keys = [rng.randbytes(32) if chance(rng, 0.8) else None for _ in range(4)]
    state = put(rng.randbytes(len(POWER_ON)), **session_keys(keys))
    counter = random_counter(rng, image)
    step = rng.randrange(LENGTHS[kind]) if chance(rng, 0.9) else rng.choice((LENGTHS[kind], 255, rng.randrange(256)))
    if chance(rng, 0.7):
        step = 0 if chance(rng, 0.3) else step
        frame = good_frame(rng, image, state, TYPES_OF_KINDS[kind], counter).ljust(64, b"\0")
    flags = {name: rng.randrange(2) for name in ("enabled", "job", "reply_there")}
    status = rng.choice(STATUSES) if chance(rng, 0.9) else rng.randrange(256)
    state = put(state, status=status, kind=kind, counter=counter, step=step, frame=frame, **flags)
    if chance(rng, 0.1):  # a key that is not there, with bytes all the same
        state = put(state, key0_there=0, key0=rng.randbytes(32))
    return state


# ---- walks


class Walk:
    """`letter` and `given` are the last request's: the frame, the quota, or None; `output` what was
    lent to the frame call. Image and state are those before it, until it goes on."""

    def __init__(self, rng):
        self.rng = rng
        self.renew()

    def renew(self):
        self.image = random_image(self.rng)
        self.state = random_state(self.rng, self.image) if chance(self.rng, 0.7) else POWER_ON

    def request(self):
        """The line of the next request."""
        rng = self.rng
        if chance(rng, 0.06):
            self.renew()
        elif chance(rng, 0.04):
            self.state = random_state(rng, self.image)
        is_busy = number(self.state, "job") == 1
        self.letter = rng.choices("UFW", (9, 38, 53) if is_busy else (4, 76, 20))[0]
        if self.letter == "U":
            self.given = None
            return power_up_line(self.image)
        if self.letter == "F":
            self.given, self.output = random_frame(rng, self.image, self.state), rng.randbytes(rng.randrange(71))
            if is_busy and chance(rng, 0.4):
                self.given = b"\x99" if number(self.state, "enabled") else b"\x66"
            return frame_line(self.image, self.state, self.given, self.output)
        self.given = rng.choice((1, 1, rng.randrange(21), MOST))
        return work_line(self.image, self.state, self.given)

    def go_on(self, answer):
        """Goes on with the state and the image that the answer gives."""
        self.state = answer.state
        self.image = self.image if answer.image is None else answer.image
        if answer.number != 0 and chance(self.rng, 0.8):
            self.renew()
