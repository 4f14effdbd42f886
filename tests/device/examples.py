"""Document 01's examples at the edges, P1 to P14 and the two unmarked ones, as calls of the device;
and what a job keeps while the image changes under it. Histories with the answers that it wants."""

import functools

from device.bytes import (
    INCREMENT,
    KEYS,
    NO_REPLY,
    POWER_ON,
    SET,
    UNSET,
    WORN,
    busy,
    get,
    image_of,
    number,
    pattern,
    put,
    slot,
    slot_place,
    taken,
    with_word,
    word,
)
from device.jobs import VALUE_PLACE, job_of
from device.talk import Device
from shared.signer import (
    ALL_FF,
    increment_frame,
    request_frame,
    root_key_frame,
    session_key_frame,
    signature,
    signed_reply,
)

KEY = pattern(32, 51)
DATA = pattern(4, 53)
TAG = pattern(12, 54)
MOST = 4294967295

FRESH = image_of([slot()] * 4)
IDLE = put(POWER_ON, status=0x80, chain=pattern(32, 1))


def with_slot(counter, *parts):
    return image_of([slot()] * counter + [slot(*parts)] + [slot()] * (3 - counter))


# ---- the examples


def on_arrival(image, state, frame, status):
    """The status is there at once, there is no step to do, and an older reply is not shown."""
    device = Device(image, state)
    yield from device.frame(frame, taken(state, status))
    yield from device.work(MOST, 0, device.state, image)
    yield from device.read(bytes([status]) + b"\xff" * 51)


def p1_status_stays(state):
    device = Device(FRESH, state)
    yield from device.frame(b"\x9b", put(state, enabled=0))


def p9_root_key():
    """All unset: 01h after 14 steps, 80h after 15; then root and counter are set, the value is 0."""
    device, job = Device(FRESH), job_of(FRESH, POWER_ON, root_key_frame(2, KEY))
    done = with_slot(2, SET, SET, 0, KEY)
    yield from device.frame(job.frame, job.started)
    yield from device.work(14, 14, put(job.started, step=14, **hashed(job)), with_slot(2, UNSET, SET, 0, KEY))
    yield from device.read(b"\x01")
    chain = signature(KEY, job.frame[:4])
    yield from device.work(1, 1, put(POWER_ON, status=0x80, chain=chain), done)
    yield from device.read(b"\x80")


def hashed(job):
    """The chaining words that the state of a root key job holds after its hash steps."""
    state, _ = job.after_steps(4)
    return {"chain": get(state, "chain"), "inner": get(state, "inner")}


def p10_cut(steps, root, counter, value, key):
    device, job = Device(FRESH), job_of(FRESH, POWER_ON, root_key_frame(1, KEY))
    yield from device.frame(job.frame, job.started)
    left = with_slot(1, root, counter, value, key)
    yield from device.work(steps, steps, put(job.started, step=steps, **hashed(job)), left)
    yield from device.power_up()
    # half-stored bytes are not in use: a session key comes from the FFh key, if there is a counter
    frame = session_key_frame(1, ALL_FF, DATA)
    if counter == UNSET:
        yield from device.frame(frame, taken(POWER_ON, 0x02))
        return
    made = signature(ALL_FF, DATA)
    yield from ends(device, frame, 8, 0x80, left, chain=signature(made, frame[:8]), key1_there=1, key1=made)
    reply = signed_reply(made, TAG + word(value))
    yield from ends(device, request_frame(1, made, TAG), 8, 0x80, left, chain=reply[16:], reply_there=1, reply=reply)
    yield from device.read(b"\x80" + reply + b"\xff")


def ends(device, frame, steps, status, image, **changes):
    """Busy until the last of these steps; then the status, this image, and these changes."""
    before, job = device.state, job_of(device.image, device.state, frame)
    yield from device.frame(frame, job.started)
    yield from device.work(steps - 1, steps - 1, *job.after_steps(steps - 1))
    yield from device.read(b"\x01" * 49)
    yield from device.work(MOST, 1, put(before, status=status, enabled=0, **(NO_REPLY | changes)), image)


def p11_ffh_key():
    image, frame = with_slot(3, UNSET, SET, 7), root_key_frame(3, ALL_FF)
    device = Device(image, IDLE)
    yield from ends(device, frame, 4, 0x80, image, chain=signature(ALL_FF, frame[:4]))


def p12_last_value():
    image, state = with_slot(0, SET, SET, MOST, KEY), put(IDLE, key0_there=1, key0=KEYS[0])
    device, frame = Device(image, state), increment_frame(0, KEYS[0], MOST)
    yield from ends(device, frame, 4, 0x20, image, chain=signature(KEYS[0], frame[:8]))


def p14_no_reset(state):
    device = Device(FRESH, state)
    yield from device.frame(b"\x66", put(state, enabled=1))
    yield from device.read(b"\x01" if number(state, "job") else b"\x04")
    yield from device.frame(b"\x99", put(state, enabled=0))


def unnamed_read():
    device = Device(FRESH, put(IDLE, status=0x04))
    yield from device.read(b"\x04" + b"\xff" * 51)


COUNTED = with_slot(1, UNSET, SET, 7)
BAD = with_slot(1, 5, SET, 7)
FAILED = put(IDLE, status=0x04)

EXAMPLES = {
    "P1 9B: status stays": (p1_status_stays, WORN),
    "P1 9B: status stays, after a failure": (p1_status_stays, FAILED),
    "P2 9B 00: 04h": (on_arrival, FRESH, WORN, b"\x9b\x00", 0x04),
    "P3 9B 04: 04h": (on_arrival, FRESH, WORN, b"\x9b\x04", 0x04),
    "P4 type 00, 64 bytes, counter 4: 06h": (on_arrival, FRESH, WORN, root_key_frame(4, KEY), 0x06),
    "P5 type 01, 40 bytes, counter 4: 04h": (on_arrival, FRESH, WORN, session_key_frame(4, ALL_FF, DATA), 0x04),
    "type 00, 63 bytes, counter 4: 04h": (on_arrival, FRESH, WORN, root_key_frame(4, KEY)[:63], 0x04),
    "P6 type 01, counter unset: 02h": (on_arrival, FRESH, WORN, session_key_frame(0, ALL_FF, DATA), 0x02),
    "P7 type 03, counter set, no session key: 08h": (on_arrival, COUNTED, IDLE, request_frame(1, KEY, TAG), 0x08),
    "P8 type 00 on a set root: 02h": (on_arrival, with_slot(2, SET, SET, 7, KEY), WORN, root_key_frame(2, KEY), 0x02),
    "P9 good type 00: 01h after 14 steps, 80h after 15": (p9_root_key,),
    "P10 cut after 14: counter set at 0, root unset": (p10_cut, 14, UNSET, SET, 0, KEY),
    "P10 cut after 13: neither set": (p10_cut, 13, UNSET, UNSET, 0, KEY),
    "P11 good all-FFh key, counter set at 7: 80h after 4, still 7": (p11_ffh_key,),
    "P12 good increment, data and value FFFFFFFFh: 20h after 4": (p12_last_value,),
    "P13 root state 5, type 03: 20h": (on_arrival, BAD, WORN, request_frame(1, KEYS[1], TAG), 0x20),
    "P14 66, 96 00, 99: no reset": (p14_no_reset, FAILED),
    "P14 66, 96 00, 99: no reset while busy": (p14_no_reset, put(busy(INCREMENT, 0, 2), enabled=0)),
    "idle after a failure, read of 52 bytes": (unnamed_read,),
}


# ---- what a job keeps


def steps_one_by_one(device, job, first, last):
    for step in range(first, last + 1):
        yield from device.work(1, 1, *job.after_step(step, device.state, device.image))


def changed_under(job, steps, place, stored, seen):
    """After some steps another word stands in the slot; the job goes on as `seen` says."""
    device = Device(job.image, job.state)
    yield from device.frame(job.frame, job.started)
    yield from steps_one_by_one(device, job, 1, steps)
    device.image = with_word(device.image, slot_place(device.image, job.frame[2]) + place, stored)
    yield from steps_one_by_one(device, seen, steps + 1, seen.length)
    yield from device.work(1, 0, device.state, device.image)


def value_changes(counter):
    """The value counts as it stands in step 4, not before and not after."""
    old = with_slot(counter, SET, SET, 7, KEY)
    new = with_slot(counter, SET, SET, 9, KEY)
    increment, request = increment_frame(counter, KEYS[counter], 7), request_frame(counter, KEYS[counter], TAG)
    found = {}
    for steps in range(5):
        job, late = job_of(old, WORN, increment), job_of(new, WORN, increment, 0x10)
        found[f"increment, value changed after {steps}"] = (job, steps, VALUE_PLACE, 9, job if steps == 4 else late)
    for steps in range(8):
        job, late = job_of(old, WORN, request), job_of(new, WORN, request)
        found[f"request, value changed after {steps}"] = (job, steps, VALUE_PLACE, 9, job if steps >= 4 else late)
    return found


def key_and_kind_changes(counter):
    """The root key in use and the kind of job count as they stood on arrival."""
    unset, counted = with_slot(counter), with_slot(counter, UNSET, SET, 7)
    session = job_of(with_slot(counter, SET, SET, 7, KEY), WORN, session_key_frame(counter, KEY, DATA))
    whole, ffh = root_key_frame(counter, KEY), root_key_frame(counter, ALL_FF)
    found = {}
    for steps in range(4):
        found[f"session key, root state unset after {steps}"] = (session, steps, 0, UNSET, session)
        found[f"session key, root key changed after {steps}"] = (session, steps, 16, 0x01020304, session)
        for name, frame in (("key", whole), ("all-FFh key", ffh)):
            short, long = job_of(counted, WORN, frame), job_of(unset, WORN, frame)
            found[f"{name}, counter set after {steps}"] = (long, steps, 4, SET, long)
            found[f"{name}, counter unset after {steps}"] = (short, steps, 4, UNSET, short)
    return found


def examples():
    return [(name, functools.partial(*parts)) for name, parts in EXAMPLES.items()]


def kept():
    found = [value_changes(counter) | key_and_kind_changes(counter) for counter in range(4)]
    return [
        (f"counter {counter}, {name}", functools.partial(changed_under, *parts))
        for counter, histories in enumerate(found)
        for name, parts in histories.items()
    ]
