"""Every kind of job a step at a time, with good and wrong signatures, cut by a reset and by a power-up
after each step: histories with the answers that document 01 wants."""

import functools

from device.bytes import (
    HEADER_LENGTH,
    KEYS,
    LONGEST_IMAGE,
    POWER_ON,
    SET,
    SLOT_LENGTH,
    UNSET,
    WORN,
    image_of,
    pattern,
    put,
    slot,
    slot_place,
    taken,
    word_at,
)
from device.jobs import job_of
from device.talk import Device
from shared.signer import (
    ALL_FF,
    increment_frame,
    request_frame,
    root_key_frame,
    session_key_frame,
    signature,
    signed_frame,
)

ROOT = pattern(32, 31)
STORED = pattern(32, 33)
DATA = pattern(4, 35)
TAG = pattern(12, 36)
MOST = 4294967295


# ---- the jobs


def flipped(frame, place, bit=0x01):
    changed = bytearray(frame)
    changed[place] ^= bit
    return bytes(changed)


def wrongly_signed(frame):
    """The frame with a signature that is wrong in its first bit, in the middle, and in its last."""
    start = {0x00: 36, 0x01: 8, 0x02: 8, 0x03: 16}[frame[1]]
    places = {"first": (start, 0x80), "middle": ((start + len(frame)) // 2, 0x10), "last": (len(frame) - 1, 0x01)}
    return {f"wrong in the {name} bit": flipped(frame, *place) for name, place in places.items()}


def root_key_frames(counter):
    """Root key frames by name, each with the status of its failed check, or None."""
    frames = {}
    for sort, key in (("a key", ROOT), ("the all-FFh key", ALL_FF), ("nearly the all-FFh key", b"\xfe" + ALL_FF[1:])):
        good = root_key_frame(counter, key)
        frames[sort] = (good, None)
        frames |= {f"{sort}, {name}": (frame, 0x02) for name, frame in wrongly_signed(good).items()}
        front = good[:36] + signature(key, good[:4])[:28]
        frames[f"{sort}, signed with the first 28 bytes"] = (front, 0x02)
    return frames


def session_key_frames(image, counter):
    root_key = ALL_FF if word_at(image, slot_place(image, counter)) == UNSET else STORED
    good = session_key_frame(counter, root_key, DATA)
    frames = {"a session key": (good, None)}
    frames |= {f"a session key, {name}": (frame, 0x04) for name, frame in wrongly_signed(good).items()}
    frames["a session key, signed under the root key"] = (signed_frame(root_key, good), 0x04)
    other_root = STORED if root_key == ALL_FF else ALL_FF
    frames["a session key, under another root key"] = (session_key_frame(counter, other_root, DATA), 0x04)
    return frames


def increment_frames(counter, value):
    good, key = increment_frame(counter, KEYS[counter], value), KEYS[counter]
    frames = {f"an increment of {value:08X}": (good, 0x20 if value == MOST else None)}
    frames |= {f"an increment, {name}": (frame, 0x04) for name, frame in wrongly_signed(good).items()}
    for data in ((value + 1) % (1 << 32), (value - 1) % (1 << 32), value ^ 0x80000000, value ^ 0x0100):
        wrong = increment_frame(counter, key, data)
        frames[f"an increment of {value:08X}, data {data:08X}"] = (wrong, 0x10)
        frames[f"an increment of {value:08X}, data {data:08X}, wrongly signed"] = (flipped(wrong, 39), 0x04)
    frames["an increment, under the root key"] = (increment_frame(counter, STORED, value), 0x04)
    return frames


def request_frames(counter):
    good = request_frame(counter, KEYS[counter], TAG)
    frames = {"a request": (good, None)}
    frames |= {f"a request, {name}": (frame, 0x04) for name, frame in wrongly_signed(good).items()}
    frames["a request, another tag"] = (flipped(good, 15), 0x04)
    return frames


SLOTS = {
    "all unset": (UNSET, UNSET, 7),
    "counter set": (UNSET, SET, 7),
    "both set": (SET, SET, 0),
    "both set, highest value but one": (SET, SET, MOST - 1),
    "both set, highest value": (SET, SET, MOST),
}
SHAPES = {"4 counters": (4, b"", b""), "2 counters, other bytes around": (2, pattern(8, 1), pattern(7, 2))}


def frames_for(image, counter, root, used, value):
    frames = root_key_frames(counter) if root == UNSET else {}
    if used == SET:
        frames |= session_key_frames(image, counter)
        frames |= increment_frames(counter, value) | request_frames(counter)
    return frames


@functools.cache
def all_jobs():
    """Jobs by name. A slot's key is there even where the root is unset, so it must not be used."""
    jobs = {}
    for shape, (count, gap, tail) in SHAPES.items():
        for counter in range(count):
            for name, (root, used, value) in SLOTS.items():
                slots = [slot(SET, SET, 9, pattern(32, 40 + i)) for i in range(count)]
                slots[counter] = slot(root, used, value, STORED)
                image = image_of(slots, gap, tail)
                for what, (frame, failed) in frames_for(image, counter, root, used, value).items():
                    jobs[f"{shape}, counter {counter}, {name}: {what}"] = job_of(image, WORN, frame, failed)
    return jobs


# ---- histories


def step_by_step(job):
    """One step a call, with a quota of 0, a read and an ignored frame between; then idle."""
    device = Device(job.image, job.state)
    yield from device.frame(job.frame, job.started)
    for step in range(1, job.length + 1):
        yield from device.work(0, 0, device.state, device.image)
        yield from device.read(b"\x01" * 3)
        yield from device.frame(job.frame, put(device.state, enabled=0))
        yield from device.work(1, 1, *job.after_step(step, device.state, device.image))
    yield from device.work(1, 0, device.state, device.image)


def in_two_calls(job, steps):
    """Some steps in one call, the rest in another whose quota is higher."""
    device = Device(job.image, job.state)
    yield from device.frame(job.frame, job.started)
    yield from device.work(steps, steps, *job.after_steps(steps))
    yield from device.work(MOST if steps % 2 else 20, job.length - steps, *job.after_steps(job.length))


def whole_job(device, job):
    yield from device.frame(job.frame, job.started)
    yield from device.work(MOST, job.length, *job.after_steps(job.length))


def again(device, job):
    """The same frame after a cut: what the device knows is what the image says."""
    root = word_at(device.image, slot_place(device.image, job.frame[2]))
    if job.frame[1] >= 0x02:
        yield from device.frame(job.frame, taken(device.state, 0x08))
    elif job.frame[1] == 0x00 and root == SET:
        yield from device.frame(job.frame, taken(device.state, 0x02))
    else:
        yield from whole_job(device, job_of(device.image, device.state, job.frame, job.failed))


def cut(job, steps, way):
    device = Device(job.image, job.state)
    yield from device.frame(job.frame, job.started)
    for step in range(1, steps + 1):
        yield from device.work(1, 1, *job.after_step(step, device.state, device.image))
    yield from (device.power_up() if way == "power-up" else device.reset())
    yield from device.work(1, 0, POWER_ON, device.image)
    yield from again(device, job)


def all_step_by_step():
    gap = b"\xff" * (LONGEST_IMAGE - HEADER_LENGTH - 4 * SLOT_LENGTH)
    longest = image_of([slot()] * 4, gap)
    jobs = all_jobs() | {"in the longest image": job_of(longest, WORN, root_key_frame(3, ROOT))}
    return [(name, functools.partial(step_by_step, job)) for name, job in jobs.items()]


def all_in_two_calls():
    return [
        (f"{name}, {steps} steps first", functools.partial(in_two_calls, job, steps))
        for name, job in all_jobs().items()
        for steps in range(job.length + 1)
    ]


def all_cuts(way):
    return [
        (f"{name}, {way} after {steps} steps", functools.partial(cut, job, steps, way))
        for name, job in all_jobs().items()
        for steps in range(job.length + 1)
    ]
