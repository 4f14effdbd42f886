"""Every kind of job of rpmcrun: interrupted after each of its steps by a reset and by a power-up, a step
at a time, and in two calls. Histories without chance, each with a look at all that is left behind."""

from device.bytes import (
    COUNTER_ONLY, INCREMENT, KIND_NAMES, LENGTHS, NOTHING, REQUEST, ROOT_KEY, ROOT_KEY_AND_COUNTER, SESSION_KEY,
    pattern,
)
from rpmcrun.history import History
from rpmcrun.model import COUNTERS
from shared.signer import ALL_FF, increment_frame, request_frame, root_key_frame, session_key_frame

KEY = pattern(32, 61)  # the key that a job stores
STORED = pattern(32, 62)  # a root key from before
DATA, OTHER_DATA = pattern(4, 63), pattern(4, 64)
TAG = pattern(12, 65)
KINDS = range(len(KIND_NAMES))


def spoiled(frame):
    return frame[:-1] + bytes([frame[-1] ^ 1])


def prepare(history, kind, counter):
    """Brings a counter to where a job of this kind can begin. Where it does not matter, root is set for
    every second counter."""
    known = history.model.counters[counter]
    if kind in (ROOT_KEY_AND_COUNTER, COUNTER_ONLY):
        return
    if known.value is None:
        stays_unset = kind in (ROOT_KEY, NOTHING) or counter % 2 == 1
        history.run(root_key_frame(counter, ALL_FF if stays_unset else STORED))
    if kind in (INCREMENT, REQUEST) and known.session_key is None:
        history.run(session_key_frame(counter, known.key_in_use, DATA))


def frame_of(history, kind, counter):
    """The frame that becomes a job of this kind, signed as it should be."""
    known = history.model.counters[counter]
    if kind in (ROOT_KEY_AND_COUNTER, ROOT_KEY):
        return root_key_frame(counter, KEY)
    if kind in (COUNTER_ONLY, NOTHING):
        return root_key_frame(counter, ALL_FF)
    if kind == SESSION_KEY:
        return session_key_frame(counter, known.key_in_use, OTHER_DATA)
    if kind == INCREMENT:
        return increment_frame(counter, known.session_key, known.value)
    return request_frame(counter, known.session_key, TAG)


def look(history, counter, old_session_key):
    """All of a counter that can be seen without setting root: an old session key, a key that is only
    half stored or not in use, the value, and how far a root key write gets that is wrongly signed."""
    known = history.model.counters[counter]
    history.read(52)
    old = old_session_key or ALL_FF
    frames = [request_frame(counter, old, TAG), increment_frame(counter, old, known.value or 0)]
    frames += [session_key_frame(counter, key, DATA) for key in (KEY, known.key_in_use)]
    for frame in frames:
        history.run(frame)
        history.read(1)
    session_key, value = known.session_key or ALL_FF, known.value or 0
    for frame in (increment_frame(counter, session_key, value + 1), request_frame(counter, session_key, TAG)):
        history.run(frame)
        history.read(52)
    history.run(spoiled(root_key_frame(counter, STORED)))
    history.read(1)


# ---- interruptions


def interrupt(history, steps, way):
    """A job after some of its steps, in one call or two; 66h may come before the last of them."""
    if steps % 2 == 0:
        history.work(steps)
    else:
        history.work(steps - 1)
        if way == "reset":
            history.frame(b"\x66")
        history.work(1)
        if way == "reset":
            history.frame(b"\x99")
            return
    history.read(2)
    if way == "reset":
        history.reset()
    else:
        history.power_up()


def cut(history, kind, counter, steps, way, good):
    """The counter beside it has a session key too, which goes as well."""
    beside = (counter + 1) % COUNTERS
    prepare(history, REQUEST, beside)
    prepare(history, kind, counter)
    old = [history.model.counters[each].session_key for each in (counter, beside)]
    frame = frame_of(history, kind, counter)
    history.frame(frame if good else spoiled(frame))
    interrupt(history, steps, way)
    for each, session_key in zip((counter, beside), old):
        look(history, each, session_key)


def cuts(kind, counter, way, reached):
    """After every step, in rising order: the last but one of 15 sets the counter for good."""
    history = History(f"{KIND_NAMES[kind]}, counter {counter}, {way}", reached)
    for steps in range(8 if kind == SESSION_KEY else 4):
        cut(history, kind, counter, steps, way, good=False)
    for steps in range(LENGTHS[kind]):
        cut(history, kind, counter, steps, way, good=True)
    prepare(history, kind, counter)
    history.run(frame_of(history, kind, counter))
    look(history, counter, None)
    return history.end(newline=True)


def all_cuts(way, reached):
    return [cuts(kind, counter, way, reached) for kind in KINDS for counter in range(COUNTERS)]


# ---- without interruption


def step_by_step(kind, good, reached):
    """With every counter: one step a call, with a read, an ignored frame and a quota of 0 between."""
    history = History(f"{KIND_NAMES[kind]}, step by step, {'good' if good else 'wrongly signed'}", reached)
    for counter in range(COUNTERS):
        prepare(history, kind, counter)
        frame = frame_of(history, kind, counter)
        history.frame(frame if good else spoiled(frame))
        while history.model.job:
            history.work(0)
            history.read(3)
            history.frame(frame)
            history.work(1)
        history.read(52)
        look(history, counter, None)
    return history.end(newline=False)


def in_two_calls(kind, first, reached):
    """With every counter another number of steps in the first call; the rest in a second."""
    history = History(f"{KIND_NAMES[kind]}, {first} steps or more first", reached)
    for counter in range(COUNTERS):
        prepare(history, kind, counter)
        history.frame(frame_of(history, kind, counter))
        history.work(first + counter)
        history.read(49)
        history.work(255 - counter)
        history.read(49)
    return history.end(newline=True)


def all_step_by_step(reached):
    return [step_by_step(kind, good, reached) for kind in KINDS for good in (True, False)]


def all_in_two_calls(reached):
    return [in_two_calls(kind, first, reached) for kind in KINDS for first in range(0, LENGTHS[kind] + 1, COUNTERS)]
