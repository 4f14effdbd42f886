"""Jobs of the device as document 01 describes them: what each step hashes or stores, where the job
ends, and the state and image after each step."""

import dataclasses
import hashlib

from device.bytes import (
    COUNTER_ONLY,
    INCREMENT,
    LENGTHS,
    NO_JOB,
    NOTHING,
    REQUEST,
    ROOT_KEY,
    ROOT_KEY_AND_COUNTER,
    SESSION_KEY,
    SET,
    UNSET,
    get,
    put,
    root_key_in_use,
    slot_place,
    started,
    with_word,
    word,
    word_at,
)
from hash.blocks import after_first_block
from shared.signer import ALL_FF, signature, signed_reply

ROOT_STATE_PLACE, COUNTER_STATE_PLACE, VALUE_PLACE, KEY_PLACE = 0, 4, 8, 16


@dataclasses.dataclass
class Job:
    """A job from the frame on. `hashed`: key and message of each HMAC of four steps; `stores`: place
    in the image and word of each step behind them; `kept`: the word kept from step 4 on; `failed`:
    the status of a failed check of 8 to 10, or None; `leaves`: what a good end changes in the state."""

    image: bytes
    state: bytes
    frame: bytes
    kind: int
    hashed: list
    stores: list
    failed: int | None = None
    kept: int = 0
    leaves: dict = dataclasses.field(default_factory=dict)

    @property
    def started(self):
        return started(self.image, self.state, self.frame, self.kind)

    @property
    def length(self):
        """The steps until it ends: a failed check ends it with the signature, at 4 or 8."""
        if self.failed is None:
            return LENGTHS[self.kind]
        return 8 if self.kind == SESSION_KEY else 4

    def after_step(self, step, state, image):
        """State and image after step number `step`, counted from 1, from those before it."""
        if step <= 4 * len(self.hashed):
            state = self.after_block(step, state)
        else:
            place, stored = self.stores[step - 4 * len(self.hashed) - 1]
            image = with_word(image, place, stored)
        if step < self.length:
            return put(state, step=step), image
        if self.failed is not None:
            return put(state, status=self.failed, **NO_JOB), image
        return put(state, status=0x80, **NO_JOB, **self.leaves), image

    def after_block(self, step, state):
        """The state after a hash step: its chaining words, and what the job keeps of them."""
        key, message = self.hashed[(step - 1) // 4]
        inner_key, outer_key = (bytes(byte ^ pad for byte in key.ljust(64, b"\0")) for pad in (0x36, 0x5C))
        if step % 4 == 1:
            return put(state, chain=after_first_block(inner_key))
        if step % 4 == 2:
            inner = hashlib.sha256(inner_key + message).digest()
            return put(state, chain=inner, inner=inner)
        if step % 4 == 3:
            return put(state, chain=after_first_block(outer_key))
        state = put(state, chain=signature(key, message))
        if step == 4 and self.kind == SESSION_KEY:
            state = put(state, made=signature(key, message))
        if step == 4 and self.kind in (INCREMENT, REQUEST):
            state = put(state, kept=self.kept)
        return state

    def after_steps(self, steps):
        state, image = self.started, self.image
        for step in range(1, steps + 1):
            state, image = self.after_step(step, state, image)
        return state, image


def root_key_job(image, state, frame, failed=None):
    place = slot_place(image, frame[2])
    key, unset = frame[4:36], word_at(image, place + COUNTER_STATE_PLACE) == UNSET
    kind = {
        (False, True): ROOT_KEY_AND_COUNTER,
        (False, False): ROOT_KEY,
        (True, True): COUNTER_ONLY,
        (True, False): NOTHING,
    }[key == ALL_FF, unset]
    stores = []
    if key != ALL_FF:
        stores += [(place + KEY_PLACE + at, word_at(key, at)) for at in range(0, 32, 4)]
    if unset:
        stores += [(place + VALUE_PLACE, 0), (place + COUNTER_STATE_PLACE, SET)]
    if key != ALL_FF:
        stores += [(place + ROOT_STATE_PLACE, SET)]
    return Job(image, state, frame, kind, [(key, frame[:4])], stores, failed)


def session_key_job(image, state, frame, failed=None):
    root_key = root_key_in_use(image, frame[2])
    made = signature(root_key, frame[4:8])
    hashed = [(root_key, frame[4:8]), (made, frame[:8])]
    leaves = {f"key{frame[2]}_there": 1, f"key{frame[2]}": made}
    return Job(image, state, frame, SESSION_KEY, hashed, [], failed, leaves=leaves)


def increment_job(image, state, frame, failed=None):
    place = slot_place(image, frame[2]) + VALUE_PLACE
    successor = (word_at(image, place) + 1) % (1 << 32)
    hashed = [(get(state, f"key{frame[2]}"), frame[:8])]
    return Job(image, state, frame, INCREMENT, hashed, [(place, successor)], failed, kept=successor)


def request_job(image, state, frame, failed=None):
    key, value = get(state, f"key{frame[2]}"), word_at(image, slot_place(image, frame[2]) + VALUE_PLACE)
    told = frame[4:16] + word(value)
    leaves = {"reply_there": 1, "reply": signed_reply(key, told)}
    hashed = [(key, frame[:16]), (key, told)]
    return Job(image, state, frame, REQUEST, hashed, [], failed, kept=value, leaves=leaves)


JOB_OF_TYPE = (root_key_job, session_key_job, increment_job, request_job)


def job_of(image, state, frame, failed=None):
    return JOB_OF_TYPE[frame[1]](image, state, frame, failed)
