"""Random histories of rpmcrun: each is made from its seed, and knows through its model what the device
holds, so that most frames are signed as a host would sign them, and the others wrong in some way."""

import random

from device.bytes import FRAME_LENGTHS, word
from rpmcrun.history import History
from rpmcrun.lines import SORTS
from rpmcrun.model import COUNTERS, MOST
from shared.signer import (
    ALL_FF, SIGNED, increment_frame, request_frame, root_key_frame, session_key_frame, signature, signed_frame,
)

LENGTHS = (0, 1, 20, 50, 50, 100, 100, 200, 400, 1500)  # lines of a history, about
KEYS_KEPT = 8  # session keys that were once in use, to sign with wrongly
FRAMES_KEPT = 30  # earlier frames, to send again


def with_byte(frame, at, byte):
    return frame[:at] + bytes([byte]) + frame[at + 1 :]


class Walk:
    """A history that goes on by actions. Each history likes some actions more than others do, and has
    its own mind about setting root, which is for good."""

    def __init__(self, seed, reached):
        self.rng = rng = random.Random(seed)
        self.history = History(f"seed {seed}", reached)
        self.root_keys = [ALL_FF[1:] + b"\xfe", bytes(32)] + [rng.randbytes(32) for _ in range(4)]
        self.session_keys = [ALL_FF, bytes(32)]
        self.data = [rng.randbytes(4) for _ in range(3)]
        self.sent = [b"\x9b\x00"]
        self.sets_root = rng.choice((0.02, 0.1, 1))
        self.likes = [like * rng.choice((0.2, 1, 1, 3)) for like, _ in self.ACTIONS]

    @property
    def model(self):
        return self.history.model

    def go_on(self, lines):
        while len(self.history.lines) < lines:
            _, action = self.rng.choices(self.ACTIONS, self.likes)[0]
            action(self)
        if lines and self.rng.random() < 0.2:
            self.no_line()
        return self.history.end(newline=self.rng.random() < 0.6)

    # ---- frames

    def signing_key(self, frame):
        """The key that the device will look for: the one sent, the new session key, the session key."""
        counter = self.model.counters[frame[2] % COUNTERS]
        if frame[1] == 0x00:
            return frame[4:36]
        if frame[1] == 0x01:
            return signature(counter.key_in_use, frame[4:8])
        return counter.session_key or self.session_keys[-1]

    @staticmethod
    def likely_types(counter):
        """The types that make sense for a counter as it stands; None for type 00 with the all-FFh key."""
        types = [0x00, None] if counter.root_key is None else []
        types += [0x01] if counter.value is not None else []
        return types + ([0x02, 0x03] if counter.session_key is not None else [])

    def good_frame(self, sets_root):
        """A frame that the device takes if it is idle, most times."""
        rng, number = self.rng, self.rng.randrange(COUNTERS)
        counter = self.model.counters[number]
        likely = self.likely_types(counter) if rng.random() < 0.8 else [0x00, None, 0x01, 0x02, 0x03]
        sort = rng.choices(likely, [sets_root if each == 0x00 else 1 for each in likely])[0]
        if sort in (0x00, None):
            return root_key_frame(number, ALL_FF if sort is None else rng.choice(self.root_keys))
        if sort == 0x01:
            data = rng.choice(self.data)
            self.session_keys = (self.session_keys + [signature(counter.key_in_use, data)])[-KEYS_KEPT:]
            return session_key_frame(number, counter.key_in_use, data)
        session_key = counter.session_key or rng.choice(self.session_keys)
        if sort == 0x02:
            return increment_frame(number, session_key, counter.value or 0)
        return request_frame(number, session_key, rng.choice((rng.randbytes(12), bytes(12))))

    def misshapen(self, frame):
        """A frame that fails one of checks 1 to 4, signed all the same."""
        rng, key = self.rng, self.signing_key(frame)
        sort = rng.randrange(5)
        if sort == 0:
            return with_byte(frame, 1, rng.choice((4, 5, 0x80, 0xFF, rng.randrange(4, 256))))
        if sort == 1:
            return frame[: rng.choice((2, 3, 4, len(frame) - 1, rng.randrange(2, len(frame))))]
        if sort == 2:
            return frame + rng.randbytes(rng.choice((1, 8, 16, 24, 256 - len(frame))))
        if sort == 3:
            return signed_frame(key, with_byte(frame, 3, rng.choice((1, 0x80, 0xFF, rng.randrange(1, 256)))))
        return signed_frame(key, with_byte(frame, 2, rng.choice((4, 5, 8, 0x80, 0xFC, 0xFF))))

    def wrongly_signed(self, frame):
        rng = self.rng
        sort = rng.randrange(5)
        if sort == 0:
            at = rng.choice((len(frame) - 1, SIGNED[frame[1]], 36, rng.randrange(4, len(frame))))
            return with_byte(frame, at, frame[at] ^ 1 << rng.randrange(8))
        if sort == 1 and frame[1] == 0x00:
            return frame[:36] + signature(frame[4:36], frame[:4])[:28]
        if sort == 2 and frame[1] == 0x01:
            return signed_frame(self.model.counters[frame[2] % COUNTERS].key_in_use, frame)
        if sort == 3:
            return with_byte(frame, 2, (frame[2] + rng.randrange(1, 4)) % COUNTERS)
        return signed_frame(rng.choice(self.session_keys + self.root_keys), frame)

    def wrong_data(self, frame):
        """An increment of another value, which is signed; for another type, any frame sent before."""
        if frame[1] != 0x02:
            return self.rng.choice(self.sent)
        value = int.from_bytes(frame[4:8], "big")
        swapped = int.from_bytes(frame[4:8], "little")
        near = ((value + 1) & MOST, max(value, 1) - 1, value ^ 0x100, value ^ 1 << 31)
        other = self.rng.choice((*near, swapped, MOST))
        return signed_frame(self.signing_key(frame), frame[:4] + word(other) + frame[8:])

    def command_frame(self, sets_root, wrong):
        """A command frame; of 20, so many are misshapen, wrongly signed, or have wrong data. One that
        is wrong may be so in more than one way."""
        frame = self.good_frame(sets_root)
        spoils = (None, self.misshapen, self.wrongly_signed, self.wrong_data)
        spoil = self.rng.choices(spoils, (20 - sum(wrong), *wrong))[0]
        while spoil and FRAME_LENGTHS.get(frame[1]) == len(frame):
            frame = spoil(frame)
            spoil = self.rng.choice(spoils) if self.rng.random() < 0.6 else None
        self.sent = (self.sent + [frame])[-FRAMES_KEPT:]
        return frame

    def other_frame(self):
        """A frame that is no command: named, a named one with more bytes or fewer, or any."""
        rng = self.rng
        named = (b"\x66", b"\x99", b"\x96" + rng.randbytes(1), b"\x9b")
        if rng.random() < 0.6:
            return rng.choice(named)
        first = rng.choice((b"\x66", b"\x99", b"\x96", b"\x9a", b"\x9f", b"\x00", b"\xff", rng.randbytes(1)))
        return first + rng.randbytes(rng.choice((0, 1, 2, 39, 47, 63, 255, rng.randrange(256), rng.randrange(70))))

    # ---- actions

    def command(self):
        self.history.frame(self.command_frame(self.sets_root, (3, 1.5, 1.5)))

    def work(self):
        rng, job = self.rng, self.model.job
        left = job.length - job.done if job else 0
        near = (1, left, max(left, 1) - 1, left + 1)
        self.history.work(rng.choice((*near, 0, 255, rng.randrange(16), rng.randrange(256))))

    def read(self):
        self.history.read(self.rng.choice((1, 1, 2, 48, 49, 50, 52, 256, self.rng.randrange(1, 257))))

    def whole(self):
        """A command from its frame to its end, in one call or several, and what can be read then."""
        self.command()
        while self.model.job and self.rng.random() < 0.95:
            self.work()
        self.history.read(self.rng.choice((1, 49, 52)))

    def cut(self):
        """A job that is interrupted after any of its steps, which leaves root unset for the next."""
        if self.model.job is None and self.rng.random() < 0.6:
            self.begin_session()
        self.history.frame(self.command_frame(2, (1, 7, 2)))
        if self.model.job:
            self.history.work(self.rng.randrange(self.model.job.length - self.model.job.done))
        self.interrupt()
        self.history.read(self.rng.choice((1, 49)))

    def begin_session(self):
        """A session key for a counter that has none, if there is one."""
        number = self.rng.randrange(COUNTERS)
        counter = self.model.counters[number]
        if counter.value is not None and counter.session_key is None:
            self.history.run(session_key_frame(number, counter.key_in_use, self.rng.choice(self.data)))

    def interrupt(self):
        if self.rng.random() < 0.5:
            self.history.power_up()
        else:
            self.history.reset()

    def nearly_reset(self):
        """66h, anything, 99h."""
        self.history.frame(b"\x66")
        self.rng.choice((self.command, self.work, self.read, self.other, self.no_line, self.history.power_up))()
        self.history.frame(b"\x99")

    def again(self):
        self.history.frame(self.rng.choice(self.sent))

    def other(self):
        self.history.frame(self.other_frame())

    def no_line(self):
        name = self.rng.choice(list(SORTS))
        if self.history.say(SORTS[name](self.rng)) == b"?":
            self.history.reached.note("other lines", name)

    ACTIONS = (
        (10, command), (10, work), (6, read), (30, whole), (10, cut), (0.5, interrupt), (2, nearly_reset), (3, again),
        (3, other), (4, no_line),
    )


def random_history(seed, reached):
    walk = Walk(seed, reached)
    return walk.go_on(walk.rng.choice(LENGTHS))
