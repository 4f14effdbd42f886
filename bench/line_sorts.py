"""The lines that the benchmark of rpmcrun counts and times; Python signs the frames.

A sort is a block of lines that leaves the device as it found it, so that it can be said again and
again, and what is said once before it."""

from dataclasses import dataclass, field

import scenes


def frame(data):
    return f"F {data.hex().upper()}"


def run(data):
    return [frame(data), "S 255"]


ROOT_KEY_FRAME = scenes.root_key(scenes.ROOT_KEY)
PAIRED = run(ROOT_KEY_FRAME)
SESSION = PAIRED + run(scenes.session_key())


@dataclass
class Sort:
    title: str
    block: list
    before: list = field(default_factory=list)

    def text(self, lines):
        """An input of so many lines of the block, or a little more to fill the last one."""
        blocks = -(-lines // len(self.block))
        return "".join(f"{line}\n" for line in self.before + self.block * blocks)

    def lines(self, lines):
        """How many lines of the block there are in such an input."""
        return -(-lines // len(self.block)) * len(self.block)


CONTROL = Sort("8 control lines", ["F 66", "R 1", "S 0", "F 9B07", "R 49", "P", "", "F 99"])
EXCHANGE = Sort(
    "6 lines: a session key, a request and its reply",
    run(scenes.session_key()) + ["R 1"] + run(scenes.request()) + ["R 49"],
    PAIRED,
)

ONE_BYTE = Sort("a frame of one byte: F 66", ["F 66"])

SORTS = [
    Sort("power-up: P", ["P"]),
    ONE_BYTE,
    Sort("a frame of two bytes, refused: F 9B07", ["F 9B07"]),
    Sort("a frame of 256 bytes", [frame(bytes(256))]),
    Sort("work, idle: S 255", ["S 255"]),
    Sort("a read of 1 byte", ["R 1"]),
    Sort("a read of 49 bytes, with a reply", ["R 49"], SESSION + run(scenes.request())),
    Sort("a read of 256 bytes", ["R 256"]),
    Sort("an empty line", [""]),
    Sort("a line of 10,000 bytes", ["F " + "0" * 9998]),
    Sort("2 lines: a root key frame, wrongly signed, its 4 steps", run(scenes.spoiled(ROOT_KEY_FRAME))),
    Sort("2 lines: a session key frame, its 8 steps", run(scenes.session_key()), PAIRED),
    Sort("2 lines: a request, its 8 steps", run(scenes.request()), SESSION),
    CONTROL,
    EXCHANGE,
]
