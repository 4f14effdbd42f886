#!/usr/bin/env python3
"""Compares the host's C library (through its shim) with the second program, and both with document 01.

First the edges: calls whose answers stand here as the document wants them. Then random calls, the
same for both: right and wrong lengths, replies that are good, altered, or no replies at all. Session
keys, which the second program has no line for, are compared with Python's own hmac. Last, coverage: it
fails if some builder's refusal, some verdict or some status was not reached. A run is fixed by its
seed, which is printed.
"""

import collections
import pathlib
import random
import sys

sys.dont_write_bytecode = True  # nothing is written beside the sources
sys.path[0] = str(pathlib.Path(__file__).resolve().parents[1])  # modules are named from tests/ on
from device.bytes import digits  # noqa: E402
from device.talk import try_cases  # noqa: E402
from shared.coverage import cover  # noqa: E402
from shared.programs import Comparison, expect  # noqa: E402
from shared.signer import (  # noqa: E402
    ALL_FF,
    increment_frame,
    request_frame,
    root_key_frame,
    session_key_frame,
    signature,
    signed_reply,
)
from shared.tally import Tally  # noqa: E402

# By type: what is built, the bytes of its data, the bytes of the frame.
BUILDERS = ("root key", "session key", "increment", "request")
DATA_SIZES = (0, 4, 4, 12)
FRAME_SIZES = (64, 40, 40, 48)

BUILT = {f"{builder} {number}" for builder in BUILDERS for number in (0, 5, 6, 7)}
VERDICTS = {"0 good", "0 busy", "0 failed", "0 tag", "0 signature", "6 refused", "8 refused"}
SESSION_KEYS = {"0", "6", "7"}

KEY = bytes(range(0x20, 0x40))
DATA = bytes.fromhex("00112233")
TAG = b"dappleteg 12"
VALUE = bytes.fromhex("000102FE")
REST = b"the rest"


def build_line(frame_type, counter, key, data, output):
    return f"B {frame_type} {counter} {digits(key)} {digits(data)} {digits(output)}"


def reply_line(key, tag, reply):
    return f"V {digits(key)} {digits(tag)} {digits(reply)}"


def session_key_line(root_key, data, output):
    return f"K {digits(root_key)} {digits(data)} {digits(output)}"


# ---- the edges


def built():
    """Each builder: the frame, at the front of an output that is long enough or as long."""
    frames = [
        (0, 3, KEY, b"", root_key_frame(3, KEY)),
        (0, 0, ALL_FF, b"", root_key_frame(0, ALL_FF)),
        (1, 1, KEY, DATA, session_key_frame(1, KEY, DATA)),
        (2, 2, KEY, VALUE, increment_frame(2, KEY, int.from_bytes(VALUE, "big"))),
        (3, 3, KEY, TAG, request_frame(3, KEY, TAG)),
    ]
    for *given, frame in frames:
        for rest in (b"", REST):
            yield build_line(*given, bytes(len(frame)) + rest), "0 " + digits(frame + rest)


def refused():
    """Each builder: 5 before 6 before 7, and the output as it was."""
    for frame_type, (data_size, frame_size) in enumerate(zip(DATA_SIZES, FRAME_SIZES)):
        data, short = bytes(data_size), REST * (frame_size // 8 - 1) + REST[:7]
        rows = [(counter, KEY, data, short, 5) for counter in (4, 255, 256, 257, 2**32 - 1)]
        rows += [(4, KEY[1:], data, short, 5), (4, KEY[1:], data, b"", 5)]
        rows += [(3, KEY[1:], data, short, 6), (3, KEY + b"\0", data, short + b"\0", 6), (0, b"", data, b"", 6)]
        if data_size:
            rows += [(3, KEY, data[1:], short, 6), (3, KEY, data + b"\0", short + b"\0", 6), (0, KEY, b"", b"", 6)]
        rows += [(3, KEY, data, short, 7), (0, KEY, data, b"", 7)]
        for counter, key, given, output, number in rows:
            yield build_line(frame_type, counter, key, given, output), f"{number} {digits(output)}"


def read():
    """Verdicts in their order: busy, failed, tag, signature, good; refusals before them."""
    told, other = TAG + VALUE, b"dappleteg 13" + VALUE
    signed = signed_reply(KEY, told)
    for status in range(256):
        wanted = "0 good 0 " + digits(VALUE) if status == 0x80 else f"0 failed {status} -"
        yield reply_line(KEY, TAG, bytes([status]) + signed), "0 busy 0 -" if status % 2 else wanted
    for reply, wanted in [
        (b"\x01" * 49, "0 busy 0 -"),
        (b"\x80" + b"\xff" * 48, "0 tag 0 -"),
        (b"\x80" + signed_reply(KEY, other), "0 tag 0 -"),
        (b"\x80" + other + bytes(32), "0 tag 0 -"),
        (b"\x80" + signed_reply(ALL_FF, told), "0 signature 0 -"),
        (b"\x80" + TAG + DATA + signature(KEY, told), "0 signature 0 -"),
        (b"\x80" + signed[:-1], "8 refused 0 -"),
        (b"\x80" + signed + b"\xff", "8 refused 0 -"),
        (b"\x01", "8 refused 0 -"),
        (b"", "8 refused 0 -"),
    ]:
        yield reply_line(KEY, TAG, reply), wanted
        yield reply_line(KEY[1:], TAG, reply), "6 refused 0 -"
        yield reply_line(KEY, TAG + b"\0", reply), "6 refused 0 -"


def no_requests():
    """Lines that are no request, each answered by `?`."""
    key, frame = digits(KEY), digits(bytes(40))
    lines = ["", " ", "B", "B ", "V", "K", "V - -", "V - - - -", "V - - 0", "V - - 9b", "V  - -", "v - - -", "VV - - -"]
    lines += [f"B {frame_type} 0 {key} - {frame}" for frame_type in ("4", "00", "-", "-1", "A", "4294967296")]
    lines += [f"B 1 {counter} {key} - {frame}" for counter in ("", "-", "+1", "01", "0x1", "4294967296")]
    lines += [f"B 0 0 {key} 00 {frame}", f"B 1 0 {key} - {frame} -", f"B 1 0 {key} -", f"B 1 0 0 - {frame}"]
    return [(line, "?") for line in lines]


def session_keys():
    """The key, at the front of an output that is long enough or as long; 6 before 7, and the output as it was."""
    wrong = [(KEY[1:], DATA), (KEY + b"\0", DATA), (b"", DATA), (KEY, DATA[1:]), (KEY, DATA + b"\0"), (KEY, b"")]
    for room in (0, 31, 32, 33, 64):
        output = (REST * 8)[:room]
        wanted = "0 " + digits(signature(KEY, DATA) + output[32:]) if room >= 32 else "7 " + digits(output)
        yield session_key_line(KEY, DATA, output), wanted
        for root_key, data in wrong:
            yield session_key_line(root_key, data, output), "6 " + digits(output)


EDGES = {
    "frames built": built,
    "frames refused": refused,
    "replies read": read,
    "lines that are no request": no_requests,
}


# ---- random calls


def length(rng, right, wrong):
    return right if rng.random() < 0.85 else rng.choice(wrong)


def random_build(rng):
    frame_type = rng.randrange(4)
    counter = length(rng, rng.randrange(4), (4, 5, 128, 255, 256, 259, 2**31, 2**32 - 1))
    key = rng.randbytes(length(rng, 32, (0, 1, 31, 33, 64)))
    data_size = DATA_SIZES[frame_type]
    data = rng.randbytes(length(rng, data_size, (0, 1, 3, 4, 5, 8, 11, 12, 13))) if data_size else b""
    size = FRAME_SIZES[frame_type]
    room = length(rng, rng.choice((size, size + rng.randrange(20))), (0, size - 1, rng.randrange(size)))
    return build_line(frame_type, counter, key, data, rng.randbytes(room))


def altered(rng, reply):
    """One bit of the reply changed, anywhere."""
    at = rng.randrange(len(reply))
    return reply[:at] + bytes([reply[at] ^ 1 << rng.randrange(8)]) + reply[at + 1 :]


def random_reply(rng):
    key = rng.randbytes(length(rng, 32, (0, 31, 33, 64)))
    tag = rng.randbytes(length(rng, 12, (0, 11, 13, 16)))
    reply = b"\x80" + signed_reply(key, tag + rng.randbytes(4))
    kind = rng.randrange(5)
    if kind == 1:
        reply = altered(rng, reply)
    elif kind == 2:
        reply = bytes([rng.randrange(256)]) + reply[1:]
    elif kind == 3:
        reply = rng.choice((b"\x80", rng.randbytes(1))) + rng.randbytes(48)
    elif kind == 4:
        reply = (reply + rng.randbytes(8))[: length(rng, 49, (0, 1, 17, 48, 50, 52))]
    return reply_line(key, tag, reply)


def compare_random(library, second, lines, reached):
    answers = library.ask_lines(lines)
    # nothing says here which of the two is wrong; the edges do
    expect("the library, beside the second program,", lines, answers, second.ask_lines(lines))
    reached.extend(zip(lines, answers))
    return f"{len(lines)} calls"


def random_session_key(rng):
    """A line, and its answer."""
    root_key = rng.randbytes(length(rng, 32, (0, 1, 31, 33, 64)))
    data = rng.randbytes(length(rng, 4, (0, 1, 3, 5, 32)))
    output = rng.randbytes(length(rng, rng.choice((32, 32 + rng.randrange(20))), (0, 31, rng.randrange(32))))
    wanted = "0 " + digits(signature(root_key, data) + output[32:])
    if len(root_key) != 32 or len(data) != 4:
        wanted = "6 " + digits(output)
    elif len(output) < 32:
        wanted = "7 " + digits(output)
    return session_key_line(root_key, data, output), wanted


def compare_session_keys(library, cases, reached):
    lines, wanted = zip(*cases)
    answers = library.ask_lines(lines)
    expect(library.name, lines, answers, wanted)
    reached.extend(zip(lines, answers))
    return f"{len(cases)} calls"


# ---- coverage


def covered(wanted, found):
    """Tells how often each was reached; fails if one never was."""
    cover(wanted, found)
    counts = collections.Counter(found)
    if len(wanted) > 20:
        return f"{len(wanted)}, each at least {min(counts[name] for name in wanted)} times"
    return ", ".join(f"{name}: {counts[name]}" for name in sorted(wanted))


def test_coverage(tally, reached):
    """`reached`: the random calls, each with the library's answer."""
    asked = [(line.split(" "), answer.split(" ")) for line, answer in reached]
    builds = [f"{BUILDERS[int(line[1])]} {answer[0]}" for line, answer in asked if line[0] == "B"]
    verdicts = [" ".join(answer[:2]) for line, answer in asked if line[0] == "V"]
    statuses = [line[3][:2] for line, answer in asked if line[0] == "V" and answer[0] == "0"]
    session_keys = [answer[0] for line, answer in asked if line[0] == "K"]
    for title, wanted, found in [
        ("each builder, done and refused", BUILT, builds),
        ("verdicts", VERDICTS, verdicts),
        ("statuses of replies", {f"{status:02X}" for status in range(256)}, statuses),
        ("session keys, made and refused", SESSION_KEYS, session_keys),
    ]:
        tally.test(f"coverage: {title}", lambda: covered(wanted, found))


def main():
    given = Comparison(__doc__, "host", 120_000, "random calls: half build, half read a reply")
    library, second, rng = given.library, given.second, random.Random(given.seed)
    tally, reached = Tally(), []
    for name, cases in EDGES.items():
        tally.test(name, lambda: try_cases((library, second), list(cases())))
    tally.test("session keys", lambda: compare_session_keys(library, list(session_keys()), []))
    for name, call in (("random builds", random_build), ("random replies", random_reply)):
        lines = [call(rng) for _ in range(given.count // 2)]
        tally.test(name, lambda: compare_random(library, second, lines, reached))
    session_key_cases = [random_session_key(rng) for _ in range(given.count // 10)]
    tally.test("random session keys", lambda: compare_session_keys(library, session_key_cases, reached))
    test_coverage(tally, reached)
    return tally.end()


if __name__ == "__main__":
    sys.exit(main())
