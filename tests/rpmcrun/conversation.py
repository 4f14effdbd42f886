#!/usr/bin/env python3
"""Tests that one can talk with rpmcrun over pipes: every line is answered when its newline has come, in
however many pieces, and without waiting for the next. And that an input which cannot be read has not ended.

tests/rpmcrun/conversation.py COMMAND: the histories are random ones, with the answers of the model; each test
is a program of its own.
"""

import os
import pathlib
import random
import socket
import subprocess
import sys

sys.dont_write_bytecode = True  # nothing is written beside the sources
sys.path[0] = str(pathlib.Path(__file__).resolve().parents[1])  # modules are named from tests/ on
from rpmcrun.history import History  # noqa: E402
from rpmcrun.reached import Reached  # noqa: E402
from rpmcrun.talk import FIRST_LINE, PATIENCE, Conversation, converse, expect, shown  # noqa: E402
from rpmcrun.walks import Walk  # noqa: E402
from shared.tally import Failed, Tally  # noqa: E402

SEEDS = (1, 2)
LINES = 1000
FEW_LINES = 150
SILENCE = 0.005  # seconds; an answer that comes too early, but later than this, is heard in another's place
MOST_AT_ONCE = 20_000  # bytes: less than a pipe holds, with the answers too

UNFINISHED = [b"P", b"F 66", b"S 255", b"R 49", b"Q", b"F 6", b"F " + b"00" * 256, b"F " + b"00" * 300, b"R 1" * 9000]


def pairs_of(seed, lines):
    """Lines of a random history with the model's answers."""
    history = Walk(seed, Reached()).go_on(lines)
    return list(zip(history.lines, history.answers[1:]))


def tell(command, writes):
    """Takes the program through writes. With each stand the answers that it has to be followed by,
    without waiting for the next; where there are none, nothing may come."""
    if not any(answers for _, answers in writes):
        raise Failed("there was no line")
    with Conversation(command) as talk:
        expect("first line", talk.hear(), FIRST_LINE)
        for number, (data, answers) in enumerate(writes):
            talk.write(data)
            if not answers:
                talk.stay_silent(SILENCE)
            for wanted in answers:
                expect(f"answer after write {number} `{shown(data)}`", talk.hear(), wanted)
        talk.end()
    return f"{sum(len(answers) for _, answers in writes)} lines in {len(writes)} writes"


def in_pieces(seed):
    """Each line in two writes or more, with its newline as the last: not a byte is said before it."""
    rng = random.Random(seed)
    writes = []
    for line, wanted in pairs_of(seed, FEW_LINES):
        size = rng.choice((len(line), len(line) // 2, 3)) or 1
        size = size if len(line) < 20 else max(size, len(line) // 3)
        writes += [(line[at : at + size], []) for at in range(0, len(line), size)] + [(b"\n", [wanted])]
    return writes


def byte_by_byte(_):
    """A write for each byte."""
    history = History("byte by byte", Reached())
    for line in (b"R 2", b"F 9B07", b"S 1", b"R 1", b"", b"?", b"S 256", b"F 66", b"F 99", b"R 3", b"P"):
        history.say(line)
    pairs = zip(history.lines, history.answers[1:])
    return [(bytes([byte]), [wanted] if byte == 10 else []) for line, wanted in pairs for byte in line + b"\n"]


def with_next_begun(seed):
    """Each line together with the front of the next one: it is answered though the other is not whole."""
    rng = random.Random(seed)
    pairs = pairs_of(seed, LINES)
    text = b"".join(line + b"\n" for line, _ in pairs)
    writes, start, end = [], 0, 0
    for number, (line, wanted) in enumerate(pairs):
        end += len(line) + 1
        following = pairs[number + 1][0] if number + 1 < len(pairs) else b""
        stop = end + rng.randrange(len(following) + 1)
        writes.append((text[start:stop], [wanted]))
        start = stop
    return writes


def many_at_once(seed):
    """Several lines in one write: all are answered, though nothing more comes."""
    rng = random.Random(seed)
    left, writes = pairs_of(seed, LINES), []
    while left:
        count = rng.choice((1, 2, 10, 60))
        while sum(len(line) for line, _ in left[:count]) > MOST_AT_ONCE and count > 1:
            count //= 2
        some, left = left[:count], left[count:]
        writes.append((b"".join(line + b"\n" for line, _ in some), [wanted for _, wanted in some]))
    return writes


def unfinished(command, last):
    """The input ends inside of a line: it is a line like any other."""
    wanted = History("unfinished", Reached()).say(last)
    with Conversation(command) as talk:
        expect("first line", talk.hear(), FIRST_LINE)
        talk.write(last)
        talk.stay_silent(SILENCE)
        talk.process.stdin.close()
        expect(f"answer to `{shown(last)}`", talk.hear(), wanted)
        talk.end()


# ---- an input that cannot be read


def told_why(talk, why):
    """Nothing more is said on standard output, and standard error is told why."""
    said, errors = talk.process.communicate(timeout=PATIENCE)
    expect("standard output", talk.heard + said, b"")
    if why not in errors:
        raise Failed(f"standard error is told `{shown(errors)}`, not `{shown(why)}`")
    return shown(errors.strip())


def broken_off(command):
    """The input breaks off inside of a line, and no end of it came: the line is not answered. The other
    end of a socket is shut while something for it is not yet read: the next read is refused."""
    ours, theirs = socket.socketpair()
    with ours, theirs, Conversation(command, stdin=theirs, stderr=subprocess.PIPE) as talk:
        ours.sendall(b"R 1\nP")
        expect("first line", talk.hear(), FIRST_LINE)
        expect("answer to `R 1`", talk.hear(), b"R 0 00")
        theirs.sendall(b"not read")
        ours.close()
        return told_why(talk, b"Connection reset by peer")


def no_input(command):
    """A folder in the place of an input: no line of it is answered."""
    folder = os.open("/", os.O_RDONLY)
    try:
        with Conversation(command, stdin=folder, stderr=subprocess.PIPE) as talk:
            expect("first line", talk.hear(), FIRST_LINE)
            return told_why(talk, b"Is a directory")
    finally:
        os.close(folder)


WRITES = {
    "a line in pieces": in_pieces,
    "a byte at a time": byte_by_byte,
    "a line with the front of the next": with_next_begun,
    "many lines at once": many_at_once,
}


def main():
    command = sys.argv[1:]
    if not command:
        sys.exit("usage: tests/rpmcrun/conversation.py COMMAND")
    tally = Tally()
    for seed in SEEDS:
        pairs = pairs_of(seed, LINES)
        tally.test(f"conversation {seed}: an answer before the next line", lambda: converse(command, pairs))
        for name, writes in WRITES.items():
            tally.test(f"conversation {seed}: {name}", lambda: tell(command, writes(seed)))
    for last in UNFINISHED:
        name = f"conversation: ends after `{shown(last[:8])}`, {len(last)} bytes"
        tally.test(name, lambda: unfinished(command, last))
    tally.test("conversation: breaks off after `P`, 1 byte", lambda: broken_off(command))
    tally.test("conversation: a folder for an input", lambda: no_input(command))
    return tally.end()


if __name__ == "__main__":
    sys.exit(main())
