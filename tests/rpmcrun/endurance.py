#!/usr/bin/env python3
"""Tests that rpmcrun takes input of any length in the same memory, and what a line costs in calls of
the system: at most one that writes, and none that reads a single byte.

tests/rpmcrun/endurance.py COMMAND: an emulator's memory counts as well, so what is compared is a long input
with a short one. The calls are counted by the kernel, in a conversation, and once more by strace.
"""

import pathlib
import re
import sys
import time

sys.dont_write_bytecode = True  # nothing is written beside the sources
sys.path[0] = str(pathlib.Path(__file__).resolve().parents[1])  # modules are named from tests/ on
from rpmcrun import calls  # noqa: E402
from rpmcrun.history import History  # noqa: E402
from rpmcrun.reached import Reached  # noqa: E402
from rpmcrun.talk import FIRST_LINE, Conversation, expect  # noqa: E402
from shared.signer import root_key_frame  # noqa: E402
from shared.tally import Failed, Tally  # noqa: E402

LINES = 1_000_000
FEW_LINES = 2_000
LONG_LINE = 32 << 20  # bytes
MOST_GROWTH = 4096  # kB: some four bytes for each of the many lines, and far less than the long one
PIECE = 65_536  # bytes, in which a long line is written
UNHEARD = 0.3  # seconds in which nobody listens, so that the answers fill their pipe
TALKS = 200  # lines of a length in a conversation
LEAST_BUFFER = 64  # bytes that a program may be expected to read at once, if they are there

WRONGLY_SIGNED = root_key_frame(3, bytes(range(32)))[:-1] + b"\x00"  # four steps that change nothing


def block():
    """Lines of every sort that leave the device as they found it; they are said again and again."""
    history = History("block", Reached())
    for turn in range(10):
        history.power_up()
        history.frame(WRONGLY_SIGNED)
        for quota in (0, turn, 255):
            history.work(quota)
            history.read(1 + turn)
        history.frame(b"\x9b\x07")
        history.read(256 if turn == 0 else 49)
        for line in (b"", b"r 1", b"S 256", b"F " + b"00" * turn):
            history.say(line)
        history.reset()
        history.read(2)
    return history


# ---- memory


def highest_memory(process):
    """The most memory that a process has had, in kB."""
    return int(re.search(r"VmHWM:\s+(\d+) kB", pathlib.Path(f"/proc/{process.pid}/status").read_text())[1])


def memory_for(command, pieces, answers):
    """The most memory for an input in pieces, whose answers are these, in pieces too."""
    with Conversation(command) as talk:
        talk.feed(pieces, is_all=False)
        time.sleep(UNHEARD)
        expect("first line", talk.hear(), FIRST_LINE)
        for number, wanted in enumerate(answers):
            expect(f"piece {number} of the answers", talk.hear_bytes(len(wanted)), wanted)
        memory = highest_memory(talk.process)
        talk.end()
    return memory


def same_memory(what, short, long):
    if long > short + MOST_GROWTH:
        raise Failed(f"{long} kB for {what}, {short} kB for a short input")
    return f"{long} kB, and {short} kB for a short input"


def memory_for_blocks(command, count):
    said = block()
    answers = said.output[len(FIRST_LINE) + 1 :]
    return memory_for(command, (said.text for _ in range(count)), (answers for _ in range(count)))


def many_lines(command):
    lines = len(block().lines)
    short, long = [memory_for_blocks(command, -(-count // lines)) for count in (FEW_LINES, LINES)]
    return same_memory(f"{LINES} lines", short, long)


def memory_for_line(command, length):
    def pieces():
        yield b"R 2\nF "
        for _ in range(length // PIECE):
            yield b"66" * (PIECE // 2)
        yield b"\nR 1\n"

    return memory_for(command, pieces(), [b"R 0 00FF\n?\nR 0 00\n"])


def long_line(command):
    short, long = memory_for_line(command, 2 * PIECE), memory_for_line(command, LONG_LINE)
    return same_memory(f"a line of {LONG_LINE} bytes", short, long)


# ---- calls of the system


def calls_in_talk(command):
    """Each line is written at once when the program waits for it: one read or few take it."""
    lines = [b"", b"P", b"R 49", b"F " + b"00" * 64, b"F " + b"00" * 256, b"Q" * 3000]
    told = []
    with Conversation(command) as talk:
        talk.hear()
        for line in lines:
            before = calls.counted(talk.process)
            for _ in range(TALKS):
                talk.say(line)
                talk.hear()
            read, wrote = [after - earlier for after, earlier in zip(calls.counted(talk.process), before)]
            told.append(f"{len(line) + 1} bytes: {read / TALKS:g} and {wrote / TALKS:g}")
            # the kernel counts a call when it is over: the last before these may be among them, their own last not
            if wrote < TALKS - 1 or read < TALKS - 1:
                raise Failed(f"the kernel counts {read} reads and {wrote} writes for {TALKS} lines that were answered")
            if wrote > TALKS + 1 or read > TALKS * (1 + len(line) // LEAST_BUFFER) + 1:
                raise Failed(f"{TALKS} lines of {len(line) + 1} bytes take {read} reads and {wrote} writes")
        talk.end()
    return "reads and writes a line: " + ", ".join(told)


def calls_traced(command):
    said = block()
    text, wanted = said.text * 20, FIRST_LINE + b"\n" + said.output[len(FIRST_LINE) + 1 :] * 20
    lines = 20 * len(said.lines)
    output, asked, wrote = calls.traced(command, text)
    expect("output", output, wanted)
    if sum(wrote) != len(wanted) or not asked:
        raise Failed(f"the trace shows {len(asked)} reads, and writes of {sum(wrote)} bytes of {len(wanted)}")
    if min(asked) <= 1:
        raise Failed(f"a read asks for {min(asked)} bytes")
    if len(wrote) > lines + 1:
        raise Failed(f"{len(wrote)} writes for {lines} lines")
    return f"{lines} lines, {len(asked)} reads of {min(asked)} bytes or more, {len(wrote)} writes"


def test_or_skip(tally, name, why_not, test):
    why = why_not()
    if why:
        tally.skip(name, why)
    else:
        tally.test(name, test)


def main():
    command = sys.argv[1:]
    if not command:
        sys.exit("usage: tests/rpmcrun/endurance.py COMMAND")
    tally = Tally()
    tally.test(f"memory: {LINES} lines", lambda: many_lines(command))
    tally.test(f"memory: a line of {LONG_LINE >> 20} MB", lambda: long_line(command))
    test_or_skip(tally, "calls: in a conversation", calls.why_not_counted, lambda: calls_in_talk(command))
    test_or_skip(tally, "calls: traced", calls.why_not_traced, lambda: calls_traced(command))
    return tally.end()


if __name__ == "__main__":
    sys.exit(main())
