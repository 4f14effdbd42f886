#!/usr/bin/env python3
"""Tests that wrong drivers are found out: the driver in examples/ with an edit of a line or two, over the random
line (tests/host/random_line.c) or in the scenes of examples/session.c, which rpmcrun's command is for.

tests/host/wrong_drivers.py --cc CC --run RUN COMMAND..: the right driver has to pass both, compiled the same way.
For each wrong one the claim or the check that is named here has to fail.
"""

import argparse
import collections
import pathlib
import shlex
import shutil
import subprocess
import sys
import tempfile

sys.dont_write_bytecode = True  # nothing is written beside the sources
sys.path[0] = str(pathlib.Path(__file__).resolve().parents[1])  # modules are named from tests/ on
from shared.tally import Failed, Tally  # noqa: E402

ROOT = pathlib.Path(__file__).resolve().parents[2]
LIBRARIES = ["target/staticlib/librpmc_host.a", "crates/device_probe/out/libdevice_probe.a"]
FLAGS = ["-std=c99", "-O2", "-Wall", "-Wextra", "-Werror", "-Iinclude"]
PATIENCE = 600  # seconds for a program
SEED, SESSIONS = 1, 1_000

# A wrong driver: the file, the text in it, which occurs once, and what stands there instead; and what fails.
Wrong = collections.namedtuple("Wrong", "file old new fails")

OVER_THE_LINE = {
    "04h to a request is a copy": Wrong(
        "card.c",
        "    case RPMC_STATUS_NO_SESSION_KEY:\n    case RPMC_STATUS_WRONG_SIGNATURE:\n",
        "    case RPMC_STATUS_WRONG_SIGNATURE:\n        return CARD_COPY;\n    case RPMC_STATUS_NO_SESSION_KEY:\n",
        "no good card is called a copy",
    ),
    "04h to our root key is a copy, whatever the temporary key gets": Wrong(
        "card.c",
        "return CARD_UNFINISHED;",
        "return CARD_COPY;",
        "no card without a root key is called a copy",
    ),
    "04h is a copy, whether the counter is there or not": Wrong(
        "card.c",
        "return CARD_NO_COUNTER;",
        "return CARD_GOOD;",
        "no card that does not have the counter is called a copy",
    ),
    "80h to a session key frame is good": Wrong(
        "card.c",
        "    return outcome == CARD_GOOD ? ask(card, tag, value) : outcome;\n",
        "    uint8_t status = 0;\n    if (outcome == CARD_GOOD)\n        outcome = line_read(card, &status, 1, 0);\n"
        "    return status == RPMC_STATUS_DONE ? CARD_GOOD : outcome == CARD_GOOD ? ask(card, tag, value) : outcome;\n",
        "no copy is called good",
    ),
    "80h behind an increment is the next value": Wrong(
        "card.c",
        "        outcome = ask(card, tag, now);\n",
        "        outcome = line_read(card, tag, 1, 0);\n    *now = value + (tag[0] == RPMC_STATUS_DONE);\n",
        "no increment is believed that the device did not make",
    ),
    "the next value of the highest one is 0": Wrong(
        "card.c", "value != UINT32_MAX && now", "now", "no increment is believed that the device did not make",
    ),
    "10h behind a request says that the counter has moved": Wrong(
        "card.c",
        "        card->line.wait(card->line.context);\n",
        "        if (reply[0] == RPMC_STATUS_WRONG_VALUE)\n            return CARD_MOVED;\n",
        "a counter that is said to have moved has",
    ),
    "a status that stood there before is the frame's": Wrong(
        "card_line.c", "*status != before && ", "", "what else is said of a card is so",
    ),
    "the status that a dip leaves is the frame's": Wrong(
        "card_line.c", " && *status != RPMC_STATUS_POWER_ON", "", "what else is said of a card is so",
    ),
    "a late status is the frame's": Wrong(
        "card_line.c", "line_read(card, status, 1, CARD_LATE)", "line_read(card, status, 1, 0)",
        "what else is said of a card is so",
    ),
    "a session that was not opened is the old one": Wrong(
        "card.c", "    card->in_session = 0; /* from", "    /* from", "no renewal of a right card's session key is odd",
    ),
    "a frame is sent to a device at work": Wrong(
        "card_line.c",
        "    uint8_t status;\n    enum card_outcome outcome = line_read(card, &status, 1, 0);\n",
        "    enum card_outcome outcome = CARD_GOOD;\n",
        "once nothing goes wrong any more, every card is told for what it is",
    ),
}

IN_THE_SCENES = {
    "a card that is a copy once is one": Wrong(
        "card.c", "            copies++;\n", "            return CARD_COPY;\n", "damaged session key frames: no copy",
    ),
    "a request is lost, and the session with it": Wrong(
        "card.c",
        "    case RPMC_STATUS_DONE:\n        return CARD_LOST;\n    case RPMC_STATUS_FATAL",
        "    case RPMC_STATUS_DONE:\n        card->in_session = 0;\n        return CARD_LOST;\n    case RPMC_STATUS_FATAL",
        "lost on the line: no session key was renewed",
    ),
    "odd renewals are not counted": Wrong(
        "card.c",
        "status == RPMC_STATUS_WRONG_SIGNATURE;",
        "0u * status;",
        "card of the incident: both were odd renewals",
    ),
    "the root key is sent to every card": Wrong(
        "card.c",
        "    enum card_outcome outcome = card_open(card);\n    for",
        "    enum card_outcome outcome = line_send(card, frame, sizeof frame);\n    outcome = card_open(card);\n    for",
        "copied card: it was never sent our root key",
    ),
    "bytes are taken for fresh that are not": Wrong(
        "card.c", "bytes, length) != 0;", "bytes, length) < 0;", "no fresh bytes: no session",
    ),
}


def spoken(command):
    return subprocess.run(command, cwd=ROOT, capture_output=True, text=True, timeout=PATIENCE)


class Bench:
    """Compiles a driver, and runs what tries it."""

    def __init__(self, cc, run, command, folder):
        self.cc, self.run, self.command, self.folder = cc, run, command, folder

    def tried(self, sources, arguments):
        program = self.folder / "program"
        built = spoken(self.cc + FLAGS + [f"-I{self.folder}", "-o", program, *sources, *LIBRARIES])
        if built.returncode != 0:
            raise Failed(f"it does not compile: {built.stderr[-400:]}")
        return spoken(self.run + [program] + arguments)

    def over_the_line(self):
        sources = [self.folder / "card.c", self.folder / "card_line.c"]
        sources += [f"tests/host/{name}.c" for name in ("random_line", "claims", "rough_line", "card_device")]
        return self.tried(sources, [str(SEED), str(SESSIONS)])

    def in_the_scenes(self):
        return self.tried(sorted(self.folder.glob("*.c")), self.command)

    def put_in(self, wrong=None):
        """The driver and its scenes, with an edit."""
        for path in (ROOT / "examples").glob("*.[ch]"):
            shutil.copy(path, self.folder)
        if wrong:
            path = self.folder / wrong.file
            text = path.read_text()
            if text.count(wrong.old) != 1:
                raise Failed(f"`{wrong.old}` stands {text.count(wrong.old)} times in {wrong.file}")
            path.write_text(text.replace(wrong.old, wrong.new))


def passes(bench, tried):
    bench.put_in()
    done = tried()
    if done.returncode != 0:
        raise Failed(f"status {done.returncode}: {done.stdout[-400:]} {done.stderr[-200:]}")
    return done.stdout.splitlines()[-1]


def found_out(bench, tried, wrong):
    bench.put_in(wrong)
    done = tried()
    lines = done.stdout.splitlines() or ["nothing"]
    if done.returncode != 1 or not any(line.startswith(f"FAIL {wrong.fails}") for line in lines):
        last = f"status {done.returncode}, the last line: {lines[-1]} {done.stderr[-200:]}"
        raise Failed(f"`{wrong.fails}` does not fail; {last}")
    return lines[-1]


def main():
    parser = argparse.ArgumentParser(description=__doc__)
    parser.add_argument("--cc", required=True, type=shlex.split)
    parser.add_argument("--run", required=True, type=shlex.split)
    parser.add_argument("command", nargs=argparse.REMAINDER)
    given, tally = parser.parse_args(), Tally()
    with tempfile.TemporaryDirectory() as folder:
        bench = Bench(given.cc, given.run, given.command, pathlib.Path(folder))
        for title, tried, wrongs in [
            ("over the random line", bench.over_the_line, OVER_THE_LINE),
            ("in the scenes", bench.in_the_scenes, IN_THE_SCENES),
        ]:
            tally.test(f"the right driver passes {title}", lambda: passes(bench, tried))
            for name, wrong in wrongs.items():
                tally.test(f"found out {title}: {name}", lambda: found_out(bench, tried, wrong))
    return tally.end()


if __name__ == "__main__":
    sys.exit(main())
