"""A running program over pipes: a conversation, a line at a time, or all of its input at once."""

import os
import select
import subprocess
import threading
import time

from shared.tally import Failed

PATIENCE = 20  # seconds for one answer, and for an end
FIRST_LINE = b"counters 4"  # what rpmcrun says before it reads


class Conversation:
    """A running program, which is told a line and has to answer it before it is told the next."""

    def __init__(self, command, **pipes):
        """`pipes`: another input than a pipe, or an output for its errors."""
        pipes = {"stdin": subprocess.PIPE, "stdout": subprocess.PIPE} | pipes
        self.process = subprocess.Popen(command, **pipes, bufsize=0)
        self.heard = b""

    def __enter__(self):
        return self

    def __exit__(self, *_):
        self.process.kill()
        self.process.wait()
        for pipe in (self.process.stdin, self.process.stdout, self.process.stderr):
            if pipe:
                pipe.close()

    def is_ready(self, seconds):
        """Whether something can be heard, or the end of the output, within some seconds."""
        return bool(select.select([self.process.stdout], [], [], max(0, seconds))[0])

    def more(self, deadline):
        """Reads what is there, waiting for some; gives nothing at the output's end."""
        if not self.is_ready(deadline - time.monotonic()):
            raise Failed(f"no answer in {PATIENCE} seconds, after {self.heard[:160]!r}")
        return os.read(self.process.stdout.fileno(), 65536)

    def hear_more(self, deadline):
        piece = self.more(deadline)
        if not piece:
            raise Failed(f"it ended, after {self.heard[:160]!r}")
        self.heard += piece

    def hear(self):
        """The next line."""
        deadline = time.monotonic() + PATIENCE
        while b"\n" not in self.heard:
            self.hear_more(deadline)
        line, self.heard = self.heard.split(b"\n", 1)
        return line

    def hear_bytes(self, length):
        """So many bytes; each piece of them has to come in time."""
        while len(self.heard) < length:
            self.hear_more(time.monotonic() + PATIENCE)
        front, self.heard = self.heard[:length], self.heard[length:]
        return front

    def write(self, data):
        left = memoryview(data)
        try:
            while left:
                left = left[self.process.stdin.write(left) :]
        except BrokenPipeError:
            raise Failed("it does not read on") from None

    def say(self, line):
        self.write(line + b"\n")

    def feed(self, pieces, is_all):
        """Writes pieces while others listen, and ends the input behind them if they are all. Where this
        fails, answers are missing."""

        def write_all():
            try:
                for piece in pieces:
                    self.write(piece)
                if is_all:
                    self.process.stdin.close()
            except (Failed, OSError, ValueError):
                pass

        threading.Thread(target=write_all, daemon=True).start()

    def stay_silent(self, seconds):
        """Nothing may come within some seconds."""
        if self.heard or self.is_ready(seconds):
            raise Failed(f"it speaks too early: {self.heard[:160]!r}")

    def end(self):
        """Ends the input: nothing more may come, and the program ends well."""
        self.process.stdin.close()
        rest = self.heard + self.more(time.monotonic() + PATIENCE)
        if rest:
            raise Failed(f"it says more: {rest[:80]!r}")
        self.end_well()

    def end_well(self):
        if self.process.wait(PATIENCE) != 0:
            raise Failed(f"it ended with status {self.process.returncode}")


def expect(what, given, wanted):
    if given != wanted:
        raise Failed(f"{what}: `{shown(given)}`, not `{shown(wanted)}`")


def shown(line):
    """A line of bytes for a report: what is no printable character is escaped, and the end cut off."""
    text = line[:160].decode("latin-1").encode("unicode_escape").decode()
    return text if len(line) <= 160 else f"{text}.. ({len(line)} bytes)"


def converse(command, pairs):
    """Takes the program through lines with the answers wanted, each before the next is told."""
    if not pairs:
        raise Failed("there was no line")
    with Conversation(command) as talk:
        expect("first line", talk.hear(), FIRST_LINE)
        for line, wanted in pairs:
            talk.say(line)
            expect(f"answer to `{shown(line)}`", talk.hear(), wanted)
        talk.end()
    return f"{len(pairs)} lines"


def at_once(command, text, most):
    """All that the program says to an input; more bytes than these are too many."""
    with Conversation(command) as talk:
        talk.feed([text], is_all=True)
        pieces, length = [], 0
        while piece := talk.more(time.monotonic() + PATIENCE):
            pieces.append(piece)
            length += len(piece)
            if length > most:
                raise Failed(f"it says more than {most} bytes, and at the end {piece[-80:]!r}")
        talk.end_well()
    return b"".join(pieces)
