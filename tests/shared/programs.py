"""The programs that the tests ask, Python's own hash calls, and how their answers are compared.

A hash request is a letter and its fields as bytes: H message, M key message, B chain block. Its line
and its answer have the form that tests/hash/shim.c describes; other lines go through `ask_lines`.
"""

import argparse
import hashlib
import shlex
import subprocess

from shared.signer import signature
from shared.tally import Failed

LONGEST_MESSAGE = 55


def line_of(request):
    letter, *fields = request
    return " ".join([letter] + [field.hex() or "-" for field in fields])


class Program:
    """An implementation that answers request lines on its standard input."""

    def __init__(self, name, command):
        self.name = name
        self.command = command

    def ask_lines(self, lines):
        text = "".join(line + "\n" for line in lines).encode()
        done = subprocess.run(self.command, input=text, capture_output=True, timeout=300)
        answers = done.stdout.decode(errors="replace").splitlines()
        if done.returncode != 0 or len(answers) != len(lines):
            last = (answers or ["none"])[-1][:200]
            said = done.stderr.decode(errors="replace").strip()
            raise Failed(
                f"{self.name} ended with status {done.returncode} after {len(answers)} of {len(lines)}"
                f" answers, the last one: {last} {said}"
            )
        return answers

    def ask(self, requests):
        return self.ask_lines([line_of(request) for request in requests])


class Comparison:
    """What the command line of a comparison gives: the two programs, the seed, and how many random
    calls. Seed and count are printed."""

    def __init__(self, description, mode, count, counted):
        parser = argparse.ArgumentParser(
            description=description, formatter_class=argparse.RawDescriptionHelpFormatter
        )
        parser.add_argument("--shim", required=True, metavar="CMD", help="the command that runs the shim")
        parser.add_argument("--second", required=True, metavar="CMD", help="the command that runs the second program")
        parser.add_argument("--seed", type=int, default=1)
        parser.add_argument("--count", type=int, default=count, help=counted)
        given = parser.parse_args()
        print(f"seed {given.seed}, count {given.count}", flush=True)
        self.seed = given.seed
        self.count = given.count
        self.second_command = shlex.split(given.second)
        self.library = Program("the library", shlex.split(given.shim))
        self.second = self.second_in(mode)

    def second_in(self, mode):
        return Program("the second program", self.second_command + [mode])


class Platform:
    """Python's own hash functions, with the refusals of the scope document. Its HMAC is the signer's, so
    that the published vectors are tried on that too."""

    name = "Python"

    @staticmethod
    def answer(request):
        letter, *fields = request
        if letter == "M" and len(fields[0]) != 32:
            return "6 " + "00" * 32
        if len(fields[-1]) > LONGEST_MESSAGE:
            return "11 " + "00" * 32
        if letter == "M":
            return "0 " + signature(fields[0], fields[1]).hex()
        return "0 " + hashlib.sha256(fields[0]).hexdigest()

    def ask(self, requests):
        return [self.answer(request) for request in requests]


def expect(name, lines, given, wanted):
    """Fails at the first answer that is not the one wanted, and where there is none or one too many."""
    if not len(lines) == len(given) == len(wanted) > 0:
        raise Failed(f"{name} gives {len(given)} answers to {len(lines)} lines, where {len(wanted)} are wanted")
    wrong = [i for i in range(len(lines)) if given[i] != wanted[i]]
    if wrong:
        at = wrong[0]
        raise Failed(
            f"{name} answers `{given[at]}` to `{lines[at]}`, not `{wanted[at]}`"
            f" ({len(wrong)} of {len(lines)} answers are wrong)"
        )
