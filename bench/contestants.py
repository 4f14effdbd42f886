"""The contestants of the benchmark, in the order of the tables, and how each is run."""

import os
from dataclasses import dataclass, field

FOLDER = "target/bench"
LIBRARY = "library"
WORK = ["block", "hmac"]


@dataclass
class Contestant:
    name: str
    title: str
    program: str = ""  # if it is not called as the contestant
    settings: dict = field(default_factory=dict)
    counted: bool = True

    @property
    def path(self):
        return f"{FOLDER}/{self.program or self.name}"

    def is_there(self):
        return os.path.exists(self.path)

    def why_absent(self):
        """The line that bench/run left when it could not build the program."""
        with open(self.path + ".absent", encoding="utf-8") as file:
            return file.read().strip()

    def command(self, what, n):
        """The words that do the work n times and print its last result."""
        return [self.path, what, str(n)]

    def answers_command(self):
        return [self.path, "answers"]


class SecondProgram(Contestant):
    """The second program has its own words, and reads the requests."""

    def command(self, what, n):
        return [self.path, "bench", str(n), what]

    def answers_command(self):
        return [self.path, "hash"]


# No capability at all leaves OpenSSL its integer assembly. What it chooses by itself depends on the
# processor, and the one that qemu shows has fewer extensions than most: that choice is only timed.
CONTESTANTS = [
    Contestant(LIBRARY, "the library"),
    Contestant("textbook-gcc", "C, textbook loop, gcc"),
    Contestant("textbook-clang", "C, textbook loop, clang"),
    Contestant("unrolled-gcc", "C, unrolled, gcc"),
    Contestant("unrolled-clang", "C, unrolled, clang"),
    SecondProgram("second", "the second program, Rust"),
    Contestant("openssl-integer", "OpenSSL, integer assembly", "openssl", {"OPENSSL_ia32cap": "0:0"}),
    Contestant("openssl-own-choice", "OpenSSL, its own choice", "openssl", counted=False),
]
