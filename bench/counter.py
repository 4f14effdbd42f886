"""Runs x86-64 programs, on this machine or under the emulator, counts their instructions and takes
their time.

The words of a script's command line are what runs an x86-64 program on this machine, if it does not
itself."""

import os
import shutil
import subprocess
import sys

from contestants import FOLDER

# Two runs whose numbers of calls are written with as many digits differ in the calls alone.
FEWER, MORE = 100, 200

EMULATOR = sys.argv[1:]


def output(command, settings, given=None):
    """What an x86-64 program prints, on this machine or under the emulator."""
    done = subprocess.run(
        EMULATOR + command, env=settings, input=given, stdout=subprocess.PIPE, text=True, check=False
    )
    if done.returncode != 0:
        sys.exit(f"bench: {' '.join(command)} ended with status {done.returncode}")
    return done.stdout


def total(command, settings, given=os.devnull):
    """The instructions of a whole run that reads a file. The environment is empty: a program's start
    reads it."""
    counter = [shutil.which("qemu-x86_64"), "-plugin", f"{FOLDER}/count.so"]
    with open(given, "rb") as file:
        done = subprocess.run(
            counter + command, env=settings, stdin=file, stdout=subprocess.DEVNULL,
            stderr=subprocess.PIPE, text=True, check=False
        )
    lines = [line for line in done.stderr.splitlines() if line.startswith("instructions ")]
    if done.returncode != 0 or len(lines) != 1:
        sys.exit(f"bench: {' '.join(command)} could not be counted: {done.stderr.strip()}")
    return int(lines[0].split()[1])


def twice(name, count):
    """What a function counts. It counts twice: a count that does not repeat is no count."""
    counted = [count() for _ in range(2)]
    if counted[0] != counted[1]:
        sys.exit(f"bench: {name}: counted {counted[0]}, then {counted[1]}")
    return counted[0]


def per_call(name, command_of, settings):
    """The instructions a call; command_of gives the words for a number of calls."""
    totals = lambda: total(command_of(MORE), settings) - total(command_of(FEWER), settings)
    return twice(name, totals) / (MORE - FEWER)


def processor_time(command, settings, given=os.devnull):
    """The processor time of a whole run that reads a file, in seconds: waiting for a processor is not
    in it."""
    quiet = [
        (os.POSIX_SPAWN_OPEN, 0, given, os.O_RDONLY, 0),
        (os.POSIX_SPAWN_OPEN, 1, os.devnull, os.O_WRONLY, 0),
    ]
    child = os.posix_spawn(command[0], command, settings, file_actions=quiet)
    _, status, usage = os.wait4(child, 0)
    if status != 0:
        sys.exit(f"bench: {' '.join(command)} ended with status {status} while timed")
    return usage.ru_utime + usage.ru_stime
