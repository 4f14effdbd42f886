"""Checks, counts and times the contestants that bench/run has built, and measures their stack.

   measure.py [EMULATOR WORD...]    what runs an x86-64 program on this machine, if it does not itself

Writes target/bench/results.json."""

import json
import os
import sys

from contestants import CONTESTANTS, FOLDER, WORK
from counter import EMULATOR, output, per_call, processor_time

CHECKED_CALLS = 1000
ROUNDS = 41
TIMED_CALLS = {"block": 20000, "hmac": 5000}

LIBRARY = CONTESTANTS[0]


def results_of(contestant, requests):
    """All that is compared: the answers for random inputs, and the last of many calls."""
    found = {"random inputs": output(contestant.answers_command(), contestant.settings, requests)}
    for what in WORK:
        command = contestant.command(what, CHECKED_CALLS)
        found[f"{CHECKED_CALLS} calls of {what}"] = output(command, contestant.settings)
    return found


def check(contestants):
    """Stops the run at a contestant whose results are not the library's."""
    requests = output([LIBRARY.path, "requests"], {})
    wanted = results_of(LIBRARY, requests)
    for contestant in contestants:
        given = results_of(contestant, requests)
        for name, text in given.items():
            if text != wanted[name]:
                sys.exit(f"bench: {contestant.title} differs from the library in {name}")
    inputs = len(requests.splitlines())
    print(f"check  {len(contestants)} contestants agree on {inputs} random inputs", flush=True)


def count(contestant, what):
    """The instructions a call."""
    return per_call(
        f"{contestant.title}, {what}", lambda n: contestant.command(what, n), contestant.settings
    )


def count_all(contestants):
    """A list of one for each kind of work: the tables are made of lists, as the times are."""
    counts = {}
    for contestant in contestants:
        if contestant.counted:
            block, hmac = [count(contestant, what) for what in WORK]
            counts[contestant.name] = {"block": [block], "hmac": [hmac]}
            print(f"count  {contestant.title}: block {block:.2f}, HMAC {hmac:.2f}", flush=True)
    return counts


def time_call(contestant, what):
    """The nanoseconds a call: the program's start and its first call are taken off."""
    calls = TIMED_CALLS[what]
    start, whole = [
        processor_time(contestant.command(what, n), contestant.settings) for n in (1, 1 + calls)
    ]
    return 1e9 * (whole - start) / calls


def time_all(contestants):
    """All rounds of all contestants, who take turns so that each meets the same load."""
    calls = f"{TIMED_CALLS['block']} blocks and {TIMED_CALLS['hmac']} HMACs"
    print(f"time   {ROUNDS} rounds of {calls} each", flush=True)
    times = {contestant.name: {what: [] for what in WORK} for contestant in contestants}
    for _ in range(ROUNDS):
        for what in WORK:
            for contestant in contestants:
                times[contestant.name][what].append(time_call(contestant, what))
    return times


def stack_all(contestants):
    """The measured bytes of stack, of those that bench/run linked with stack.c."""
    stacks = {}
    for contestant in contestants:
        if os.path.exists(contestant.path + ".stack"):
            text = output([contestant.path + ".stack"], contestant.settings)
            stacks[contestant.name] = {what: int(n) for what, n in map(str.split, text.splitlines())}
    return stacks


def main():
    there = [contestant for contestant in CONTESTANTS if contestant.is_there()]
    check(there)
    results = {
        "counts": count_all(there),
        "times": {} if EMULATOR else time_all(there),
        "stacks": stack_all(there),
    }
    with open(f"{FOLDER}/results.json", "w", encoding="utf-8") as file:
        json.dump(results, file, indent=1)


main()
