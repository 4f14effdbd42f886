"""Checks, counts and times rpmcrun beside the second program's, a line at a time.

   lines.py [EMULATOR WORD...]    what runs an x86-64 program on this machine, if it does not itself

Writes target/bench/lines.json. It ends the run if a line costs more in a long input than in a short
one; times are asserted nowhere."""

import json
import os
import sys
from statistics import median

from contestants import FOLDER
from counter import EMULATOR, FEWER, MORE, output, processor_time, total, twice
from line_sorts import CONTROL, EXCHANGE, ONE_BYTE, SORTS

INPUT = f"{FOLDER}/lines.txt"
CHECKED_LINES = 300
STARTS = [1_000, 1_000_000]  # the lines that are said before those whose cost is compared
WINDOW = 65_536  # lines that are compared: any usual buffer ends as often in one window as in another
MOST_GROWTH = 1.001
ROUNDS = 11
TIMED = [(CONTROL, 200_000), (EXCHANGE, 60_000)]

RPMCRUN, SECOND = "rpmcrun", "second"


def commands():
    """The words of the programs that are there. The first program's stand in a file, one a line."""
    with open(f"{FOLDER}/rpmcrun.words", encoding="utf-8") as file:
        words = {RPMCRUN: file.read().splitlines(), SECOND: [f"{FOLDER}/second", "rpmcrun"]}
    return {name: command for name, command in words.items() if os.path.exists(command[0])}


def write_input(sort, lines):
    with open(INPUT, "w", encoding="utf-8") as file:
        file.write(sort.text(lines))


def check(found):
    """Stops the run where the programs do not answer alike, or not each line."""
    for sort in SORTS:
        text = sort.text(CHECKED_LINES)
        given = {name: output(command, {}, text) for name, command in found.items()}
        if len(set(given.values())) > 1:
            sys.exit(f"bench: the programs differ on {sort.title}")
        for name, answers in given.items():
            if answers.count("\n") != text.count("\n") + 1:
                sys.exit(f"bench: {name} does not answer each line of {sort.title}")
    said = f"{len(found)} programs agree" if len(found) > 1 else f"{', '.join(found)} alone answers each line, compared with none,"
    print(f"check  {said} on {len(SORTS)} sorts of lines", flush=True)


def whole(command, sort, lines):
    write_input(sort, lines)
    return total(command, {}, INPUT)


def per_block(name, command, sort):
    """The instructions of a block of lines, without what the kernel does for it."""
    more, fewer = [blocks * len(sort.block) for blocks in (MORE, FEWER)]
    counted = twice(f"{name}, {sort.title}", lambda: whole(command, sort, more) - whole(command, sort, fewer))
    return counted / (MORE - FEWER)


def by_length(name, command):
    """The instructions a line after few lines, and after many."""
    costs = []
    for start in STARTS:
        before, after = [whole(command, ONE_BYTE, lines) for lines in (start, start + WINDOW)]
        costs.append((after - before) / WINDOW)
    if costs[1] > MOST_GROWTH * costs[0]:
        told = [f"{cost:.1f} after {start} lines" for cost, start in zip(costs, STARTS)]
        sys.exit(f"bench: {name}: a line costs {' and '.join(told)}")
    return costs


def rate(command, sort, lines):
    """Lines a second of processor time: the program's start, and what is said before, are taken off."""
    write_input(sort, 0)
    start = processor_time(command, {}, INPUT)
    write_input(sort, lines)
    return sort.lines(lines) / (processor_time(command, {}, INPUT) - start)


def rates(found):
    """All rounds of both programs, which take turns so that each meets the same load."""
    times = {sort.title: {name: [] for name in found} for sort, _ in TIMED}
    for _ in range(ROUNDS):
        for sort, lines in TIMED:
            for name, command in found.items():
                times[sort.title][name].append(rate(command, sort, lines))
    return times


def main():
    found = commands()
    check(found)
    results = {"counts": {}, "lengths": {}, "starts": STARTS, "repeated": ONE_BYTE.title, "rates": {}}
    for name, command in found.items():
        results["counts"][name] = {sort.title: per_block(name, command, sort) for sort in SORTS}
        results["lengths"][name] = by_length(name, command)
        short, long = results["lengths"][name]
        costs = f"{ONE_BYTE.title}: {short:.0f}, after many {long:.0f}"
        print(f"count  {name}: {len(SORTS)} sorts of lines; {costs}", flush=True)
    if not EMULATOR:
        print(f"time   {ROUNDS} rounds of lines", flush=True)
        results["rates"] = rates(found)
        for title, by_name in results["rates"].items():
            told = ", ".join(f"{name} {median(values):.0f}" for name, values in by_name.items())
            print(f"time   {title}: {told} lines a second", flush=True)
    with open(f"{FOLDER}/lines.json", "w", encoding="utf-8") as file:
        json.dump(results, file, indent=1)


main()
