#!/usr/bin/env python3
"""Compares two programs rpmcrun, the proved one and the second program's, on long histories, line by
line, with each other and with a model of document 01 (model.py).

First the model alone, on the document's examples. Then histories without chance: every kind of job
interrupted after each of its steps, and whole ranges. Then random ones, each made from a seed of its
own. Each of the two has to reach all that can be reached (reached.py), or it fails. A random
history that fails is told by its seed:

  --only SEED    repeats it alone
  --endless      goes on with further seeds until one fails, or it is stopped
"""

import argparse
import itertools
import pathlib
import shlex
import sys

sys.dont_write_bytecode = True  # nothing is written beside the sources
sys.path[0] = str(pathlib.Path(__file__).resolve().parents[1])  # modules are named from tests/ on
from rpmcrun import examples, jobs, tables  # noqa: E402
from rpmcrun.history import History, compare, compare_all  # noqa: E402
from rpmcrun.reached import Reached  # noqa: E402
from rpmcrun.talk import expect  # noqa: E402
from rpmcrun.walks import random_history  # noqa: E402
from shared.programs import Program  # noqa: E402
from shared.tally import Tally  # noqa: E402

GROUP = 25_000  # random lines to a test

WITHOUT_CHANCE = {
    "jobs interrupted by a reset after each step": lambda reached: jobs.all_cuts("reset", reached),
    "jobs interrupted by a power-up after each step": lambda reached: jobs.all_cuts("power-up", reached),
    "jobs, a step at a time": jobs.all_step_by_step,
    "jobs, in two calls": jobs.all_in_two_calls,
    "whole ranges": tables.all_tables,
    "ends of the input": tables.ends,
}


def compare_model():
    """The model answers the document's examples as they stand there."""
    for name, row in examples.ROWS:
        history = History(name, Reached())
        for line, wanted in row:
            expect(f"{name}: the model's answer to `{line}`", history.say(line.encode()), wanted.encode())
    return f"{len(examples.ROWS)} rows"


def compare_random(programs, seeds, lines, reached):
    """Histories of the next seeds, until there are so many lines."""
    said, first = 0, None
    while said < lines:
        seed = next(seeds)
        first = seed if first is None else first
        history = random_history(seed, reached)
        compare(programs, history)
        said += len(history.lines)
    return f"{said} lines, seeds {first} to {seed}"


def test_random(tally, programs, seeds, reached):
    tally.test("random histories", lambda: compare_random(programs, seeds, GROUP, reached))


def go_on(programs, first):
    """Without end, until a history fails."""
    seeds, reached, tally = itertools.count(first), Reached(), Tally()
    while tally.failed == 0:
        test_random(tally, programs, seeds, reached)
    return tally.end()


def repeat(programs, seed, file):
    history = random_history(seed, Reached())
    if file:
        with open(file, "wb") as script:
            script.write(history.text)
    tally = Tally()
    tally.test(f"the history of seed {seed}", lambda: compare_all(programs, [history]))
    return tally.end()


def arguments():
    parser = argparse.ArgumentParser(description=__doc__, formatter_class=argparse.RawDescriptionHelpFormatter)
    parser.add_argument("--program", required=True, metavar="CMD", help="the command that runs rpmcrun")
    parser.add_argument("--second", required=True, metavar="CMD", help="the command that runs the second program")
    parser.add_argument("--seed", type=int, default=1, help="the first random history's")
    parser.add_argument("--lines", type=int, default=250_000, help="random lines, at least")
    parser.add_argument("--only", type=int, metavar="SEED", help="this random history alone")
    parser.add_argument("--write", metavar="FILE", help="with --only: writes the history's lines to a file")
    parser.add_argument("--endless", action="store_true", help="random histories without end")
    return parser.parse_args()


def main():
    given = arguments()
    program = Program("rpmcrun", shlex.split(given.program))
    programs = (program, Program("the second program", shlex.split(given.second) + ["rpmcrun"]))
    if given.only is not None:
        return repeat(programs, given.only, given.write)
    if given.endless:
        return go_on(programs, given.seed)
    print(f"seed {given.seed}, lines {given.lines}", flush=True)
    tally, seeds = Tally(), itertools.count(given.seed)
    tally.test("the model on the document's examples", compare_model)
    reached = Reached()
    for name, histories in WITHOUT_CHANCE.items():
        tally.test(name, lambda: compare_all(programs, histories(reached)))
    reached.test(tally, " without chance")
    reached = Reached()
    for _ in range(0, given.lines, GROUP):
        test_random(tally, programs, seeds, reached)
    reached.test(tally, " at random")
    return tally.end()


if __name__ == "__main__":
    sys.exit(main())
