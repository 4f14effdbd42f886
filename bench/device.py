"""Checks and counts the device's calls and steps, and measures their stack.

   device.py [EMULATOR WORD...]    what runs an x86-64 program on this machine, if it does not itself

Writes target/bench/device.json."""

import json
import sys

import scenes
from contestants import FOLDER
from counter import output, per_call

PROGRAM = f"{FOLDER}/device"
SCENE = f"{FOLDER}/scene"  # one name for all: a program's start reads its arguments
LENGTHS = [208, 65536]
HASH, OTHER = "hash", "other"  # a hash step, and all else: each has its own aim
FLAG_OF_JOB, PLACE_OF_STEP = 2, 5  # in the bytes of a state

counted = {}
measured = []  # all that was compared for the two lengths of the image


def write_scene(length, lines):
    with open(SCENE, "w", encoding="utf-8") as file:
        file.write("".join(f"{each}\n" for each in [f"I {length}"] + lines))


def left(length, lines):
    """What the last line leaves, by name."""
    write_scene(length, lines)
    words = [each.split() for each in output([PROGRAM, SCENE, "1"], {}).splitlines()]
    return {name: value for name, value in words}


def count(length, lines):
    """The instructions of the last line, with what the driver does around it."""
    key = (length, *lines)
    if key not in counted:
        write_scene(length, lines)
        counted[key] = round(per_call(lines[-1], lambda n: [PROGRAM, SCENE, str(n)], {}))
    return counted[key]


def stack(lines):
    write_scene(LENGTHS[0], lines)
    return int(output([PROGRAM, SCENE, "stack"], {}).split()[1])


def check(title, lines, status, busy, steps=None, read=b""):
    """Stops the run at a call that does not leave what it should, or not so with every image."""
    one, other = [left(length, lines) for length in LENGTHS]
    state = bytes.fromhex(one["state"])
    as_wanted = [
        one == other,
        one["number"] == "0",
        state[0] == status,
        state[FLAG_OF_JOB] == busy,
        steps is None or int(one["steps"]) == steps,
        not busy or steps is None or state[PLACE_OF_STEP] == steps,
        not read or bytes.fromhex(one["output"]) == read,
    ]
    if not all(as_wanted):
        sys.exit(f"bench: {title} does not leave what it should: {one}, {other}")


def row(title, aim, lines, less):
    """A row: what the lines cost beyond the others, for each length of the image."""
    costs = [count(length, lines) - count(length, less) for length in LENGTHS]
    measured.append({"title": title, "aim": aim, "counts": costs})
    return measured[-1]


def step_row(title, aim, lines, step):
    """One step, from 1: what one more step of quota costs from the same state."""
    return row(title, aim, lines + [scenes.work(step)], lines + [scenes.work(step - 1)])


def job_rows(job):
    """The steps of a job, each checked: busy until the last, which posts the status."""
    rows = []
    for step, name in enumerate(job.steps, 1):
        last = step == len(job.steps)
        lines = job.lines() + [scenes.work(step)]
        status = scenes.DONE if last else scenes.BUSY
        check(f"step {step} of {job.title}", lines, status, not last, step)
        aim = HASH if name in scenes.HMACS else OTHER
        rows.append(step_row(f"step {step} of {job.title}", aim, job.lines(), step))
    return rows


def largest(rows):
    return max(rows, key=lambda each: max(each["counts"]))


def titled(title, rows):
    """The largest of some rows under a title, with its own one behind it."""
    found = largest(rows)
    return {**found, "title": f"{title}: {found['title']}"}


def quarters(steps):
    """The four quarters of each HMAC, of the first job that has it."""
    found = {}
    for job in scenes.JOBS:
        for name, each in zip(job.steps, steps[job.title]):
            if name in scenes.HMACS and len(found.setdefault(name, [])) < 4:
                found[name].append(each["counts"])
    return found


def signature_rows(steps):
    """The steps that make checks 8 to 10: one that passes for each type, and the failing ones."""
    rows = []
    for title, step in [(scenes.KEY_AND_COUNTER, 4), ("type 01", 8), ("type 02", 4), ("type 03", 4)]:
        kind = title.partition(",")[0]
        rows.append({**steps[title][step - 1], "title": f"last signature step, {kind}, good"})
    for job in scenes.FAILING:
        check(job.title, job.lines() + [scenes.work(job.step)], job.status, False, job.step)
        rows.append(step_row(f"last signature step, {job.title}", HASH, job.lines(), job.step))
    return sorted(rows, key=lambda each: each["title"].split(",")[1])


def store_rows(steps):
    """The largest store of each kind, among those that do not end a job."""
    rows = []
    for name in scenes.STORES:
        found = []
        for job in scenes.JOBS:
            pairs = list(zip(job.steps, steps[job.title]))
            found += [each for kind, each in pairs[:-1] if kind == name]
        rows += [titled(f"store of {name}", found)] if found else []
    return rows


def last_rows(steps):
    rows = []
    for job in scenes.JOBS:
        does = "hash" if job.steps[-1] in scenes.HMACS else job.steps[-1]
        rows.append({**steps[job.title][-1], "title": f"last step of {job.title}: {does}"})
    return rows


def arrival_rows():
    """The accepted frames; a type 00 starts four kinds of job, of which the largest counts."""
    found = {}
    for job in scenes.JOBS:
        check(job.title, job.lines(), scenes.BUSY, True)
        title = f"arrival, {job.title.partition(',')[0]}"
        found.setdefault(title, []).append(row(title, OTHER, job.lines(), job.before + ["U"]))
    return [largest(rows) for rows in found.values()]


def call_row(call):
    """A call that is no step. Power-up takes no state, so the driver's own part alone is taken off."""
    busy = call.status == scenes.BUSY
    steps = 0 if call is scenes.IDLE_WORK else None
    check(call.title, call.before + [call.call], call.status, busy, steps, call.output)
    beside = "N" if call is scenes.POWER_UP else "U"
    return row(call.title, OTHER, call.before + [call.call], call.before + [beside])


def stacks():
    """The deepest of the entry's calls."""
    frames = scenes.REFUSED + scenes.SHORT + scenes.READS
    taken = [job.lines() for job in scenes.JOBS] + [each.before + [each.call] for each in frames]
    jobs = [job.lines() + [scenes.work(15)] for job in scenes.JOBS + scenes.FAILING]
    return {
        "probe_power_up": stack(scenes.FRESH),
        "probe_frame": max(stack(lines) for lines in taken),
        "probe_work": max(stack(lines) for lines in jobs),
        "probe_state": stack(scenes.FRESH + ["U"]),
    }


def main():
    steps = {job.title: job_rows(job) for job in scenes.JOBS}
    hashes = [each for rows in steps.values() for each in rows if each["aim"] == HASH]
    calls = [scenes.POWER_UP] + scenes.REFUSED + scenes.SHORT + scenes.READS + [scenes.IDLE_WORK]
    rows = [titled("the largest hash step", hashes)]
    rows += signature_rows(steps) + store_rows(steps) + last_rows(steps) + arrival_rows()
    rows += [call_row(call) for call in calls]
    beside = count(LENGTHS[0], scenes.SESSION + ["U"]) - count(LENGTHS[0], scenes.SESSION + ["N"])
    results = {
        "rows": rows,
        "quarters": quarters(steps),
        "compared": len(measured),
        "differing": [each["title"] for each in measured if len(set(each["counts"])) > 1],
        "beside": beside,
        "stacks": stacks(),
    }
    with open(f"{FOLDER}/device.json", "w", encoding="utf-8") as file:
        json.dump(results, file, indent=1)
    print(f"count  the device: {len(measured)} steps and calls, with two images each", flush=True)


main()
