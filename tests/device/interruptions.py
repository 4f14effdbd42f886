"""The interruptions of jobs by name: a kind of job, the steps that it had done, and what cut it."""

from device.bytes import KIND_NAMES, LENGTHS

WAYS = ("reset", "power-up")


def interruptions(lengths=LENGTHS):
    """Every kind of job after each number of steps that leaves it unfinished, in both ways."""
    return [
        interruption(kind, steps, way)
        for kind, length in enumerate(lengths)
        for steps in range(length)
        for way in WAYS
    ]


def interruption(kind, steps, way):
    return f"{KIND_NAMES[kind]} after {steps}, {way}"
