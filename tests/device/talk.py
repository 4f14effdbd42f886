"""How the device tests ask both programs and compare: single requests, and histories of calls."""

from device.bytes import (
    ANSWER_FIELDS,
    PLACES,
    POWER_ON,
    digits,
    frame_answer,
    frame_line,
    power_up_answer,
    power_up_line,
    put,
    work_answer,
    work_line,
)
from shared.tally import Failed

LONGEST_SHOWN = 2000  # characters of a request in a report: all of it, unless the image is a long one
UNWRITTEN = b"\x5a\xa5\x00\xff\x77"  # an output that only a read may change


# ---- where two answers differ


def state_difference(given, wanted):
    for name, (start, length) in PLACES.items():
        one, other = given[2 * start : 2 * (start + length)], wanted[2 * start : 2 * (start + length)]
        if one != other:
            return f"{name} {one}, not {other}"
    return "a state of another length"


def byte_difference(given, wanted):
    if len(given) != len(wanted):
        return f"{len(given)} digits, not {len(wanted)}"
    at = next(at for at in range(0, len(given), 2) if given[at : at + 2] != wanted[at : at + 2])
    return f"byte {at // 2} {given[at : at + 2]}, not {wanted[at : at + 2]}"


def difference(line, given, wanted):
    """The first field that differs, in words."""
    fields = ANSWER_FIELDS.get(line[:1], ())
    ones, others = given.split(" "), wanted.split(" ")
    if not len(fields) == len(ones) == len(others):
        return f"`{given[:80]}`, not `{wanted[:80]}`"
    for name, one, other in zip(fields, ones, others):
        if one != other:
            if name == "state":
                return f"state: {state_difference(one, other)}"
            if name in ("image", "output"):
                return f"{name}: {byte_difference(one, other)}"
            return f"{name} {one}, not {other}"
    return "no difference"


def expect(who, line, given, wanted):
    if given != wanted:
        shown = line if len(line) <= LONGEST_SHOWN else f"{line[:LONGEST_SHOWN]}.. ({len(line)} characters)"
        raise Failed(f"{who} gives {difference(line, given, wanted)}; the request: `{shown}`")


def expect_same(programs, lines, first, second):
    """Both programs' answers to the same lines are the same."""
    who = f"{programs[0].name}, beside {programs[1].name},"
    for line, one, other in zip(lines, first, second, strict=True):
        expect(who, line, one, other)


# ---- single requests


def try_cases(programs, cases):
    """Cases are lines with the answers that document 01 wants."""
    if not cases:
        raise Failed("there was no such request")
    lines = [line for line, _ in cases]
    given = [program.ask_lines(lines) for program in programs]
    for program, answers in zip(programs, given):
        for (line, wanted), answer in zip(cases, answers, strict=True):
            expect(program.name, line, answer, wanted)
    expect_same(programs, lines, *given)
    return f"{len(cases)} requests"


# ---- histories


class Device:
    """A device in a history. Each call yields its request line, is sent the answer, and fails if
    that is not the answer wanted; then image and state are the ones that the call left."""

    def __init__(self, image, state=POWER_ON):
        self.image = image
        self.state = state

    def power_up(self):
        line = power_up_line(self.image)
        given = yield line
        expect("power-up", line, given, power_up_answer(0, POWER_ON))
        self.state = POWER_ON

    def frame(self, frame, state):
        """A frame other than a read, that leaves this state."""
        line = frame_line(self.image, self.state, frame, UNWRITTEN)
        given = yield line
        expect(f"frame {digits(frame)}", line, given, frame_answer(0, state, self.image, UNWRITTEN))
        self.state = state

    def read(self, output):
        """A read, that gives this output and clears reset-enable."""
        line = frame_line(self.image, self.state, b"\x96\x00", (UNWRITTEN * 20)[: len(output)])
        state = put(self.state, enabled=0)
        given = yield line
        expect("read", line, given, frame_answer(0, state, self.image, output))
        self.state = state

    def work(self, quota, steps, state, image):
        """Work, that does these steps and leaves this state and image."""
        line = work_line(self.image, self.state, quota)
        given = yield line
        expect(f"work {quota}", line, given, work_answer(0, steps, state, image))
        self.state, self.image = state, image

    def reset(self):
        yield from self.frame(b"\x66", put(self.state, enabled=1))
        yield from self.frame(b"\x99", POWER_ON)


def follow(program, histories):
    """Goes through histories side by side, a call of each at a time; gives all lines and answers."""
    running = [(name, begin()) for name, begin in histories]
    answers = [None] * len(running)
    lines_said, answers_given = [], []
    while running:
        asked = []
        for (name, history), answer in zip(running, answers):
            try:
                asked.append(((name, history), history.send(answer)))
            except StopIteration:
                pass
            except Failed as wrong:
                raise Failed(f"{program.name}, in `{name}`: {wrong}") from None
        running = [pair for pair, _ in asked]
        lines = [line for _, line in asked]
        answers = program.ask_lines(lines) if lines else []
        lines_said += lines
        answers_given += answers
    return lines_said, answers_given


def try_histories(programs, histories):
    """Histories are names with functions that begin them: each program is taken through all of
    them, and then their answers are compared."""
    (lines, first), (_, second) = [follow(program, histories) for program in programs]
    if not lines:
        raise Failed("there was no such request")
    expect_same(programs, lines, first, second)
    return f"{len(histories)} histories, {len(lines)} requests"
