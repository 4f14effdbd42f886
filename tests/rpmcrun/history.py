"""A history of rpmcrun: lines with the answers that the model gives to them, and how the programs'
answers are compared with these and with each other."""

from rpmcrun.model import Model
from rpmcrun.talk import FIRST_LINE, at_once, shown
from shared.tally import Failed

SHOWN_BEFORE = 4  # lines before a wrong answer, in a report
SAID_BEYOND = 100_000  # bytes that a program may say beyond what is wanted, before it is stopped


class History:
    """Each call says a line to the model and keeps it. `name` is how the history can be made again;
    the last line has a newline unless `newline` is false."""

    def __init__(self, name, reached):
        self.name = name
        self.reached = reached
        self.model = Model(reached)
        self.lines = []
        self.answers = [FIRST_LINE]
        self.newline = True

    def say(self, line):
        self.lines.append(line)
        self.answers.append(self.model.answer(line))
        return self.answers[-1]

    def frame(self, frame):
        return self.say(b"F " + frame.hex().upper().encode())

    def work(self, quota):
        return self.say(b"S %d" % quota)

    def read(self, length):
        return self.say(b"R %d" % length)

    def power_up(self):
        return self.say(b"P")

    def reset(self):
        self.frame(b"\x66")
        return self.frame(b"\x99")

    def run(self, frame):
        """A frame that finds the device idle, and its job to the end."""
        self.frame(frame)
        self.work(255)

    def end(self, newline):
        """Ends the input. A last line without newline must have a byte, or it would be none."""
        if not newline and self.lines[-1:] == [b""]:
            self.read(1)
        self.newline = newline
        last = "?" if self.answers[-1] == b"?" else "a line"
        sort = "no line" if not self.lines else f"{last}, {'newline' if newline else 'no newline'}"
        self.reached.note("ends of input", sort)
        return self

    @property
    def text(self):
        return b"\n".join(self.lines) + (b"\n" if self.newline and self.lines else b"")

    @property
    def output(self):
        return b"".join(answer + b"\n" for answer in self.answers)


# ---- comparing


def output_of(program, history):
    try:
        return at_once(program.command, history.text, len(history.output) + SAID_BEYOND)
    except Failed as wrong:
        raise Failed(f"{history.name}: {program.name}: {wrong}") from None


def difference(programs, history, outputs):
    """The first line that is not answered alike, in words."""
    every = [output.split(b"\n") for output in (*outputs, history.output)]
    rows = list(zip(*every))
    at = next((at for at, row in enumerate(rows) if len(set(row)) > 1), len(rows))
    told = [answers[at] if at < len(answers) else b"(nothing)" for answers in every]
    names = [program.name for program in programs] + ["document 01"]
    answers = ", ".join(f"{name} `{shown(answer)}`" for name, answer in zip(names, told))
    # answer 0 is the line that comes before any is read
    line = history.lines[at - 1] if 0 < at <= len(history.lines) else b""
    before = ", ".join(f"`{shown(line)}`" for line in history.lines[max(0, at - 1 - SHOWN_BEFORE) : max(0, at - 1)])
    return f"{history.name}: line {at} `{shown(line)}`: {answers}; before it {before or 'nothing'}"


def compare(programs, history):
    """Both programs answer as the model does."""
    outputs = [output_of(program, history) for program in programs]
    if set(outputs) != {history.output}:
        raise Failed(difference(programs, history, outputs))


def compare_all(programs, histories):
    lines = count = 0
    for history in histories:
        compare(programs, history)
        lines += len(history.lines)
        count += 1
    if lines == 0:
        raise Failed("there was no such history")
    return f"{count} histories, {lines} lines"
