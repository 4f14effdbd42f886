"""How the lines of rt are read: what it says of a wrong version, and why the prover refused it."""

import re

from shared.tally import Failed

TRIED = re.compile(r"^rt: must-fail (\S+)\.edit: (.*)", re.MULTILINE)
REFUSED = "refused, as it must be"

# What rt says of a refusal that shows no fact: the proof file does not fit the code, or the prover came to no end.
UNFIT = "only because a proof file names what the edit took away"
NO_END = "only by a limit of the prover"


def tried(text):
    """What rt says of each wrong version that it tried, by its name CRATE/LABEL: of one that it names twice, both."""
    found = {}
    for name, said in TRIED.findall(text):
        found.setdefault(name, []).append(said)
    return found


def refused(said):
    """What rt says of a wrong version, in one line: it must show a fact that fails. Gives the prover's words on it."""
    if not said.startswith(REFUSED):
        raise Failed(said[:300])
    why = said.removeprefix(REFUSED)
    if UNFIT in why:
        raise Failed(f"the proof file does not fit the edited code: {why[:300]}")
    if NO_END in why:
        raise Failed(f"the prover came to no end: {why[:300]}")
    if not why.startswith(": "):
        raise Failed(f"rt names no fact that fails: {said[:300]}")
    return why.removeprefix(": ")
