"""A room in which wrong versions of a repository's crates are tried: a copy of its crates as they stand, in a
temporary folder. It is outside of the repository, as `rt ci` refuses files of Rattle in any folder of it but a crate's.

The edits that are to be tried stand there as those that `rt must-fail` tries: over what a check of the crate as it
stands has kept, so that each costs what it changes and not a check from nothing. What rt has kept of the same crates in
another folder of this machine it takes over by itself.
"""

import pathlib
import re
import shutil
import subprocess
import tempfile

from gate.listed import GATE, crates
from gate.reading import refused, tried
from shared.tally import Failed

PARTS = ("src", "specs", "proofs")  # of a crate, what an edit may change
LISTS = ("crates.txt", "HANDLES")  # at the top


def replaced(folder, file, old, new):
    """Replaces a text that stands once in a file of a crate, as rt does it."""
    inside = pathlib.PurePosixPath(file)
    if not file or inside.parts[0] not in PARTS or ".." in inside.parts or not (folder / file).is_file():
        raise Failed(f"its 'file:' line names no file of the crate: {file}")
    text = (folder / file).read_text()
    if old == "" or text.count(old) != 1:
        raise Failed(f"its 'old:' text stands {text.count(old) if old else 0} times in {file}, not once: {old}")
    (folder / file).write_text(text.replace(old, new))


def apply(edit, folder):
    """Changes a crate by an edit. The format is rt's: a 'file:' line holds for the pairs after it."""
    file, old, pairs = "", "", 0
    for line in edit.path.read_text().split("\n"):
        if line.startswith("file: "):
            file = line.removeprefix("file: ")
        elif line.startswith("old: "):
            old = line.removeprefix("old: ")
        elif line.startswith("new:"):
            replaced(folder, file, old, line.removeprefix("new:").removeprefix(" "))
            old, pairs = "", pairs + 1
    if pairs == 0:
        raise Failed("it has no 'old:' and 'new:' pair")


class Room:
    def __init__(self, root):
        self.root = root
        self.logs = root / "target" / "edits" / "log"
        self.held = None  # the temporary folder, while a run is in the room

    def enter(self):
        """Lays out the copy."""
        self.held = tempfile.TemporaryDirectory(prefix="wrong-versions-")
        self.copy = pathlib.Path(self.held.name)
        for name in LISTS:
            if (self.root / name).is_file():
                shutil.copy2(self.root / name, self.copy)
        for name in crates(self.root):
            for part in PARTS:
                if (self.root / "crates" / name / part).is_dir():
                    shutil.copytree(self.root / "crates" / name / part, self.copy / "crates" / name / part)

    def leave(self):
        """Removes the copy. The logs stay to be read."""
        self.held.cleanup()

    def log(self, name):
        return self.logs / f"{name}.log"

    def shown(self, path):
        return path.relative_to(self.root)

    def rt(self, folder, words, log):
        """Runs rt there. Gives its exit status, and what it said."""
        log.parent.mkdir(parents=True, exist_ok=True)
        with log.open("wb") as said:
            ended = subprocess.run(["rt", *words], cwd=folder, stdin=subprocess.DEVNULL, stdout=said,
                                   stderr=subprocess.STDOUT, check=False)
        return ended.returncode, log.read_text(errors="replace")

    def prepare(self, name):
        """Checks a crate as it stands, and what it stands on: else a refusal would mean nothing."""
        log = self.log(f"{name}-as-it-stands")
        status, said = self.rt(self.copy / "crates" / name, ["check"], log)
        if status != 0 or not re.search("^logic=proved ", said, re.MULTILINE):
            raise Failed(f"it is not proved: log {self.shown(log)}")

    def attempt(self, name, edits):
        """Tries edits of a crate. Gives what rt says of each, by its name."""
        folder = self.copy / "crates" / name / GATE
        folder.mkdir()
        for edit in edits:
            shutil.copy2(edit.path, folder)
        return tried(self.rt(self.copy, ["must-fail", name], self.log(name))[1])

    def verdict(self, edit, found):
        """Where, and by which words, the prover refused an edit."""
        said = found.get(edit.name, [])
        if len(said) != 1:
            raise Failed(f"rt speaks of it {len(said)} times")
        return refused(said[0])
