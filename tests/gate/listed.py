"""What a repository lists: its crates, and the wrong versions of each."""

import dataclasses
import pathlib

GATE, ON_DEMAND = "must-fail", "wrong"  # a crate's edits: those that rt ci tries, and the others


@dataclasses.dataclass(frozen=True)
class Edit:
    path: pathlib.Path

    @property
    def crate(self):
        return self.path.parent.parent.name

    @property
    def folder(self):
        return self.path.parent.name

    @property
    def label(self):
        return self.path.stem

    @property
    def name(self):
        return f"{self.crate}/{self.label}"


def entries(root):
    """The lines of crates.txt that list a crate: its name, the words behind it, and the names that it stands on."""
    lines = (line.split("#")[0] for line in (root / "crates.txt").read_text().splitlines())
    parts = (line.split(":") for line in lines if ":" in line)
    return [(*head.split(maxsplit=1), "")[:2] + (below.split(),) for head, below in parts]


def crates(root):
    """The crates of crates.txt in its order, each with the names that it stands on."""
    return {name: below for name, _, below in entries(root)}


def linked(root):
    """The crates that a whole program or archive is made of: programs, and static libraries. No crate stands on one."""
    return [name for name, words, _ in entries(root)
            if words == "staticlib" or (root / "crates" / name / "src" / "main.rt").is_file()]


def edits(root, folder):
    """The edits in this folder of each crate, in the order of crates.txt."""
    return [Edit(path) for name in crates(root) for path in sorted((root / "crates" / name / folder).glob("*.edit"))]
