#!/usr/bin/env python3
"""Compares the public functions with docs/CONTRACTS.md and with the one-answer theorems of their crates.

Each `pub fn`, and each conversion by From or TryFrom, has a row in the section of its crate. The last column of the row names its theorems, and
those of the section are those of proofs/OneAnswer.antt. Each speaks of the contract of its function. One is
of the result, if the function has one, and one of each buffer that it is lent to write. A line that is lent is filled anew, so of each
one more says that the contract does not look at what it held: it puts another line in its place, and leaves each other argument.

That all this is seen is tried on crates that lack something."""

import pathlib
import re
import sys

sys.dont_write_bytecode = True  # nothing is written beside the sources
sys.path[0] = str(pathlib.Path(__file__).resolve().parents[1])  # modules are named from tests/ on
from gate.listed import crates  # noqa: E402
from gate.named import functions, sections  # noqa: E402
from shared.tally import Failed, Tally  # noqa: E402

ROOT = pathlib.Path(__file__).resolve().parents[2]
COLUMN = "One answer"
PUBLIC = re.compile(r'^pub (?:extern "C" )?fn (\w+)(.*?)^    (?:requires|ensures)\b', re.MULTILINE | re.DOTALL)
CONVERSION = re.compile(r"^impl (From|TryFrom)<(\w+)> for (\w+) \{", re.MULTILINE)
ROW = re.compile(r"`(?:impl (From|TryFrom)<(\w+)> for (\w+)|(\w+))")
READS = re.compile(r"^use .*\.proofs\.([\w.]+)\.Reads as ([\w-]+)$", re.MULTILINE)
# of a function that is generic, a theorem is said of each type or number: what it binds is handed on to the contract
THEOREM = re.compile(
    r"^([\w-]+) :\s(?:\s*(\(.*\)) →\s+)?(One(?:Result|Lent|Seen)|Regardless) \(?([\w-]+)\.Post\b((?: [\w-]+)*)(.*(?:\n[ \t].*)*)$",
    re.MULTILINE)
BINDER = re.compile(r"\(([\w-]+) : [^()]*\)\s*")
PARAMETER = re.compile(r"(\w+): ([^,()]+)")
LINE = re.compile(r"&(?:'\w+ )?mut\s+(?:\w+::)*Line\s*")


def theorems_in(cell):
    """The names in a cell; one that begins with an underscore goes on from the first."""
    names = re.findall(r"`([\w-]+)`", cell)
    return [names[0] + name if name.startswith("_") else name for name in names]


def conversion(trait, source, target):
    """The name under which the prover has the function of a conversion."""
    named = "".join(word[0].upper() + word[1:] for word in (target, trait, source))
    return f"{named}.{'from' if trait == 'From' else 'try_from'}"


def name_of(row):
    """What a row is of: a conversion or a function."""
    trait, source, target, function = ROW.match(row).groups()
    return function or conversion(trait, source, target)


def theorems_of(proofs):
    """The theorems, each with its kind, its contract, and what it says of that. None has a premise: it binds what the contract is of,
    and no more. Nor is any a premise of something else."""
    found = {}
    for name, binders, kind, alias, handed, of in THEOREM.findall(proofs):
        if BINDER.sub("", binders) or BINDER.findall(binders) != handed.split():
            raise Failed(f"{name} binds {binders}, and not what its contract is of")
        says = " ".join(of.split())
        if "→" in says:
            raise Failed(f"{name} is a premise of something else: {says}")
        found[name] = (kind, alias, says)
    return found


def other_lines(signature):
    """How another line is put in the place of each that a function is lent: its arguments are pairs, one inside the other."""
    found = []
    for at, (name, kind) in enumerate(PARAMETER.findall(signature.partition("->")[0])):
        if LINE.fullmatch(kind):
            arguments = f"({name}, a{'.1' * (at + 1)})"
            for before in reversed(range(at)):
                arguments = f"(a{'.1' * before}.0, {arguments})"
            found.append(f"(λ κs a {name}. {arguments})")
    return found


def check_function(function, signature, theorems):
    """The theorems of a function, each a kind and what it says, speak of all that its signature hands out, and of the lines that it is
    lent."""
    kinds = [kind for kind, _ in theorems]
    anew = [says for kind, says in theorems if kind == "Regardless"]
    lent = signature.count("&mut ")
    if kinds.count("OneLent") != lent or len(kinds) - lent - len(anew) != signature.count("->"):
        raise Failed(f"{function}: its result, and what it is lent to write, are not what its theorems speak of: {kinds}")
    wanted = other_lines(signature)
    if sorted(anew) != sorted(wanted):
        raise Failed(f"{function}: of the lines that it is lent, {wanted} are to be put, and its theorems put {anew}")


def check(code, section, proofs):
    """What a crate's code, its section of the page and its theorems say is the same."""
    rows = {name_of(row): theorems_in(cell) for row, cell in functions(section, COLUMN).items()}
    public = {name: signature for name, signature in PUBLIC.findall(code)}
    public |= {conversion(*found): "-> Self" for found in CONVERSION.findall(code)}
    if rows.keys() != public.keys():
        raise Failed(f"a function without its row, or the other way: {', '.join(sorted(rows.keys() ^ public.keys()))}")
    read = {alias: function for function, alias in READS.findall(proofs)}
    proved = {name: (read.get(alias), kind, says) for name, (kind, alias, says) in theorems_of(proofs).items()}
    named = [theorem for theorems in rows.values() for theorem in theorems]
    if sorted(named) != sorted(proved):
        raise Failed(f"a theorem that the page lacks, or the other way: {', '.join(sorted(set(named) ^ set(proved)))}")
    for function, theorems in rows.items():
        others = [theorem for theorem in theorems if proved[theorem][0] != function]
        if others:
            raise Failed(f"{function}: of another function are {others}")
        check_function(function, public[function], [proved[theorem][1:] for theorem in theorems])
    return f"{len(public)} functions, {len(named)} theorems"


def texts(crate):
    """The code of a crate, its section of the page, and its theorems."""
    folder = ROOT / "crates" / crate
    proofs = folder / "proofs" / "OneAnswer.antt"
    code = "\n".join(path.read_text() for path in sorted((folder / "src").glob("**/*.rt")))
    return code, sections().get(crate, ""), proofs.read_text() if proofs.is_file() else ""


# A crate, and what takes something from it: in its code, its section or its theorems.
SPOILED = {
    "a function without a row": ("words", 1, r"^\| `word\(.*\n", ""),
    "a row without a function": ("words", 0, r"^pub fn word\(", "fn word("),
    "a function of a module": ("sha256", 0, r"^pub\(crate\) fn ch\(", "pub fn ch("),
    "a theorem that is not there": ("words", 2, r"^word_one :", "another_one :"),
    "a theorem of another function": ("words", 2, r"^word_one : OneResult word-reads", "word_one : OneResult bytes-reads"),
    "a theorem with a premise": ("words", 2, r"^word_one : ", "word_one : (never : ⊥) → "),
    "a theorem with a premise that binds nothing": ("words", 2, r"^word_one : ", "word_one : (0 ≡ 1) → "),
    "a theorem with two premises in one": ("words", 2, r"^word_one : ", "word_one : (x y : ⊥) → "),
    "a theorem with a premise beside what it is of": ("words", 2, r"^part_one : ", "part_one : (never : ⊥) "),
    "a conversion without a row": ("refusals", 1, r"^\| `impl From<Refusal> for u32`.*\n", ""),
    "a generic function without a theorem": ("words", 2, r"^part_one :", "another_one :"),
    "a buffer without a theorem": ("words", 0, r"^pub fn word\(", "pub fn word(more: &mut u8, "),
    "a line in the place of which none is put": ("text", 2, r"\(λ κs a line\. \(a\.0, \(line, a\.1\.1\)\)\)", "(λ κs a line. a)"),
    "another image in the place of another line": ("lines", 2, r"\(λ κs a out\. \(a\.0, \(out, a\.1\.1\)\)\)", "(λ κs a image. (image, a.1))"),
    "a second line, by its whole name": ("lines", 0, r"^    line: &mut \[u8; 515\],$", "    line: &mut text::Line,"),
    "a theorem that is a premise": ("words", 2, r"^(word_one : .*)$", r"\1 → ⊤"),
    "a theorem that is a premise, in the next line": ("lines", 2, r"^(ended_anew : .*)$", r"\1\n    → ⊤"),
    "a result without a theorem": ("host", 0, r"^(pub fn part<.*) -> .*$", r"\1"),
}


def find_out(crate, which, pattern, replacement):
    given = list(texts(crate))
    given[which], count = re.subn(pattern, replacement, given[which], count=1, flags=re.MULTILINE)
    if count != 1:
        raise Failed(f"there is no `{pattern}` to take away")
    try:
        check(*given)
    except Failed as wrong:
        return str(wrong)
    raise Failed("nothing was found out")


def main():
    tally = Tally()
    for crate in crates(ROOT):
        tally.test(f"one answer of {crate}", lambda: check(*texts(crate)))
    for name, spoiled in SPOILED.items():
        tally.test(f"found out: {name}", lambda: find_out(*spoiled))
    return tally.end()


if __name__ == "__main__":
    sys.exit(main())
