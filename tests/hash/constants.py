#!/usr/bin/env python3
"""Checks the constants of SHA-256 against their rule.

FIPS 180-4, 4.2.2 and 5.3.3: the 64 constants K are the first 32 bits of the fractional parts of the
cube roots of the first 64 primes, the 8 initial words those of the square roots of the first 8. Both
tables are read out of the code (files .rt) and out of the specification (files .antt); each must
stand there once. The self test shows that a wrong table is reported; it is part of every run, and
--self-test runs it alone.
"""

import argparse
import pathlib
import re
import sys

sys.dont_write_bytecode = True  # nothing is written beside the sources
sys.path[0] = str(pathlib.Path(__file__).resolve().parents[1])  # modules are named from tests/ on
from shared.tally import Failed, Tally  # noqa: E402

# How a table NAME is written, and how a comment is, by kind of file.
FORMS = {
    ".rt": (r"\bconst\s+NAME\s*:\s*\[\s*u32\s*;\s*[0-9]+\s*\]\s*=\s*\[(.*?)\]\s*;", ",", r"//[^\n]*"),
    ".antt": (r"^NAME\s*=\s*(.*?)\[\]", "∷", r"--[^\n]*"),
}


def primes(count):
    found = []
    candidate = 2
    while len(found) < count:
        if all(candidate % prime for prime in found):
            found.append(candidate)
        candidate += 1
    return found


def scaled_root(prime, degree):
    """The largest r with r^degree <= prime * 2^(32 * degree): the root with 32 bits of fraction."""
    low, high = 0, prime << 32
    while high - low > 1:
        middle = (low + high) // 2
        if middle**degree <= prime << (32 * degree):
            low = middle
        else:
            high = middle
    return low


def rule(count, degree):
    return [scaled_root(prime, degree) & 0xFFFFFFFF for prime in primes(count)]


CUBE_ROOTS = rule(64, 3)
SQUARE_ROOTS = rule(8, 2)

# What is checked: kind of file, name of the table there, the words that it must have.
TABLES = {
    "the 64 constants in the code": (".rt", "K", CUBE_ROOTS),
    "the 8 initial words in the code": (".rt", "H0", SQUARE_ROOTS),
    "the 64 constants in the specification": (".antt", "K", CUBE_ROOTS),
    "the 8 initial words in the specification": (".antt", "H⁰", SQUARE_ROOTS),
}


def find_tables(text, kind, name):
    """The tables of that name in a text, each as its entries as they are written."""
    form, separator, comment = FORMS[kind]
    text = re.sub(comment, "", text)
    bodies = re.findall(form.replace("NAME", re.escape(name)), text, re.DOTALL | re.MULTILINE)
    for body in bodies:
        entries = [entry.strip() for entry in body.split(separator)]
        # the last separator has nothing behind it
        yield entries[:-1] if entries[-1] == "" else entries


def check(files, kind, name, words):
    """Fails unless the table stands once in the files (name: text) of its kind, with these words."""
    found = [
        (file, entries)
        for file, text in files.items()
        if file.endswith(kind)
        for entries in find_tables(text, kind, name)
    ]
    if len(found) != 1:
        raise Failed(f"the table is there {len(found)} times, not once, in the {kind} files of {sorted(files)}")
    file, entries = found[0]
    for number, (entry, word) in enumerate(zip(entries, words)):
        digits = entry.replace("_", "")
        if not re.fullmatch("0x[0-9a-fA-F]{1,8}", digits) or int(digits, 16) != word:
            raise Failed(f"{file}: entry {number} is {entry}, not 0x{word:08x}")
    if len(entries) != len(words):
        raise Failed(f"{file}: {len(entries)} entries, not {len(words)}")


# ---- the self test: the same check on texts made here


def written(kind, name, words):
    """A file of that kind with the table, as the project writes it."""
    plain = [f"0x{word:08x}" for word in words]
    entries = [entry[:6] + "_" + entry[6:] if i % 2 else entry for i, entry in enumerate(plain)]
    if kind == ".rt":
        lines = "".join(f"    {entry},\n" for entry in entries)
        return f"// {name}\npub const {name}: [u32; {len(words)}] = [\n{lines}];\n"
    return f"-- {name}\nunfoldable pub {name} : List ℕ\n{name} = " + " ∷\n  ".join(entries) + " ∷ []\n"


def must_fail(what, files, kind, name, words):
    try:
        check(files, kind, name, words)
    except Failed as failed:
        if what not in str(failed):
            raise Failed(f"the report is `{failed}`, without `{what}`") from failed
    else:
        raise Failed(f"{name} in {kind} passes where `{what}` must be reported")


def right_tables():
    for kind, name, words in TABLES.values():
        check({"made" + kind: written(kind, name, words)}, kind, name, words)


def changed_words():
    """Every word of every table, with one bit changed, must be named."""
    for kind, name, words in TABLES.values():
        for number in range(len(words)):
            wrong = list(words)
            wrong[number] ^= 1 << number % 32
            must_fail(f"entry {number} is ", {"made" + kind: written(kind, name, wrong)}, kind, name, words)


def wrong_numbers():
    """A table that is missing, only a comment, written twice, too short, or too long."""
    for kind, name, words in TABLES.values():
        file, text, comment = "made" + kind, written(kind, name, words), {".rt": "// ", ".antt": "-- "}[kind]
        commented = "".join(comment + line + "\n" for line in text.splitlines())
        must_fail("0 times", {}, kind, name, words)
        must_fail("0 times", {file: text.replace(name, "J")}, kind, name, words)
        must_fail("0 times", {file: commented}, kind, name, words)
        must_fail("2 times", {file: text + text}, kind, name, words)
        must_fail("2 times", {file: text, "other" + kind: text}, kind, name, words)
        must_fail(f"{len(words) - 1} entries", {file: written(kind, name, words[:-1])}, kind, name, words)
        must_fail(f"{len(words) + 1} entries", {file: written(kind, name, words + [0])}, kind, name, words)


def exact_roots():
    for count, degree in ((64, 3), (8, 2)):
        for prime in primes(count):
            root = scaled_root(prime, degree)
            if not root**degree <= prime << (32 * degree) < (root + 1) ** degree:
                raise Failed(f"the root of {prime} of degree {degree} is not {root}")


def self_test(tally):
    tally.test("constants, self test: the roots are exact", exact_roots)
    tally.test("constants, self test: right tables pass", right_tables)
    tally.test("constants, self test: each changed word is named", changed_words)
    tally.test("constants, self test: a table missing, twice, too short or too long fails", wrong_numbers)


def read(names):
    return {name: pathlib.Path(name).read_text(encoding="utf-8") for name in names}


def main():
    parser = argparse.ArgumentParser(description=__doc__, formatter_class=argparse.RawDescriptionHelpFormatter)
    parser.add_argument("--self-test", action="store_true", help="only the self test")
    parser.add_argument("files", nargs="*", metavar="FILE", help="the .rt and .antt files of the hash")
    given = parser.parse_args()
    tally = Tally()
    self_test(tally)
    if not given.self_test:
        for what, table in TABLES.items():
            tally.test(f"constants: {what}", lambda: check(read(given.files), *table))
    return tally.end()


if __name__ == "__main__":
    sys.exit(main())
