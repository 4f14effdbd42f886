#!/usr/bin/env python3
"""Ticks docs/DATASHEET.md against the definitions that it names.

Each numbered section without sections below it ends with one line

    Said by: `name`, `name` (FILE), `name` (FILE).

in which each name is a definition of the file behind it: of a file of specs/ or proofs/ a definition, a
record or a data type, of a file of src/ a struct, an enum or a function. And every file of specs/ that
states a rule is named by some section.

The last line is `N passed, M failed`; the exit status is 0 only if all passed.
"""

import pathlib
import re
import sys

ROOT = pathlib.Path(__file__).resolve().parent.parent.parent
SHEET = ROOT / "docs" / "DATASHEET.md"

# The files of specs/ that state no rule of device, host or rpmcrun, and why.
TOOLS = {
    "crates/words/specs/Choice.antt": "one of two, by a test: a way to write definitions",
    "crates/words/specs/Rows.antt": "a table read from its first row down: a way to write definitions",
    "crates/words/specs/Table.antt": "lists by a rule for each place: a way to write definitions",
    "crates/decision/specs/Place.antt": "where the code looks for a signature; what it is stands in Signature",
    "crates/packed/specs/Codes.antt": "a state as bytes, for tests alone",
    "crates/packed/specs/Packed.antt": "a state as bytes, for tests alone",
    "crates/packed/specs/Stored.antt": "a state as bytes, for tests alone",
    "crates/packed/specs/Unpacked.antt": "a state as bytes, for tests alone",
}
ONLY_MODULES = "Lib.antt"  # the list of a folder's files, which defines nothing

HEADING = re.compile(r"^#+ (\d+(?:\.\d+)*) ")
NAMES = r"`[^`\s]+`(?:, `[^`\s]+`)* \([^()\s]+\)"
SAID_BY = re.compile(rf"Said by: {NAMES}(?:, {NAMES})*\.")

# How a definition of this name begins, in a proved file, of a module there too, and in code.
PROVED = r"^(?:  )?(?:(?:abbrev|unfoldable) )?pub (?:(?:record|data) {0}(?!\S)|{0} :)"
CODE = r'^(?:pub )?(?:(?:struct|enum) {0}\b|(?:extern "C" )?fn {0}\b)'


def sections(text):
    """The numbered sections with none below them, by number: the lines of each."""
    found, number = {}, None
    for line in text.splitlines():
        heading = HEADING.match(line)
        if heading:
            number = heading.group(1)
            found[number] = []
        elif number:
            found[number].append(line)
    return {n: lines for n, lines in found.items() if not any(other.startswith(n + ".") for other in found)}


def said_by(lines):
    """The pairs of name and file that a section's last line gives; a text if it is no such line."""
    written = [line for line in lines if line.strip()]
    if not written or not SAID_BY.fullmatch(written[-1]):
        return "it does not end with a line `Said by: ..`"
    if any(line.startswith("Said by") for line in written[:-1]):
        return "it has a line `Said by` before its last"
    pairs, names = [], []
    for name, file in re.findall(r"`([^`]+)`|\(([^()]+)\)", written[-1]):
        if name:
            names.append(name)
        else:
            pairs += [(name, file) for name in names]
            names = []
    return pairs


def is_defined(name, file):
    path = ROOT / file
    form = CODE if path.suffix == ".rt" else PROVED
    return path.is_file() and re.search(form.format(re.escape(name)), path.read_text(encoding="utf-8"), re.MULTILINE)


def rule_files():
    found = (ROOT / "crates").glob("*/specs/*.antt")
    return sorted(str(path.relative_to(ROOT)) for path in found if path.name != ONLY_MODULES)


def main():
    counts = {"ok": 0, "FAIL": 0}

    def tell(what, wrong, note=""):
        word = "FAIL" if wrong else "ok"
        counts[word] += 1
        print(f"{word} {what}" + (f": {wrong}" if wrong else f" ({note})" if note else ""))

    named = set()
    for number, lines in sections(SHEET.read_text(encoding="utf-8")).items():
        pairs = said_by(lines)
        if isinstance(pairs, str):
            tell(f"section {number}", pairs)
            continue
        named.update(file for _, file in pairs)
        lost = [f"no definition `{name}` in {file}" for name, file in pairs if not is_defined(name, file)]
        tell(f"section {number}", "; ".join(lost), f"{len(pairs)} names")
    for file in rule_files():
        if file in TOOLS:
            tell(file, "a section names it, though it is listed as a tool" if file in named else "", TOOLS[file])
        else:
            tell(file, "" if file in named else "no section names it")
    for file in sorted(set(TOOLS) - set(rule_files())):
        tell(file, "it is listed as a tool, and is not there")
    print(f"{counts['ok']} passed, {counts['FAIL']} failed")
    return 0 if counts["ok"] > 0 and counts["FAIL"] == 0 else 1


if __name__ == "__main__":
    sys.exit(main())
