#!/usr/bin/env python3
"""Lists the places of older forms in the code, by the points of docs/DESIGN-PASS.md: what a pattern finds in crates/*/src.

    tools/places.py [FOLDER]      the places in a checkout, this one if none is named

A pattern is read over a file whose signatures are put on one line each. What it finds is a place to look at, not an error."""

import pathlib
import re
import sys

ROOT = pathlib.Path(sys.argv[1] if len(sys.argv) > 1 else pathlib.Path(__file__).resolve().parents[1])

NUMBER = r"-> u(?:8|32)(?= ensures| requires| \{)"
POINTS = {
    "1 a flag with a value beside it, or that says whether to go on": [r"^ +pub there: bool", r"^ +(?:pub )?goes_on: bool", r"^fn \w+\(rt[^)]*\) -> bool"],
    "1 a number for a refusal or a failed check": [
        r"^ +pub number: u32,", r"\bRefused\(u32\)", rf"fn \w*refusal\([^)]*\) {NUMBER}",
        rf"fn (?:\w*status\w*|decision\w*|or_else|wrong_signature)\([^)]*\) {NUMBER}", r"pub fn (?:refused|done)\(",
        rf"fn (?:rpmc_)?(?:build|derive)_\w+\([^)]*\) {NUMBER}", rf"fn rpmc_(?:session_key|read_reply)\([^)]*\) {NUMBER}",
        r"^pub extern \"C\" fn probe_(?:hash|hmac|power_up|frame|work)\("],
    "1 a number for none, or for a kind": [
        r"^const NONE", rf"fn (?:value_of|with_digit|number_in)\([^)]*\) {NUMBER}", r"pub fn read\(text[^)]*\) -> usize",
        r"fn \w+(?:<[^(]*>)?\([^)]*frame_type: u8", r"fn kind_of\(number: u8"],
    "2 twins, by a size or a number in the name": [
        r"fn \w+_(?:8|16|32|48|64)\(", r"fn sum[2-9]\(", r"fn (?:big|small)_sigma[01]\(", r"fn t[12]\(", r"fn key_and_(?:counter|root)_store\(",
        r"fn (?:session|request|front)_block\(", r"fn rotations(?:_and_shift)?\("],
    "2 twins, by a type or by what they make": [
        r"fn (?:copied|frame_kept|key_of|key_sent)\((?:message|frame|key)\b", r"fn words_of\(b: \[u8; 64\]\)", r"fn put_words\(",
        r"^pub fn rpmc_\w+", r"fn probe_(?:hash|hmac)\(", r"fn value_of\(character"],
    "3 a loop that counts an index by hand": [r"^ +while "],
    "4 conversion by hand": [
        r"fn (?:wide|word|bytes|rotr|flag_byte|flag_at|kind_byte|kind_of|command_of|number_of|at_most|last_digit|digit)\((?!outcome)", r"std::num::wrapping_\w+\("],
    "5 the same fact asked for in three contracts of a crate": [],
    "6 a buffer with its length beside it": [
        r"fn \w+[^{]*out: &mut \[u8; 517\]", r"^ +pub length: usize", r"fn \w+[^{]*kept: usize", r"^ +(?:pub )?kept: usize"],
    "7 a match that picks what to run": [r"^ +match (?:class|command|q|kind|\(kind, i\)) \{"],
}


def text(path):
    """A file, each of its signatures on one line."""
    code = re.sub(r"^ *//.*$", "", path.read_text(), flags=re.MULTILINE)
    return re.sub(r"((?:pub(?:\(crate\))? )?(?:extern \"C\" )?fn [^{;=]*?(?=\n    (?:requires|ensures)\b|\{))",
                  lambda found: re.sub(r"\s+", " ", found[1]).rstrip(" "), code).replace("\n    requires", " requires").replace("\n    ensures", " ensures")


def repeated(files):
    """What the functions of a crate ask for, where three of them or more ask for the same."""
    crates = {}
    for path, code in files.items():
        crate = path.relative_to(ROOT / "crates").parts[0]
        for clause in re.findall(r"requires (?:\w+ )?\{(.*?)\}", code):
            for fact in re.split(r"\) × \(", clause.strip(" ()")):
                crates.setdefault((crate, fact.strip(" ()")), []).append(path)
    return [f"{crate}: {fact} ({len(paths)})" for (crate, fact), paths in sorted(crates.items()) if len(paths) >= 3]


def main():
    files = {path: text(path) for path in sorted((ROOT / "crates").glob("*/src/**/*.rt"))}
    for point, patterns in POINTS.items():
        found = []
        for path, code in files.items():
            spans = {}
            for pattern in patterns:
                for match in re.finditer(pattern, code, re.MULTILINE):
                    spans[match.start()] = match[0]
            found += [f"{path.relative_to(ROOT / 'crates')}: {' '.join(spans[at].split())[:88]}" for at in sorted(spans)]
        found += repeated(files) if point.startswith("5") else []
        print(f"{point}: {len(found)}")
        for place in found:
            print(f"    {place}")


if __name__ == "__main__":
    main()
