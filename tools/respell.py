#!/usr/bin/env python3
"""Brings the project's own names to today's Rattle's spelling, once, right after port.py: crates, definitions and lemmas.

usage: tools/respell.py          in a checkout in which port.py ran: rewrites crates/ and crates.txt in place
       tools/respell.py --names  prints each old name with its new one, and writes nothing

- A name in camel case that begins with a small letter is in snake case: wordOr0 is word_or0.
- In a lemma's name a dash joins two names, of definitions or of the library's words, and a plain word is added with _:
  length-table stays, field-put-in is field_put_in. getD, which the library calls get_or, is get_or here too.
- Two names that would fall together stay two: the lemma gets _lem.
- A crate that has the name of a library of the kit gets another: hex is hexadecimal.
Names of functions, exported C names, strings, inputs and outputs stay; so do the standards' words: ROTR, Ch, HMAC.
"""

import os
import re
import sys
from collections import defaultdict

CRATES = {"hex": "hexadecimal"}
# the library's words that lemmas here are named after
LIBRARY = set("length get_or take drop set sets append replicate xor eqb leb HMAC ROTR".split())
TOKEN = re.compile(r"[\w'\-]+")
# lemmas that port.py gave the name that a definition gets here, by the module that declares them
LEMMAS = {
    "hash.proofs.OneBlock": ["last_block"],
    "state.proofs.Inside": ["no_key"],
    "image.proofs.Slots": ["key_in", "value_in"],
    "counters.proofs.Growing": ["read_back"],
}
OWN = {name for names in LEMMAS.values() for name in names}
DECLARED = re.compile(r"^(\s*)((?:(?:pub|abbrev|unfoldable)\s+)*)([^\s:(){}=λ]+)\s*:\s*(.*)$")
MADE = re.compile(r"^(tie|goal)\.")


def files(top, *ends):
    for folder, dirs, names in os.walk(os.path.join(top, "crates")):
        dirs[:] = sorted(d for d in dirs if d != "out")
        for name in sorted(names):
            if name.endswith(ends):
                yield os.path.join(folder, name)


def read(path):
    with open(path, encoding="utf-8") as it:
        return it.read()


def declared(top):
    """Each name that a file of specs/ or proofs/ declares, with True if some file declares it as a definition."""
    found = defaultdict(bool)
    for path in files(top, ".antt"):
        for line in read(path).splitlines():
            it = DECLARED.match(line)
            is_field = it and it[1] and "/specs/" in path
            if it and it[3] not in ("--", "let") and not MADE.match(it[4]) and not is_field:
                found[it[3]] |= "abbrev" in it[2] or "unfoldable" in it[2] or "/specs/" in path
    return found


def snake(name):
    return re.sub(r"([a-z0-9])([A-Z])", lambda it: it[1] + "_" + it[2].lower(), name)


def is_camel(name):
    return name[0].islower() and snake(name) != name


def dashed(name, known):
    """The name with a dash where it joins two known names, and _ elsewhere; of a known name's own dashes none is left."""
    parts = name.replace("getD", "get_or").split("-")
    for cut in range(1, len(parts)):
        left, right = "_".join(parts[:cut]), "_".join(parts[cut:])
        if left in known and right in known:
            return left + "-" + right
    return "_".join(parts)


def together(top, new):
    """The new names that two names get that stand in one file, other than those of LEMMAS, with their old names."""
    by_new = defaultdict(set)
    for name, it in new.items():
        by_new[it].add(name)
    pairs = {it: olds for it, olds in by_new.items() if len(olds) > 1}
    of = {name: it for it, olds in pairs.items() for name in olds}
    found = defaultdict(set)
    for path in files(top, ".antt"):
        here = defaultdict(set)
        for word in set(TOKEN.findall(read(path))) & set(of):
            here[of[word]].add(word)
        for it, olds in here.items():
            if len(olds) > 1 and not olds & OWN:
                found[it] |= olds
    return found


def renaming(top):
    found = declared(top)
    known = LIBRARY | {snake(name) for name, is_definition in found.items() if is_definition and "-" not in name}
    new = {name: dashed(name, known) if "-" in name else snake(name) if is_camel(name) else name for name in found}
    for it, olds in together(top, new).items():
        lemmas = [name for name in olds if not found[name] and name not in OWN]
        assert len(lemmas) >= len(olds) - 1, f"these fall together: {olds}"
        for name in lemmas:
            new[name] = it + "_lem"
    return {name: it for name, it in new.items() if name != it}


def lemmas_of(path, text):
    """The lemmas of LEMMAS that a file declares or takes."""
    found = set()
    for module, names in LEMMAS.items():
        if path.endswith("/" + module.replace(".", "/") + ".antt"):
            found |= set(names)
        for it in re.findall(r"use Rattle\." + re.escape(module) + r"\.\{([^}]*)\}", text):
            found |= set(re.split(r",\s*", it)) & set(names)
    return found


def respelled(path, text, new):
    """The text with its names anew. A comment's dashed words are its own, but in backquotes; a source's strings stay."""
    is_source = path.endswith(".rt")
    lemmas = lemmas_of(path, text)

    def name(it, in_comment=False):
        word = it[0]
        if word in lemmas and it.string[it.start() - 1 : it.start()] != ".":
            return word + "_lem"
        if word in new and not (in_comment and "-" in word):
            return new[word]
        return snake(word) if is_camel(word) else word

    def comment(text):
        parts = text.split("`")
        return "`".join(TOKEN.sub(lambda it: name(it, i % 2 == 0), part) for i, part in enumerate(parts))

    def code(text):
        if is_source:
            pieces = re.split(r'(b?"(?:[^"\\]|\\.)*")', text)
            return "".join(piece if i % 2 else TOKEN.sub(name, piece) for i, piece in enumerate(pieces))
        return TOKEN.sub(name, text)

    mark = "//" if is_source else "--"
    lines = []
    for line in text.split("\n"):
        cut = re.search(r"(?:^|\s)" + mark + r"(?:\s|!|/|$)", line)
        at = cut.start() if cut else len(line)
        lines.append(code(line[:at]) + comment(line[at:]))
    return "\n".join(lines)


def main(argv):
    top = os.path.dirname(os.path.dirname(os.path.realpath(__file__)))
    if argv and argv[0] != "--names":
        print(__doc__)
        return 2
    new = renaming(top)
    if argv:
        print("\n".join(f"{old} {it}" for old, it in sorted(new.items())))
        return 0
    for path in files(top, ".antt", ".rt"):
        text = respelled(path, read(path), new)
        for old, it in CRATES.items():
            text = re.sub(rf"\bRattle\.{old}\.", f"Rattle.{it}.", text)
            if path.endswith(".rt"):
                text = re.sub(rf"\buse {old}::", f"use {it}::", text)
                text = re.sub(rf"(?<![\w:]){old}::", f"{it}::", text)
        with open(path, "w", encoding="utf-8") as it:
            it.write(text)
    path = os.path.join(top, "crates.txt")
    text = read(path)
    for old, it in CRATES.items():
        text = re.sub(rf"(?m)^{old}:", f"{it}:", text)
        text = re.sub(rf"(?m)(?<=[ ]){old}(?=[ \n])", it, text)
        if os.path.isdir(os.path.join(top, "crates", old)):
            os.rename(os.path.join(top, "crates", old), os.path.join(top, "crates", it))
    with open(path, "w", encoding="utf-8") as it:
        it.write(text)
    print(f"respell: {len(new)} names")
    return 0


if __name__ == "__main__":
    raise SystemExit(main(sys.argv[1:]))
