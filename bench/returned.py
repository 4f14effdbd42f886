"""Reads off the machine code how many bytes a function hands back by value.

   returned.py OBJDUMP FUNCTION FILE...    prints: returned N (or -)

A value that does not fit in registers is written behind a pointer that the caller passes first. N is
the end of the furthest store behind this pointer, as long as one register holds it; - is printed
where no such register or no such store is found, and nothing is guessed."""

import re
import subprocess
import sys

WIDTHS = [
    (r"%xmm\d+", 16),
    (r"%r([a-d]x|[sd]i|[sb]p|\d+)", 8),
    (r"%(e([a-d]x|[sd]i|[sb]p)|r\d+d)", 4),
    (r"%([a-d]x|[sd]i|[sb]p|r\d+w)", 2),
    (r"%([a-d]l|[sd]il|[sb]pl|r\d+b)", 1),
]
NARROW = {"movq": 8, "movsd": 8, "movlps": 8, "movd": 4, "movss": 4, "movl": 4, "movw": 2, "movb": 1}


def instructions(objdump, function, files):
    """The texts of a function's instructions, in order."""
    words = [objdump, "-d", "--no-show-raw-insn", "--wide", *files]
    inside = False
    for line in subprocess.run(words, check=True, capture_output=True, text=True).stdout.splitlines():
        heading = re.match(r"[0-9a-f]+ <(.+)>:$", line)
        if heading:
            inside = heading[1] == function
        instruction = re.match(r"\s+[0-9a-f]+:\s+(.+)$", line)
        if inside and instruction:
            yield instruction[1]


def width(name, source):
    if name in NARROW:
        return NARROW[name]
    return next((size for pattern, size in WIDTHS if re.fullmatch(pattern, source)), 0)


def furthest(texts):
    """The end of the furthest store behind the register that the first argument is moved to."""
    pointer, end = None, 0
    for text in texts:
        moved = re.match(r"mov\s+%rdi,(%r\w+)$", text)
        if moved and pointer is None:
            pointer = moved[1]
        store = re.match(r"(\w+)\s+(\S+),(?:0x([0-9a-f]+))?\((%r\w+)\)$", text)
        if store and store[4] == pointer:
            end = max(end, int(store[3] or "0", 16) + width(store[1], store[2]))
    return end


def main():
    found = furthest(instructions(sys.argv[1], sys.argv[2], sys.argv[3:]))
    print(f"returned {found or '-'}")


main()
