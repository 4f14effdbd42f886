"""Reads the bytes of code and of stack of a function, with all it calls, out of object files.

   code.py OBJDUMP FUNCTION FILE...    prints: code N stack N outside NAME,NAME (or -)

Code is the sum of the symbol table's sizes. Stack is the deepest chain of frames below the return
address; a frame is what the function pushes, what it takes off the stack pointer, and how far it
writes below that. What stands outside of the files (memcpy) is named and not counted."""

import re
import subprocess
import sys
from dataclasses import dataclass, field

WORD = 8


@dataclass
class Function:
    size: int = 0
    frame: int = 0
    below: int = 0
    calls: set = field(default_factory=set)


def output(objdump, *words):
    return subprocess.run([objdump, *words], check=True, capture_output=True, text=True).stdout


def sizes(objdump, files):
    """The functions of the symbol tables, with their sizes."""
    functions = {}
    for line in output(objdump, "--syms", *files).splitlines():
        parts = re.match(r"[0-9a-f]+ .{6}F (\S+)\s+([0-9a-f]+) (?:\.hidden )?(\S+)$", line)
        if parts:
            functions[parts[3]] = Function(size=int(parts[2], 16))
    return functions


def read_instruction(function, text):
    """Adds what one instruction says of the frame and of the calls."""
    if re.match(r"push\b", text):
        function.frame += WORD
    taken = re.match(r"(sub|add)\s+\$0x([0-9a-f]+),%rsp", text)
    if taken:
        number = int(taken[2], 16)
        if taken[1] == "add":
            number = 2**64 - number  # a frame of 128 bytes is made by adding -128
        function.frame += number if number < 2**31 else 0
    for place in re.findall(r"-0x([0-9a-f]+)\(%rsp\)", text):
        function.below = max(function.below, int(place, 16))
    if re.match(r"(call|jmp)\b", text):
        relocated = re.search(r"R_X86_64_\w+\s+(?:\.text\.)?(\S+?)(?:[-+]0x[0-9a-f]+)?$", text)
        direct = re.search(r"<([^+>]+)>$", text)
        called = relocated or direct
        if called:
            function.calls.add(called[1])


def read_code(objdump, files, functions):
    """Goes through the instructions of all functions, each with its relocation on its line."""
    here = None
    for line in output(objdump, "-dr", "--no-show-raw-insn", "--wide", *files).splitlines():
        heading = re.match(r"[0-9a-f]+ <(.+)>:$", line)
        instruction = re.match(r"\s+[0-9a-f]+:\s+(.+)$", line)
        if heading:
            here = functions.setdefault(heading[1], Function())
        elif instruction:
            read_instruction(here, instruction[1])


def reached(functions, name, seen):
    """The function and all that it calls, directly or not."""
    if name not in seen:
        seen.add(name)
        if name in functions:
            for called in functions[name].calls:
                reached(functions, called, seen)
    return seen


def deepest(functions, name):
    function = functions.get(name, Function())
    inner = [WORD + deepest(functions, called) for called in function.calls if called != name]
    return function.frame + max([function.below] + inner)


def main():
    objdump, name, files = sys.argv[1], sys.argv[2], sys.argv[3:]
    functions = sizes(objdump, files)
    read_code(objdump, files, functions)
    if name not in functions:
        sys.exit(f"code.py: no function {name} in {' '.join(files)}")
    seen = reached(functions, name, set())
    code = sum(functions[each].size for each in seen if each in functions)
    outside = ",".join(sorted(seen - set(functions))) or "-"
    print(f"code {code} stack {deepest(functions, name)} outside {outside}")


main()
