#!/usr/bin/env python3
"""Tests what a C programmer gets: the header, what `make install` puts where, and programs that are
compiled and linked by `pkg-config --cflags --libs` as a stranger would, in C and in C++.

One of these programs calls each function (tests/host/stranger.c), the other stands in README.md. The
library must have been made. Everything is installed into a temporary folder.
"""

import argparse
import os
import pathlib
import re
import shlex
import subprocess
import sys
import tempfile

sys.dont_write_bytecode = True  # nothing is written beside the sources
sys.path[0] = str(pathlib.Path(__file__).resolve().parents[1])  # modules are named from tests/ on
from shared.signer import (  # noqa: E402
    increment_frame,
    request_frame,
    root_key_frame,
    session_key_frame,
    signature,
    signed_reply,
)
from shared.tally import Failed, Tally  # noqa: E402

ROOT = pathlib.Path(__file__).resolve().parents[2]
HEADER = ROOT / "include/rpmc_host.h"
LIBRARY = "target/staticlib/librpmc_host.a"
OBJDUMP = "x86_64-linux-gnu-objdump"
STRANGER = ROOT / "tests/host/stranger.c"
SECTION = "## For C programmers"

WARNINGS = ["-Wall", "-Wextra", "-Wpedantic", "-Wconversion", "-Wshadow", "-Werror"]
LANGUAGES = {"C": ["-x", "c", "-std=c99"], "C++": ["-x", "c++", "-std=c++11"]}
STANDARDS = {"C": ("c99", "c11", "c17"), "C++": ("c++98", "c++11", "c++17")}

FILES = {"include/rpmc_host.h", "lib/librpmc_host.a", "lib/pkgconfig/rpmc_host.pc"}

# What the stranger's program has, and so what it prints.
KEY = bytes(range(0x20, 0x24)) + bytes(28)
FOUR = bytes.fromhex("00112233")
TAG = bytes(range(1, 13))
REPLY = b"\x80" + signed_reply(KEY, TAG + FOUR)
PRINTED = [
    root_key_frame(3, KEY),
    session_key_frame(3, KEY, FOUR),
    increment_frame(3, KEY, int.from_bytes(FOUR, "big")),
    request_frame(3, KEY, TAG),
    signature(KEY, FOUR),
    FOUR,
]


def output_of(command, given=b"", env=None):
    done = subprocess.run(command, cwd=ROOT, input=given, capture_output=True, env=env, check=False)
    if done.returncode != 0:
        said = (done.stdout + done.stderr).decode(errors="replace").strip()[-600:]
        raise Failed(f"`{shlex.join(map(str, command))}` ends with status {done.returncode}: {said}")
    return done.stdout.decode(errors="replace")


def expect(what, given, wanted):
    if given != wanted:
        raise Failed(f"{what}: {given!r}, not {wanted!r}")


def needs(function):
    """What the header says that a call takes: memcpy, and less than 2 KiB of stack."""
    read = output_of([sys.executable, "bench/code.py", OBJDUMP, function, LIBRARY]).split()
    found = dict(zip(read[::2], read[1::2]))
    expect(f"what {function} calls", found["outside"], "memcpy")
    if int(found["stack"]) >= 2048:
        raise Failed(f"{function} takes {found['stack']} bytes of stack")
    return int(found["stack"])


def all_needs():
    """Of every function in the header; and no state, that is, no data that could be written."""
    functions = re.findall(r"^(?:uint32_t|void) (rpmc_\w+)\(", HEADER.read_text(encoding="utf-8"), re.MULTILINE)
    expect("the number of functions in the header", len(functions), 7)
    sections = output_of([OBJDUMP, "--section-headers", LIBRARY])
    expect("writable data", re.findall(r" (\.(?:data|bss|tdata|tbss)\S*) +(?!0+ )", sections), [])
    return f"{len(functions)} functions, at most {max(map(needs, functions))} bytes of stack"


class Machine:
    """What compiles in each language, and what runs the result."""

    def __init__(self, compilers, runs):
        self.compilers = compilers
        self.runs = runs

    def header(self, language):
        """The header alone, twice, in each standard of the language."""
        twice = b'#include "include/rpmc_host.h"\n#include "include/rpmc_host.h"\n'
        for standard in STANDARDS[language]:
            named = LANGUAGES[language][:2] + [f"-std={standard}", "-I.", "-fsyntax-only", "-"]
            output_of(self.compilers[language] + WARNINGS + named, twice)
        return ", ".join(STANDARDS[language])

    def linked(self, language, source, folder, flags):
        """The program of a source that is compiled and linked with these flags."""
        program = folder / "program"
        first = self.compilers[language] + WARNINGS + LANGUAGES[language]
        output_of(first + ["-o", str(program), str(source), "-x", "none"] + flags)
        return self.runs + [str(program)]


def files_below(folder):
    return {str(path.relative_to(folder)) for path in folder.rglob("*") if not path.is_dir()}


def install(prefix):
    output_of(["make", "install", f"PREFIX={prefix}"])
    expect("the files", files_below(prefix), FILES)
    for file in FILES:
        expect(f"the mode of {file}", oct((prefix / file).stat().st_mode & 0o777), oct(0o644))
    expect("the header", (prefix / "include/rpmc_host.h").read_bytes(), HEADER.read_bytes())
    return f"{len(FILES)} files"


def stage(folder):
    """DESTDIR stands before each path, and in no file."""
    output_of(["make", "install", "PREFIX=/opt/rpmc", f"DESTDIR={folder}"])
    expect("the files", files_below(folder / "opt/rpmc"), FILES)
    text = (folder / "opt/rpmc/lib/pkgconfig/rpmc_host.pc").read_text(encoding="utf-8")
    if str(folder) in text or "prefix=/opt/rpmc\n" not in text or "@" in text:
        raise Failed(f"the pkg-config file says {text!r}")


def pkg_config(prefix):
    """The flags that pkg-config gives, checked against where the files are."""
    env = os.environ | {"PKG_CONFIG_PATH": str(prefix / "lib/pkgconfig")}
    flags = output_of(["pkg-config", "--cflags", "--libs", "rpmc_host"], env=env).split()
    expect("pkg-config", flags, [f"-I{prefix}/include", f"-L{prefix}/lib", "-lrpmc_host"])
    return flags


def stranger(machine, language, prefix, folder):
    command = machine.linked(language, STRANGER, folder, pkg_config(prefix))
    expect("its output", output_of(command, REPLY), "".join(f"0 {line.hex().upper()}\n" for line in PRINTED))


def readme_blocks():
    """The indented blocks of README's section, as they would be typed or printed."""
    section = (ROOT / "README.md").read_text(encoding="utf-8").split(SECTION + "\n")[1].split("\n## ")[0]
    blocks = re.findall(r"^(?: {4}.*\n|\n)+", section, re.MULTILINE)
    return [re.sub(r"^ {4}", "", block.strip("\n"), flags=re.MULTILINE) for block in blocks]


def readme_program(machine, language, prefix, folder):
    """The program in README.md gives the output that is shown there."""
    sources = [block for block in readme_blocks() if block.startswith("/*")]
    shown = [re.search(r"^\$ \./first\n((?:[^$\n].*\n)+)", block, re.MULTILINE) for block in readme_blocks()]
    outputs = [found[1] for found in shown if found]
    expect("the programs and outputs there", (len(sources), len(outputs)), (1, 1))
    source = folder / "first.c"
    source.write_text(sources[0] + "\n", encoding="utf-8")
    expect("its output", output_of(machine.linked(language, source, folder, pkg_config(prefix))), outputs[0])


def uninstall(prefix):
    output_of(["make", "uninstall", f"PREFIX={prefix}"])
    expect("what is left", files_below(prefix), set())


def main():
    parser = argparse.ArgumentParser(description=__doc__, formatter_class=argparse.RawDescriptionHelpFormatter)
    parser.add_argument("--cc", required=True, metavar="CMD", help="the C compiler")
    parser.add_argument("--cxx", required=True, metavar="CMD", help="the C++ compiler")
    parser.add_argument("--run", default="", metavar="CMD", help="what stands before a program to run it")
    given = parser.parse_args()
    compilers = {"C": shlex.split(given.cc), "C++": shlex.split(given.cxx)}
    machine, tally = Machine(compilers, shlex.split(given.run)), Tally()
    for language in LANGUAGES:
        tally.test(f"the header in {language}, warnings as errors", lambda: machine.header(language))
    tally.test("what the header says that a call takes", all_needs)
    tally.test("nothing is left to make", lambda: output_of(["make", "--question"]))
    with tempfile.TemporaryDirectory() as name:
        folder = pathlib.Path(name)
        prefix = folder / "prefix"
        tally.test("make install", lambda: install(prefix))
        for language in LANGUAGES:
            tally.test(f"a stranger's program in {language}", lambda: stranger(machine, language, prefix, folder))
            tally.test(f"README's program in {language}", lambda: readme_program(machine, language, prefix, folder))
        tally.test("make uninstall", lambda: uninstall(prefix))
        tally.test("make install with DESTDIR", lambda: stage(folder / "stage"))
    return tally.end()


if __name__ == "__main__":
    sys.exit(main())
