"""Makes the benchmark's tables from what was measured.

   table.py                    prints them and writes target/bench/hash.md, device.md and program.md
   table.py --write DOCUMENT   and replaces what stands between the document's marks
   table.py --marks DOCUMENT   only sees that the marks are there"""

import json
import sys
from statistics import median

import device_table
import lines_table
import plot
from contestants import CONTESTANTS, FOLDER, LIBRARY, WORK
from document import Table, facts, number, plain, read, split_at_marks, text_of, write_between_marks

HASH_MARK, DEVICE_MARK, PROGRAM_MARK = "bench", "device", "program"
SAME_RUN = "Made in the same run as the tables of the hash."

# The targets of the project, a block and a HMAC: what is to be reached, and what is aimed for.
TO_REACH = {"block": 3600, "hmac": 14600}
AIM = {"block": 3300, "hmac": 13300}

COMPARED = ["", "block", "to the library", "HMAC", "to the library"]


def rows_of(values):
    """A row for each contestant with values, a list for each kind of work: their median, and the
    median of the ratios to the library's at the same place, that is in the same round."""
    rows = []
    for contestant in CONTESTANTS:
        if contestant.name in values:
            cells = [contestant.title]
            for what in WORK:
                own, library = values[contestant.name][what], values[LIBRARY][what]
                ratio = median(one / other for one, other in zip(own, library))
                cells += [number(median(own)), f"{ratio:.2f}"]
            rows.append(cells)
    return rows


def uncounted(contestant):
    """What stands in the table for a contestant without a count, and why, after a colon."""
    if not contestant.is_there():
        return contestant.why_absent()
    return "not counted: it depends on the processor, and qemu's has few extensions; it is only timed"


def count_table(results):
    caption = (
        f"x86-64 instructions. To reach: at most {TO_REACH['block']:,} a block and"
        f" {TO_REACH['hmac']:,} a HMAC; aim: {AIM['block']:,} and {AIM['hmac']:,}."
        " A HMAC is that of 16 bytes under a 32-byte key, four blocks."
    )
    notes = [
        "Counted under qemu as the difference of two runs, of 100 and of 200 calls; each count is"
        " made twice and repeats exactly. The driver's loop is in it: about 5 instructions a block,"
        " 12 a HMAC.",
        "OpenSSL's block function takes 64 bytes, all others 16 words. Its HMAC is made by"
        " SHA256_Init, SHA256_Update and SHA256_Final.",
    ]
    rows = rows_of(results["counts"])
    for contestant in CONTESTANTS:
        if contestant.name not in results["counts"]:
            said, _, why = uncounted(contestant).partition(": ")
            rows.append([contestant.title, said, "", said, ""])
            notes += [f"{contestant.title}: {why}."] if why else []
    return Table(caption, COMPARED, rows, notes)


def time_table(results):
    if not results["times"]:
        return Table("No times: this machine is not x86-64, and emulated time says nothing.", [], [])
    rounds = len(results["times"][LIBRARY]["block"])
    caption = (
        f"Nanoseconds of processor time: medians of {rounds} rounds in which the contestants take"
        " turns, and of the ratios within a round. They are this processor's; no test asserts them."
    )
    return Table(caption, COMPARED, rows_of(results["times"]))


def size_table(results):
    caption = (
        "Bytes of code and of stack, each with all that is called. Stack is measured on a painted"
        " stack, below the return address; read is the same out of the machine code. Tables of"
        " constants are not counted."
    )
    titles = {contestant.name: contestant.title for contestant in CONTESTANTS}
    rows = []
    for line in read("code.txt").splitlines():
        name, what, _, code, _, stack, _, outside = line.split()
        measured = results["stacks"][name][what]
        beside = "" if outside == "-" else outside.replace(",", ", ")
        kind = {"block": "block", "hmac": "HMAC"}[what]
        rows.append([titles[name], kind, number(int(code)), number(measured), number(int(stack)), beside])
    heading = ["", "", "code", "stack, measured", "stack, read", "calls outside"]
    return Table(caption, heading, rows)


def hash_tables():
    results = json.loads(read("results.json"))
    return [count_table(results), time_table(results), plot.picture(results), size_table(results)]


def device_tables():
    block = json.loads(read("results.json"))["counts"][LIBRARY]["block"][0]
    return device_table.tables(json.loads(read("device.json")), block)


def program_tables():
    return lines_table.tables(json.loads(read("lines.json")))


def hand_over(name, mark, opening, tables):
    """Prints the tables and writes them to a file, and to the document if one is named."""
    for table in tables:
        print("\n" + plain(table))
    text = text_of(opening, tables)
    with open(f"{FOLDER}/{name}", "w", encoding="utf-8") as file:
        file.write(text)
    print(f"\nwritten: {FOLDER}/{name}")
    if sys.argv[1:2] == ["--write"]:
        write_between_marks(sys.argv[2], mark, text)
        print(f"written: {sys.argv[2]}")


def main():
    if sys.argv[1:2] == ["--marks"]:
        for mark in [HASH_MARK, DEVICE_MARK, PROGRAM_MARK]:
            split_at_marks(sys.argv[2], mark)
        return
    hand_over("hash.md", HASH_MARK, facts(), hash_tables())
    hand_over("device.md", DEVICE_MARK, SAME_RUN, device_tables())
    hand_over("program.md", PROGRAM_MARK, SAME_RUN, program_tables())


main()
