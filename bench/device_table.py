"""Makes the tables of the device from what device.py counted."""

from document import Table, number, read

# The aims of the project, in bare blocks.
AIMS = {"hash": 1.25, "other": 0.5}
QUARTERS = ["key with ipad", "message", "key with opad", "inner digest"]
ENTRIES = {
    "probe_power_up": "power-up",
    "probe_frame": "frame",
    "probe_work": "work",
    "probe_state": "the state in and out",
}


def is_met(row, block):
    return max(row["counts"]) <= AIMS[row["aim"]] * block


def aim_note(rows, block):
    parts = []
    for aim, words in [("hash", "of the hash steps"), ("other", "of everything else")]:
        met = [is_met(row, block) for row in rows if row["aim"] == aim]
        parts.append(f"{sum(met)} of {len(met)} {words}")
    return f"Rows that meet their aim: {' and '.join(parts)}."


def length_note(results):
    if results["differing"]:
        return f"The image's length changes the count of: {'; '.join(results['differing'])}."
    return (
        f"The image's length changes no count: all {results['compared']} steps and calls that were"
        " counted cost the same with 208 and with 65,536 bytes."
    )


def count_notes(results, block):
    return [
        aim_note(results["rows"], block),
        length_note(results),
        "Counted as the hash is: the difference of two runs, of 100 and of 200 calls from the same"
        " state, made twice.",
        "Step k is work with a quota of k less work with a quota of k - 1, from the state that the"
        " frame left: unpacking and packing the state, and the call itself, drop out.",
        "From a frame, and from work while idle, what a call costs that only unpacks and packs the"
        f" state is taken off ({number(results['beside'])} instructions). The entry's own part is"
        " still in it: refusals 1 to 4, the state handed in and out, and about 7 instructions of the"
        " driver.",
        "Power-up takes no state: only the driver's loop is taken off. The packing is in it; the"
        " compiler knows the state and makes it one memset.",
        "memcpy and memset are glibc's, as it chooses them for qemu's processor; they are counted.",
        "The block is that of the library of the hash: the device's library has no entry for one.",
    ]


def count_table(results, block):
    hash_limit, other_limit = [number(aim * block) for aim in AIMS.values()]
    caption = (
        "x86-64 instructions, with an image of one counter, its slot at 16. The aims, in bare blocks:"
        f" a hash step at most {AIMS['hash']:.2f} ({hash_limit}), everything else at most"
        f" {AIMS['other']:.2f} ({other_limit})."
    )
    rows = [["a bare block, as in the table of the hash", number(block), "", "1.00", "", ""]]
    for row in results["rows"]:
        ratio, aim = f"{max(row['counts']) / block:.2f}", f"{AIMS[row['aim']]:.2f}"
        met = "yes" if is_met(row, block) else "no"
        rows.append([row["title"], *map(number, row["counts"]), ratio, aim, met])
    heading = ["", "208 bytes", "65,536 bytes", "to a block", "aim", "met"]
    return Table(caption, heading, rows, count_notes(results, block))


def quarter_table(results, block):
    caption = (
        "All hash steps, in instructions and in bare blocks. The last step of a signature has checks 8"
        " to 10 in it, and the last step of a job its end."
    )
    rows, every = [], []
    for name, quarters in results["quarters"].items():
        counts = [max(each) for each in quarters]
        rows.append([name] + [f"{number(each)} ({each / block:.2f})" for each in counts])
        every += counts
    met = sum(each <= AIMS["hash"] * block for each in every)
    return Table(caption, [""] + QUARTERS, rows, [f"Within the aim: {met} of {len(every)}."])


def state_note(returned):
    by_fields = (
        "By its fields, in their order and with words at multiples of 4, it is 1 + 4 × 33 + 49 + 1, a"
        " byte of padding, 32 and 168: 384."
    )
    if returned == "-":
        return f"The state's size could not be read off the machine code. {by_fields}"
    return (
        f"A state takes {returned} bytes, read off the machine code: there the furthest store of"
        f" packed::unpack ends behind the pointer to its result. {by_fields}"
    )


def size_table(results):
    caption = (
        "Bytes of code and of stack of the C entries, each with all that is called. Nothing is taken"
        " off: the stack is that below the return address, in the deepest of the calls above, with"
        " the unpacking and packing of the state."
    )
    rows, notes = [], ["The measured stack of a frame has the 8 bytes of its seventh argument in it."]
    for line in read("device.txt").splitlines():
        name, *words = line.split()
        if name == "state":
            notes.append(state_note(words[1]))
            continue
        _, code, _, stack, _, outside = words
        beside = "" if outside == "-" else outside.replace(",", ", ")
        sizes = [int(code), results["stacks"][name], int(stack)]
        rows.append([ENTRIES[name], *map(number, sizes), beside])
    heading = ["", "code", "stack, measured", "stack, read", "calls outside"]
    return Table(caption, heading, rows, notes)


def tables(results, block):
    return [count_table(results, block), quarter_table(results, block), size_table(results)]
