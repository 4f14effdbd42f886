#!/usr/bin/env python3
"""Compares three implementations of the hash calls: the library (through the shim), the second
program, and Python's own hashlib and hmac.

First each published vector goes through all three. Then random requests, the same for all: lengths
on both sides of each refusal, single blocks, and chains of blocks. Last, coverage: it fails if some
length, key length or refusal was not reached. A run is fixed by its seed, which is printed.
"""

import hashlib
import math
import pathlib
import random
import sys

sys.dont_write_bytecode = True  # nothing is written beside the sources
sys.path[0] = str(pathlib.Path(__file__).resolve().parents[1])  # modules are named from tests/ on
from shared.coverage import cover  # noqa: E402
from shared.programs import LONGEST_MESSAGE, Comparison, Platform, expect, line_of  # noqa: E402
from shared.tally import Failed, Tally  # noqa: E402

VECTORS = pathlib.Path(__file__).resolve().parent / "vectors"

# The groups that each file of published vectors must have, with their number of vectors.
VECTOR_GROUPS = {
    "sha256.txt": {"NIST CAVP short messages": 56, "FIPS 180-2 example": 1},
    "hmac.txt": {"RFC 4231": 5, "RFC 5869": 6},
}

MESSAGE_LENGTHS = range(61)
KEY_LENGTHS = (0, 1, 16, 30, 31, 32, 33, 34, 64, 65)
REFUSALS = {("H", "0"), ("H", "11"), ("M", "0"), ("M", "6"), ("M", "11")}

# FIPS 180-4, 5.3.3: the first 32 bits of the fractional parts of the square roots of 8 primes.
INITIAL = b"".join(
    (math.isqrt(prime << 64) & 0xFFFFFFFF).to_bytes(4, "big") for prime in (2, 3, 5, 7, 11, 13, 17, 19)
)

# Random requests by call, key not of 32 bytes, message above 55 bytes.
RANDOM_GROUPS = {
    ("H", False, False): "random hash, done",
    ("H", False, True): "random hash, refused 11",
    ("M", False, False): "random HMAC, done",
    ("M", True, False): "random HMAC, refused 6",
    ("M", False, True): "random HMAC, refused 11",
    ("M", True, True): "random HMAC, refused 6 though the message is too long as well",
}

NO_REQUESTS = [
    "", " ", "H", "H ", "H 0", "H 0g", "H 0G", "H AB", "H -0", "H --", "H  -", " H -", "H - ", "H - -", "h -",
    "HH -", "X -", "M", "M -", "M - ", "M - - -", "M 0 -", "M - 0", "M zz -", "B", "B - -",
    "B " + "00" * 32, "B " + "00" * 31 + " " + "00" * 64, "B " + "00" * 32 + " " + "00" * 63,
    "B " + "00" * 32 + " " + "00" * 65, "B " + "00" * 32 + " " + "00" * 64 + " -",
]


# ---- published vectors


def read_vectors(file):
    """The vectors of a file by group, each a list of fields as bytes."""
    groups = {}
    for line in (VECTORS / file).read_text(encoding="utf-8").splitlines():
        if line.startswith("group "):
            cases = groups.setdefault(line[len("group "):], [])
        elif line and not line.startswith("#"):
            cases.append([bytes.fromhex("" if field == "-" else field) for field in line.split(" ")])
    return groups


def compare_vectors(implementations, file, group, count):
    groups = read_vectors(file)
    if groups.keys() != VECTOR_GROUPS[file].keys():
        raise Failed(f"{file} has the groups {sorted(groups)}")
    cases = groups[group]
    if len(cases) != count:
        raise Failed(f"{file} has {len(cases)} vectors of this group, not {count}")
    requests, published = [], []
    for *fields, digest in cases:
        # FIPS 198-1 fills a short key with zeros, so the filled key has the same HMAC
        requests.append(("H", *fields) if len(fields) == 1 else ("M", fields[0].ljust(32, b"\0"), fields[1]))
        published.append("0 " + digest.hex())
    lines = [line_of(request) for request in requests]
    for one in implementations:
        # a digest published truncated is compared as far as it goes, any other to the line's end
        given = [
            answer[: len(known)] if len(known) < len("0 ") + 64 else answer
            for answer, known in zip(one.ask(requests), published)
        ]
        expect(one.name, lines, given, published)
    return f"{count}"


def test_vectors(tally, implementations):
    for file, groups in VECTOR_GROUPS.items():
        for group, count in groups.items():
            tally.test(f"vectors {group}", lambda: compare_vectors(implementations, file, group, count))


# ---- random requests


def random_bytes(rng, length):
    """Random, and now and then one byte repeated that padding or HMAC's pads have too."""
    if rng.random() < 1 / 16:
        return bytes([rng.choice((0x00, 0x36, 0x5C, 0x80, 0xFF))]) * length
    return rng.randbytes(length)


def random_request(rng):
    message = random_bytes(rng, rng.choice(MESSAGE_LENGTHS))
    if rng.random() < 0.5:
        return ("H", message)
    key_length = 32 if rng.random() < 0.8 else rng.choice(KEY_LENGTHS)
    return ("M", random_bytes(rng, key_length), message)


def compare_random(library, second, requests, reached):
    if not requests:
        raise Failed("there was no such request")
    lines = [line_of(request) for request in requests]
    wanted = Platform().ask(requests)
    answers = library.ask(requests)
    reached.extend(zip(requests, answers))
    expect(library.name, lines, answers, wanted)
    expect(second.name, lines, second.ask(requests), wanted)
    return f"{len(requests)} requests"


def test_random(tally, library, second, rng, count):
    """Tests each group of random requests; gives the requests made, with the library's answers."""
    groups = {key: [] for key in RANDOM_GROUPS}
    for _ in range(count):
        request = random_request(rng)
        wrong_key = request[0] == "M" and len(request[1]) != 32
        groups[request[0], wrong_key, len(request[-1]) > LONGEST_MESSAGE].append(request)
    reached = []
    for key, name in RANDOM_GROUPS.items():
        tally.test(name, lambda: compare_random(library, second, groups[key], reached))
    return reached


# ---- blocks


def compare_blocks(library, second, rng, count):
    requests = [("B", random_bytes(rng, 32), random_bytes(rng, 64)) for _ in range(count)]
    if not requests:
        raise Failed("there was no such request")
    lines = [line_of(request) for request in requests]
    # nothing says here which of the two is wrong; the chains below do
    expect("the library, beside the second program,", lines, library.ask(requests), second.ask(requests))
    return f"{count} requests"


def padded_blocks(message):
    bits = (8 * len(message)).to_bytes(8, "big")
    padded = message + b"\x80" + bytes((55 - len(message)) % 64) + bits
    return [padded[at : at + 64] for at in range(0, len(padded), 64)]


def compare_chains(program, rng):
    """Messages of 0 to 400 bytes, padded here, a block a request, against hashlib."""
    messages = [rng.randbytes(length) for length in range(401)]
    blocks = [padded_blocks(message) for message in messages]
    chains = [INITIAL] * len(messages)
    for number in range(max(map(len, blocks))):
        live = [i for i in range(len(messages)) if number < len(blocks[i])]
        answers = program.ask([("B", chains[i], blocks[i][number]) for i in live])
        for i, answer in zip(live, answers):
            if not answer.startswith("0 "):
                raise Failed(f"{program.name} answers `{answer}` to a block")
            chains[i] = bytes.fromhex(answer[2:])
    names = [f"the chain of {len(message)} bytes {message.hex()}" for message in messages]
    digests = [hashlib.sha256(message).hexdigest() for message in messages]
    expect(program.name, names, [chain.hex() for chain in chains], digests)
    return f"{len(messages)} messages, {sum(map(len, blocks))} blocks"


def compare_digests(second, rng):
    """The second program's hash beyond the lengths of the calls, against hashlib."""
    messages = [rng.randbytes(length) for length in range(301)]
    lines = [message.hex() or "-" for message in messages]
    digests = [hashlib.sha256(message).hexdigest() for message in messages]
    expect(second.name, lines, second.ask_lines(lines), digests)
    return f"{len(messages)} messages"


# ---- what is no request, and coverage


def compare_no_requests(programs):
    for program in programs:
        expect(program.name, NO_REQUESTS, program.ask_lines(NO_REQUESTS), ["?"] * len(NO_REQUESTS))
    return f"{len(NO_REQUESTS)} lines"


def test_coverage(tally, reached):
    """`reached`: the random requests that were made, each with the library's answer."""
    hashes = [len(fields[0]) for (letter, *fields), _ in reached if letter == "H"]
    keys = [len(fields[0]) for (letter, *fields), _ in reached if letter == "M"]
    under_32 = [len(fields[1]) for (letter, *fields), _ in reached if letter == "M" and len(fields[0]) == 32]
    refusals = [(request[0], answer.split(" ")[0]) for request, answer in reached]
    tally.test("coverage: hash message lengths 0 to 60", lambda: cover(MESSAGE_LENGTHS, hashes))
    tally.test("coverage: HMAC message lengths 0 to 60", lambda: cover(MESSAGE_LENGTHS, under_32))
    tally.test("coverage: HMAC key lengths", lambda: cover(KEY_LENGTHS, keys))
    tally.test("coverage: refusal numbers", lambda: cover(REFUSALS, refusals))


def main():
    given = Comparison(__doc__, "hash", 100_000, "random calls; a tenth as many blocks are added")
    library, second, digests = given.library, given.second, given.second_in("digest")
    rng = random.Random(given.seed)
    tally = Tally()
    test_vectors(tally, (library, second, Platform()))
    reached = test_random(tally, library, second, rng, given.count)
    tally.test("random blocks", lambda: compare_blocks(library, second, rng, given.count // 10))
    tally.test("chains of blocks, the library", lambda: compare_chains(library, rng))
    tally.test("chains of blocks, the second program", lambda: compare_chains(second, rng))
    tally.test("long messages, the second program", lambda: compare_digests(digests, rng))
    tally.test("lines that are no request", lambda: compare_no_requests((library, second)))
    test_coverage(tally, reached)
    return tally.end()


if __name__ == "__main__":
    sys.exit(main())
