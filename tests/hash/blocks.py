"""The first block of a SHA-256 digest, after FIPS 180-4, 6.2.2: hashlib hands out whole digests alone."""

import functools

from hash.constants import CUBE_ROOTS, SQUARE_ROOTS


def rotated(number, places):
    return (number >> places | number << (32 - places)) & 0xFFFFFFFF


def schedule(block):
    words = [int.from_bytes(block[at : at + 4], "big") for at in range(0, 64, 4)]
    for t in range(16, 64):
        two, fifteen = words[t - 2], words[t - 15]
        small_1 = rotated(two, 17) ^ rotated(two, 19) ^ two >> 10
        small_0 = rotated(fifteen, 7) ^ rotated(fifteen, 18) ^ fifteen >> 3
        words.append((small_1 + words[t - 7] + small_0 + words[t - 16]) & 0xFFFFFFFF)
    return words


@functools.cache
def after_first_block(block):
    """The chaining words after a block of 64 bytes that is the first, as bytes."""
    a, b, c, d, e, f, g, h = SQUARE_ROOTS
    for constant, word in zip(CUBE_ROOTS, schedule(block)):
        large_1 = rotated(e, 6) ^ rotated(e, 11) ^ rotated(e, 25)
        large_0 = rotated(a, 2) ^ rotated(a, 13) ^ rotated(a, 22)
        t1 = h + large_1 + (e & f ^ ~e & g) + constant + word
        t2 = large_0 + (a & b ^ a & c ^ b & c)
        a, b, c, d, e, f, g, h = (t1 + t2) & 0xFFFFFFFF, a, b, c, (d + t1) & 0xFFFFFFFF, e, f, g
    sums = [(old + new) & 0xFFFFFFFF for old, new in zip(SQUARE_ROOTS, (a, b, c, d, e, f, g, h))]
    return b"".join(number.to_bytes(4, "big") for number in sums)
