"""Lines that rpmcrun has to answer by `?`, of every sort: each function makes one from a generator.

Nearly all are a good line with one thing wrong, so that a program which overlooks that thing takes it.
"""

LONGEST_LINE = 514  # `F `, then two digits for each of 256 bytes
NEAR_BUFFERS = [2**power + by for power in range(10, 18) for by in (-1, 0, 1)]


def some_bytes(rng, count):
    return rng.randbytes(count).hex().upper().encode()


def good_line(rng):
    """A line that is none of these."""
    sort = rng.randrange(5)
    if sort == 0:
        return b"P"
    if sort == 1:
        return b"S %d" % rng.choice((0, 1, 4, 15, 255, rng.randrange(256)))
    if sort == 2:
        return b"R %d" % rng.choice((1, 2, 49, 256, rng.randrange(1, 257)))
    return b"F " + rng.choice((b"66", b"99", b"9600", b"9B", b"9B07", some_bytes(rng, rng.randrange(1, 70))))


def put_in(rng, line, piece):
    """The line with a piece at any place: before it, inside, or behind it."""
    at = rng.choice((0, len(line), rng.randrange(len(line) + 1)))
    return line[:at] + piece + line[at:]


def letter_and_number(rng):
    """The front and the number of a line with a number, both in order."""
    if rng.random() < 0.5:
        return b"S ", rng.randrange(256)
    return b"R ", rng.randrange(1, 257)


# ---- sorts


def empty(_):
    return b""


def lower_case_letter(rng):
    line = good_line(rng)
    return line[:1].lower() + line[1:]


def lower_case_digit(rng):
    digits = bytearray(some_bytes(rng, rng.randrange(1, 66)) + b"AB")
    places = [at for at, digit in enumerate(digits) if digit >= ord("A")]
    at = rng.choice(places)
    digits[at] += ord("a") - ord("A")
    return b"F " + bytes(digits)


def odd_digits(rng):
    digits = rng.choice((b"66", b"99", b"9B00", some_bytes(rng, rng.choice((1, 40, 64, 255, 256)))))
    return b"F " + (digits[:-1] if rng.random() < 0.5 else digits + b"0")


def no_bytes(rng):
    return rng.choice((b"F", b"F ", b"F -", b"F  "))


def above_256_bytes(rng):
    return b"F " + some_bytes(rng, rng.choice((257, 257, 258, 300, 512)))


def no_digit(rng):
    digits = bytearray(some_bytes(rng, rng.randrange(1, 65)))
    digits[rng.randrange(len(digits))] = rng.choice(b"@GZ/:`gx.-_ ")
    return b"F " + bytes(digits)


def prefixed_digits(rng):
    return rng.choice((b"F 0x66", b"F 0X66", b"F x66", b"F 66h", b"F $66", b"S 0x1", b"R 0x1", b"S 1h", b"R A"))


def number_missing(rng):
    return rng.choice((b"S", b"S ", b"R", b"R ", b"S -", b"R -"))


def number_too_high(rng):
    front, number = letter_and_number(rng)
    above = 256 if front == b"S " else 257
    return front + b"%d" % rng.choice((above, above + 1, 999, 1000, number + 1000, 65535 + above, 10**30 + number))


def number_that_wraps(rng):
    """A number that is in order modulo a power of 2."""
    front, number = letter_and_number(rng)
    return front + b"%d" % (number + rng.choice((2**8, 2**16, 2**32, 2**63, 2**64, 2**128)) * rng.randrange(1, 4))


def read_of_nothing(rng):
    return rng.choice((b"R 0", b"R 00", b"R -0", b"R +0"))


def leading_zero(rng):
    front, number = letter_and_number(rng)
    return front + b"0" * rng.choice((1, 1, 2, 3, 20, 600)) + b"%d" % number


def sign(rng):
    front, number = letter_and_number(rng)
    return front + rng.choice((b"+", b"-")) + b"%d" % number


def no_decimal(rng):
    front, number = letter_and_number(rng)
    return front + b"%d" % number + rng.choice((b".0", b"e0", b"E0", b",0", b"_0", b"u", b"L", b"'", b"/"))


def extra_blank(rng):
    return put_in(rng, good_line(rng), rng.choice((b" ", b"  ")))


def missing_blank(rng):
    front, number = letter_and_number(rng)
    return rng.choice((front.strip() + b"%d" % number, b"F" + some_bytes(rng, rng.randrange(1, 65))))


def other_blank(rng):
    """Another character where the blank should be, or one more that is no blank either."""
    other = rng.choice((b"\t", b"\v", b"\f", b"\xa0", b"\xc2\xa0", b"_", b",", b":"))
    line = good_line(rng)
    return line.replace(b" ", other) if b" " in line and rng.random() < 0.6 else put_in(rng, line, other)


def carriage_return(rng):
    line = good_line(rng)
    return line + b"\r" if rng.random() < 0.6 else put_in(rng, line, b"\r")


def nul(rng):
    line = good_line(rng)
    return line + b"\0" if rng.random() < 0.5 else put_in(rng, line, b"\0" * rng.choice((1, 1, 4)))


def high_byte(rng):
    """A byte above 7Fh, also one whose lower seven bits would be in order."""
    line = bytearray(good_line(rng))
    if rng.random() < 0.6:
        line[rng.randrange(len(line))] |= 0x80
        return bytes(line)
    return put_in(rng, bytes(line), bytes([rng.randrange(0x80, 0x100)]))


def other_alphabet(rng):
    """Digits and letters of other alphabets, in UTF-8, and a byte order mark."""
    return rng.choice(("S \u0661", "R \uff11", "F \uff16\uff16", "\uff30", "\u0420", "\ufeffP")).encode()


def other_letter(rng):
    return bytes([rng.choice([each for each in range(256) if each not in b"PFSR\n"])]) + good_line(rng)[1:]


def more_behind(rng):
    """A good line with more in the same line: a field, another line, a semicolon."""
    return good_line(rng) + rng.choice((b" 0", b" 1", b";", b" P", b"P", b"\\n", b" #", b" " + good_line(rng)))


def any_bytes(rng):
    line = rng.randbytes(rng.choice((1, 2, 3, 10, 100)))
    return b"?" + bytes(byte for byte in line if byte != ord("\n"))


def just_too_long(rng):
    """The longest good line, and a little more."""
    longest = b"F " + some_bytes(rng, 256)
    more = rng.choice((b" ", b"0", b"\r", b"\0", b"P", some_bytes(rng, rng.randrange(1, 20))))
    return longest + more if rng.random() < 0.7 else put_in(rng, longest, more)


def far_too_long(rng):
    """Near the ends of usual buffers, or any length. It is made of good lines without newlines, so
    that one who begins anew somewhere in it may find one."""
    length = rng.choice((rng.choice(NEAR_BUFFERS), rng.randrange(LONGEST_LINE + 1, 5000), rng.randrange(70_000)))
    piece = rng.choice((b"P", b"F 66", b"0", b" ", b"R 1", b"F " + some_bytes(rng, 256), b"\0", b"\xff", b"S 1\r"))
    length = max(length, LONGEST_LINE + 1)
    return (rng.choice((b"", b"F ", b"S ", b"R ")) + piece * (length // len(piece) + 1))[:length]


SORTS = {
    sort.__name__.replace("_", " "): sort
    for sort in (
        empty, lower_case_letter, lower_case_digit, odd_digits, no_bytes, above_256_bytes, no_digit, prefixed_digits,
        number_missing, number_too_high, number_that_wraps, read_of_nothing, leading_zero, sign, no_decimal,
        extra_blank, missing_blank, other_blank, carriage_return, nul, high_byte, other_alphabet, other_letter,
        more_behind, any_bytes, just_too_long, far_too_long,
    )
}
