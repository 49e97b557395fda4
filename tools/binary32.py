"""Binary32 numbers of IEEE 754 by exact fractions: patterns, values, and the operations, each rounded once to the nearest."""

import struct
from fractions import Fraction
from typing import NamedTuple

NAN = 0x7FC00000
INFINITY = 0x7F800000
SIGN = 0x80000000

# patterns of each kind
ZEROS = [0x00000000, 0x80000000]
SUBNORMALS = [0x00000001, 0x00000002, 0x003FFFFF, 0x00400000, 0x007FFFFF, 0x80000001, 0x807FFFFF]
EXTREMES = [0x00800000, 0x00800001, 0x80800000, 0x7F7FFFFE, 0x7F7FFFFF, 0xFF7FFFFF]
INFINITIES = [0x7F800000, 0xFF800000]
QUIET = [0x7FC00000, 0x7FC00001, 0x7FFFFFFF, 0xFFC00000, 0xFFFFFFFF]
SIGNALLING = [0x7F800001, 0x7FA00000, 0x7FBFFFFF, 0xFF800001, 0xFFBFFFFF]
NEGATIVE = [0xBF800000, 0xBF800001, 0xC47A0000, 0xC2C80000, 0xBD23D70A]
SPECIAL = ZEROS + SUBNORMALS + EXTREMES + INFINITIES + QUIET + SIGNALLING + NEGATIVE


class Number(NamedTuple):
    """A binary32 value; the size of an infinity and of a NaN is not used."""

    kind: str
    negative: bool
    size: Fraction


def decode(bits):
    """The value of a pattern: sign, 8 bits of exponent, 23 bits of fraction."""
    negative = bits >= SIGN
    exponent = bits >> 23 & 0xFF
    fraction = bits & 0x7FFFFF
    if exponent == 0xFF:
        return Number("nan" if fraction else "infinite", negative, Fraction(0))
    if exponent == 0:
        return Number("finite", negative, Fraction(fraction, 2**149))
    return Number("finite", negative, (2**23 + fraction) * Fraction(2) ** (exponent - 150))


def binade(size):
    """The greatest e for which 2 ** e is at most the size, and -126 for what is smaller."""
    e = size.numerator.bit_length() - size.denominator.bit_length()
    if Fraction(2) ** e > size:
        e -= 1
    return max(e, -126)


def rounding(size):
    """The pattern of the nearest number, a tie to the even one, and how the size was rounded."""
    if size == 0:
        return 0, "exact"
    e = binade(size)
    units = size / Fraction(2) ** (e - 23)
    whole = units.numerator // units.denominator
    rest = units - whole
    half = Fraction(1, 2)
    upward = rest > half or (rest == half and whole % 2 == 1)
    way = "exact" if rest == 0 else ("even " if rest == half else "") + ("up" if upward else "down")
    return min((e + 126) * 2**23 + whole + upward, INFINITY), way


def encode(size, negative=False):
    """The pattern of the number nearest to a size, with a sign."""
    return rounding(size)[0] + SIGN * negative


def canonical(bits):
    """Every NaN is written with one pattern."""
    return NAN if decode(bits).kind == "nan" else bits


def signed(x):
    return -x.size if x.negative else x.size


def product(x, y):
    """The pattern of the rounded product of two patterns."""
    a, b = decode(x), decode(y)
    negative = a.negative != b.negative
    if "nan" in (a.kind, b.kind):
        return NAN
    if "infinite" in (a.kind, b.kind):
        zero = Number("finite", False, Fraction(0))
        return NAN if zero in (a._replace(negative=False), b._replace(negative=False)) else INFINITY + SIGN * negative
    return encode(a.size * b.size, negative)


def hundredth(x):
    """The pattern of the rounded quotient of a pattern by 100."""
    a = decode(x)
    return canonical(x) if a.kind != "finite" else encode(a.size / 100, a.negative)


def difference(x, y):
    """The pattern of the rounded difference of two patterns. The sign of a zero does not matter to what it is used for."""
    a, b = decode(x), decode(y)
    if "nan" in (a.kind, b.kind):
        return NAN
    if a.kind == "infinite":
        return NAN if b.kind == "infinite" and a.negative == b.negative else x
    if b.kind == "infinite":
        return y ^ SIGN
    exact = signed(a) - signed(b)
    return encode(abs(exact), exact < 0)


def at_most(x, y):
    """The comparison of IEEE 754: false where either is a NaN; the zeros are equal."""
    a, b = decode(x), decode(y)
    if "nan" in (a.kind, b.kind):
        return False
    if a.kind == "infinite":
        return a.negative or (b.kind == "infinite" and not b.negative)
    if b.kind == "infinite":
        return not b.negative
    return signed(a) <= signed(b)


def edges(low, high):
    """The first and the last pattern of each binade from 2 ** low to 2 ** high."""
    starts = [encode(Fraction(2) ** e) for e in range(low, high + 1)]
    return [x for start in starts for x in (start, start + 0x7FFFFF)]


def draws(low, high, many):
    """So many patterns of a range, always the same ones."""
    state = 1
    for _ in range(many):
        state = (state * 6364136223846793005 + 1442695040888963407) % 2**64
        yield low + (state * (high - low + 1) >> 64)


def agree_with_struct():
    """Fails if Python's struct reads a pattern, or rounds a binary64 number, in another way."""
    for x in SPECIAL + edges(-126, 127):
        a = decode(x)
        (value,) = struct.unpack(">f", x.to_bytes(4, "big"))
        if a.kind == "finite":
            assert Fraction(value) == signed(a) and encode(a.size, a.negative) == x, hex(x)
    for x in draws(1023 - 145 << 52, 1023 + 127 << 52, 2000):
        (value,) = struct.unpack(">d", x.to_bytes(8, "big"))
        assert struct.pack(">f", value) == encode(Fraction(value)).to_bytes(4, "big"), hex(x)
