"""Square roots of floats, as calls for the program `calls`.

The answers are worked out here with whole numbers only (Python's exact math.isqrt), from the definition of correct rounding and
not from the engine's way of working; each is then compared with this machine's own square root, and a difference stops the script.
"""
import math
import random

from words import ROOT, bits, line, number

NAN = 0x7FF8000000000000
INF = 0x7FF0000000000000
SIGN = 1 << 63


def root(word):
    """The word of the square root, by whole numbers."""
    magnitude = word % SIGN
    if magnitude > INF:
        return NAN
    if magnitude == 0:
        return word
    if word >= SIGN:
        return NAN
    if word == INF:
        return INF
    exponent, fraction = magnitude >> 52, magnitude % (1 << 52)
    # The float is digits * 2^scale.
    digits, scale = (fraction, -1074) if exponent == 0 else (fraction + (1 << 52), exponent - 1075)
    # As many digits more as give a root of 54 binary digits: 53 and one that decides the rounding.
    shift = 108 - digits.bit_length()
    shift += (scale - shift) % 2
    whole = digits << shift
    doubled = math.isqrt(whole)
    half = (scale - shift) // 2
    extra = doubled.bit_length() - 53
    kept, rest = doubled >> extra, doubled % (1 << extra)
    # The root never lies half way between two floats, so what is left over only has to be compared with the half.
    middle = 1 << (extra - 1)
    assert rest != middle or doubled * doubled != whole
    if rest >= middle:
        kept += 1
    power = half + extra
    if kept == 1 << 53:
        kept, power = 1 << 52, power + 1
    return ((power + 1075) << 52) + kept - (1 << 52)


def machine(word):
    """The same by this machine's square root."""
    x = number(word)
    return NAN if x != x or x < 0 else bits(math.sqrt(x))


def word_of(digits, scale):
    """The word of digits * 2^scale, a float above zero that is normal and exact."""
    length = digits.bit_length()
    fraction = digits << (53 - length) if length <= 53 else digits >> (length - 53)
    assert length <= 53 or fraction << (length - 53) == digits
    return ((scale + length + 1022) << 52) + fraction - (1 << 52)


def near_half(c, bits):
    """Each s of 53 digits whose s * s + s is c more than a multiple of 2^bits: its half way point is almost a float's root."""
    for start in (0, 1):
        s = start
        for k in range(1, bits + 1):
            if (s * s + s - c) % (1 << k):
                s += 1 << (k - 1)
        if (s * s + s - c) % (1 << bits) == 0:
            yield from (t for t in range(s, 1 << 53, 1 << bits) if t >= 1 << 52)


def vectors():
    chance = random.Random(52)
    # Zeros, infinities, NaNs of every sort, and numbers below zero.
    yield from (0, SIGN, INF, INF + SIGN, NAN, NAN + SIGN, INF + 1, INF + SIGN + 1, SIGN - 1, 2 * SIGN - 1)
    yield from (SIGN + 1, SIGN + (1 << 52), 0xBFF0000000000000, 0xC010000000000000, INF + SIGN - 1)
    # The least and the largest of the subnormal and of the normal numbers, with their neighbours.
    for edge in (1, 1 << 52, INF - 1):
        yield from (w for w in range(edge - 2, edge + 3) if 0 < w < INF)
    # Each power of two among the subnormal numbers, and the number below it.
    for k in range(1, 52):
        yield from ((1 << k) - 1, 1 << k)
    # Powers of two over the whole range, with their neighbours.
    for exponent in (*range(1, 2047, 97), 1022, 1023, 1024, 1025):
        yield from ((exponent << 52) + d for d in (-1, 0, 1))
    # Squares and their neighbours.
    for k in (*range(1, 33), 1000, 10000, 94906265, *(chance.randrange(1 << 25, 1 << 26) for _ in range(24))):
        yield from (word_of(k * k, 0) + d for d in (-1, 0, 1))
    # Squares far up and far down.
    for _ in range(24):
        k = chance.randrange(1 << 25, 1 << 26)
        yield word_of(k * k, 2 * chance.randrange(-480, 480))
    # Roots as near to half way between two floats as they come, on either side.
    for bits in (52, 53):
        for c in range(-8, 10, 2):
            for s in near_half(c, bits):
                digits = (s * s + s - c) >> bits
                if digits < 1 << 53:
                    yield word_of(digits, chance.choice((0, 2, -40, 600, -900)) + bits % 2)
    # Any patterns: of the whole range, of numbers above zero, of numbers near 1, and subnormal ones.
    yield from (chance.randrange(1 << 64) for _ in range(40))
    yield from (chance.randrange(1, INF) for _ in range(120))
    yield from (0x3FE0000000000000 + chance.randrange(1 << 54) for _ in range(60))
    yield from (chance.randrange(1, 1 << 52) for _ in range(40))


def calls():
    for word in dict.fromkeys(vectors()):
        answer = root(word)
        assert answer == machine(word), f"{word:016x}: {answer:016x} here, {machine(word):016x} by this machine"
        yield line(ROOT, word), line(answer)
