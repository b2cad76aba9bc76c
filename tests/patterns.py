#!/usr/bin/env python3
"""Writes the stored patterns of the program `patterns`: root, narrowing and order of single bit patterns with
their answers, worked out over whole numbers and fractions from document 01 and
IEEE 754. No float is computed with here.

A record is 24 bytes, little-endian: kind (u8), verdict (u8), six zero bytes,
then two u64.
  kind 1: f32 bits, f32 bits of the square root
  kind 2: f64 bits, f32 bits of the narrowed number
  kind 3: f64 bits a, f64 bits b; verdict 1 if totalOrder(a, b), else 0

    python3 tests/patterns.py > crates/patterns/stdin
"""

import struct
import sys
from fractions import Fraction
from math import isqrt
from random import Random

NAN32 = 0x7FC00000
INFINITY32 = 0x7F800000
random = Random(20)


def value(bits, exponent_bits, fraction_bits):
    """The exact size of a finite number, the sign left out."""
    exponent = bits >> fraction_bits & (1 << exponent_bits) - 1
    fraction = bits & (1 << fraction_bits) - 1
    lowest = 2 - (1 << exponent_bits - 1) - fraction_bits
    if exponent:
        fraction |= 1 << fraction_bits
    return fraction * Fraction(2) ** (lowest + max(exponent, 1) - 1)


def value32(bits):
    return value(bits, 8, 23)


def value64(bits):
    return value(bits, 11, 52)


def root(bits):
    """By squaring the half-way points on each side of a guess."""
    if bits in (0, 0x80000000, INFINITY32):
        return bits
    if bits > INFINITY32:
        return NAN32
    x = value32(bits)
    # floor(sqrt(x)) over a scale that leaves 64 bits after the point
    guess = nearest(Fraction(isqrt(int(x * 2 ** 298)), 2 ** 149))
    for result in (guess - 1, guess, guess + 1):
        below = (value32(result - 1) + value32(result)) / 2
        above = (value32(result) + value32(result + 1)) / 2
        if below ** 2 < x < above ** 2:
            return result
    raise ValueError(f"no root of {bits:08x}")


def nearest(x):
    """Bits of the f32 nearest to x >= 0, ties to the even one."""
    low, high = 0, INFINITY32
    # The least pattern above x; past the largest number, infinity stands for 2^128.
    while low < high:
        middle = (low + high) // 2
        if size32(middle) > x:
            high = middle
        else:
            low = middle + 1
    if low == 0:
        return 0
    if low == INFINITY32 and size32(INFINITY32) <= x:
        return INFINITY32
    below, above = low - 1, low
    left, right = x - size32(below), size32(above) - x
    if left == right:
        return below if below % 2 == 0 else above
    return below if left < right else above


def size32(bits):
    return Fraction(2) ** 128 if bits == INFINITY32 else value32(bits)


def narrow(bits):
    size, sign = bits & (1 << 63) - 1, bits >> 63
    if size > 0x7FF << 52:
        return NAN32
    if size == 0x7FF << 52:
        return INFINITY32 | sign << 31
    return nearest(value64(size)) | sign << 31


def total_order(a, b):
    """IEEE 754-2019, 5.10: whether a comes before b or is the same."""
    def place(bits):
        sign = -1 if bits >> 63 else 1
        size = bits & (1 << 63) - 1
        infinity = 0x7FF << 52
        if size > infinity:
            quiet = size >> 51 & 1
            payload = size & (1 << 51) - 1
            return (3 * sign, sign * quiet, sign * payload)
        if size == infinity:
            return (2 * sign, 0, 0)
        # Equal numbers differ only as zeros, and -0 comes first.
        return (0, sign * value64(size), sign if size == 0 else 0)
    return place(a) <= place(b)


def record(kind, verdict, first, second):
    return struct.pack("<BB6xQQ", kind, verdict, first, second)


def roots():
    special = [0, 1, 2, 3, 4, 0x7FFFFF, 0x800000, 0x800001, 0x7F7FFFFF, 0x7F7FFFFE, INFINITY32,
               0x7F800001, 0x7FC00000, 0x7FFFFFFF, 0x80000000, 0x80000001, 0xBF800000, 0xFF7FFFFF,
               0xFF800000, 0xFF800001, 0xFFC00000, 0xFFFFFFFF, 0x40000000, 0x40800000]
    yield from special
    for exponent in range(1, 255):
        yield exponent << 23
        yield (exponent << 23) - 1
    # Squares of f32 numbers with few bits, and of half-way points, and beside them.
    for _ in range(400):
        number = random.randrange(1 << 11, 1 << 12)
        bits = nearest(Fraction(number * number) * Fraction(4) ** random.randrange(-80, 50))
        yield from (bits - 1, bits, bits + 1)
    for _ in range(300):
        half = 2 * random.randrange(1 << 23, 1 << 24) + 1
        bits = nearest(Fraction(half * half) * Fraction(4) ** random.randrange(-88, 38))
        yield from (bits, bits + 1)
    for _ in range(300):
        yield random.randrange(1, 0x800000)
        yield random.randrange(1 << 32)


def narrowings():
    infinity = 0x7FF << 52
    for sign in (0, 1 << 63):
        for size in (0, 1, (1 << 52) - 1, 1 << 52, infinity - 1, infinity, infinity + 1,
                     infinity | 1 << 51, infinity | (1 << 51) - 1, (1 << 63) - 1):
            yield sign | size
        # At every f32 exponent: a number, the ties above it, and a step beside them.
        for exponent in range(1023 - 152, 1023 + 130, 2):
            fall = 29 + max(0, 1023 - 126 - exponent)
            for _ in range(2):
                bits = exponent << 52 | random.getrandbits(52)
                half = 1 << min(fall, 52) - 1
                kept = bits & ~(2 * half - 1)
                yield from (sign | n for n in (kept, kept + half - 1, kept + half, kept + half + 1))
        # The largest f32, the tie above it, infinity.
        for size in (0x47EFFFFFE0000000, 0x47EFFFFFEFFFFFFF, 0x47EFFFFFF0000000, 0x47F0000000000000):
            yield sign | size
    # Document 01's own: 1 + 2^-24, 1 + 3 * 2^-24, 2^-150.
    yield from (0x3FF0000010000000, 0x3FF0000030000000, 0x3690000000000000)
    for _ in range(200):
        yield random.getrandbits(64)


def orders():
    infinity = 0x7FF << 52
    sizes = [0, 1, 2, (1 << 52) - 1, 1 << 52, 1023 << 52, (1023 << 52) + 1, infinity - 1, infinity,
             infinity + 1, infinity + 2, infinity | (1 << 51) - 1, infinity | 1 << 51, (1 << 63) - 1]
    special = sizes + [1 << 63 | size for size in sizes]
    for a in special:
        for b in special:
            yield a, b
    for _ in range(400):
        a = random.getrandbits(64)
        yield a, random.getrandbits(64)
        yield a, a ^ 1 << random.randrange(64)
        yield a, a


def main():
    out = sys.stdout.buffer
    for bits in roots():
        out.write(record(1, 0, bits, root(bits)))
    for bits in narrowings():
        out.write(record(2, 0, bits, narrow(bits)))
    for a, b in orders():
        out.write(record(3, total_order(a, b), a, b))


main()
