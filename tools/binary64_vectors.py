#!/usr/bin/env python3
"""Operation vectors for binary64.

Library: GNU MPFR 4.2.0 (libmpfr.so.6, by ctypes), 53 bits, the exponents of IEEE 754 binary64 and mpfr_subnormalize, to nearest with ties
to even. No operation of the machine's floats is used. Seed: 20260.

The first part of crates/vectors/stdin; what decimal_vectors.py writes is the rest.

usage: binary64_vectors.py [output path]
"""

import random

from outside import Binary64, heading
from vector_lines import admit_line, at_most_line, lift_line, lines, product_line, sum_line, write

SEED = 20260
SIGN = 2**63
ONE = 1023 << 52
LARGEST = (1023 + 900) << 52  # 2^900
SMALLEST = (1023 - 900) << 52  # 2^-900, the lower limit of products
MINUS_ZERO = SIGN
INFINITY = 0x7FF << 52

dealt = random.Random(SEED)


def hexed(bits):
    return f"{bits:016X}"


def power(exponent):
    """The bits of a power of two, from 2^-1074 on."""
    return (exponent + 1023) << 52 if exponent >= -1022 else 1 << (exponent + 1074)


def signed(bits):
    return bits | (SIGN if dealt.random() < 0.5 else 0)


def fraction():
    """The 52 bits of a fraction: any, few at the top, few at the bottom, all ones, none."""
    kind = dealt.randrange(6)
    if kind <= 1:
        return dealt.getrandbits(52)
    if kind == 2:
        return dealt.getrandbits(12) << 40
    if kind == 3:
        return dealt.getrandbits(6)
    return 2**52 - 1 - dealt.getrandbits(2) if kind == 4 else 0


def between(low, high):
    """A number whose exponent is from low to high, both among the normal ones."""
    return signed((dealt.randint(low, high) + 1023) << 52 | fraction())


def subnormal():
    return signed(dealt.choice([dealt.getrandbits(52), dealt.getrandbits(8), 1, 2**52 - 1]))


def any_number():
    """Any number of binary64 of at most 2^900, all exponents alike."""
    return signed(dealt.randrange(LARGEST + 1))


def negative(bits):
    return bits ^ SIGN


def near(bits, most=3):
    """A neighbour of a number, some steps away."""
    return bits + dealt.randint(-most, most) if bits % SIGN > most else bits


def exponent(bits):
    return max((bits % SIGN) >> 52, 1) - 1023


def sums():
    for _ in range(110):
        yield any_number(), any_number()
    for _ in range(200):  # exponents that overlap, or nearly
        a = between(-1022, 898)
        apart = exponent(a) - dealt.randint(0, 56)
        yield a, between(max(apart, -1022), max(apart, -1022))
    for _ in range(130):  # half a unit in the last place of the first, exactly or nearly
        a = between(-900, 890)
        half = power(exponent(a) - 53)
        yield a, signed(near(half, 1) if dealt.random() < 0.5 else half)
    for _ in range(60):  # the half below a power of two
        a = signed(power(dealt.randint(-900, 890)))
        yield a, signed(near(power(exponent(a) - 54), 1))
    for _ in range(80):  # carries to the next power of two
        a = power(dealt.randint(-900, 899)) - dealt.randint(1, 2)
        yield signed(a), signed(power(exponent(a) - dealt.choice([52, 53, 54])))
    for _ in range(80):  # cancellation, whole or nearly
        a = any_number()
        yield a, negative(near(a, dealt.choice([0, 1, 1000])))
    for _ in range(50):
        a = between(-1000, 899)
        yield a, negative(near(a, 2)) - dealt.choice([0, 0, 1 << 52])
    for _ in range(60):  # subnormal operands
        yield subnormal(), subnormal()
    for _ in range(60):  # subnormal error parts
        yield between(-1022, -960), subnormal()
    yield from sums_at_limit()
    yield from zeros()


def sums_at_limit():
    """Sums about 2^900, from inside and outside."""
    unit, half, quarter = power(848), power(847), power(846)
    for sign in (0, SIGN):
        for a in (LARGEST, LARGEST - 1, LARGEST - 2):
            for b in (unit, half, quarter, half + 1, half - 1, quarter + 1, quarter - 1, power(845), 1):
                yield a | sign, b | sign
                yield a | sign, b | (SIGN - sign)
        yield LARGEST | sign, LARGEST | sign
        yield LARGEST | sign, LARGEST | (SIGN - sign)
        yield power(899) | sign, power(899) | sign
        yield power(899) | sign, (power(899) + 1) | sign
        yield (power(899) + 1) | sign, (power(899) - 1) | sign
    for _ in range(40):
        sign = signed(0)
        yield (LARGEST - dealt.randint(0, 4)) | sign, near(power(dealt.randint(845, 851)), 1) | sign
    for _ in range(30):
        sign = signed(0)
        yield (power(899) + dealt.getrandbits(52)) | sign, (power(899) - dealt.getrandbits(51)) | sign


def zeros():
    for a in (0, MINUS_ZERO):
        for b in (0, MINUS_ZERO, ONE, ONE | SIGN, LARGEST, LARGEST | SIGN, SMALLEST, 1, 1 | SIGN):
            yield a, b
            yield b, a


def products():
    for _ in range(120):
        yield any_number(), any_number()
    for _ in range(300):  # in range, mostly
        a = between(-890, 890)
        e = dealt.randint(max(-899, -895 - exponent(a)), min(899, 898 - exponent(a)))
        yield a, between(e, e)
    for _ in range(150):  # ties: 54 bits or so
        a = dealt.getrandbits(26) << 26
        b = dealt.getrandbits(27) << 25
        yield signed(power(dealt.randint(-400, 400)) + (a | 1 << 26)), signed(power(dealt.randint(-400, 400)) + (b | 1 << 25))
    for _ in range(120):  # carries to the next power of two
        k = dealt.randint(20, 52)
        a = power(dealt.randint(-400, 400)) + (1 << (52 - k))
        b = power(dealt.randint(-400, 400)) - (1 << (53 - k))
        yield signed(near(a, 1)), signed(near(b, 1))
    for _ in range(40):  # subnormal factors
        yield subnormal(), between(500, 899)
    for _ in range(110):  # about the lower limit
        e = dealt.randint(-890, -10)
        yield signed(near(power(e))), signed(near(power(-900 - e)))
    for _ in range(110):  # about the upper limit
        e = dealt.randint(10, 890)
        yield signed(near(power(e))), signed(near(power(900 - e)))
    for limit in (SMALLEST, LARGEST):
        for a in (limit - 1, limit, limit + 1 if limit == SMALLEST else limit - 2):
            for b in (ONE - 1, ONE, ONE + 1, ONE | SIGN, ONE - 2):
                yield a, b
    yield from zeros()


def lifts():
    for m in range(193):  # every m, for numbers of each kind
        yield between(-899, 899), m
        yield signed(power(dealt.randint(-899, 899))), m
        yield signed(power(dealt.randint(-899, 899)) - 1 - dealt.getrandbits(8)), m
    for _ in range(200):
        yield any_number(), dealt.randint(0, 192)
    for _ in range(90):  # about the lower limit
        yield signed(SMALLEST + dealt.randint(-200, 3)), dealt.randint(0, 192)
    for _ in range(90):  # about the upper limit
        yield signed(LARGEST - dealt.randint(0, 200)), dealt.randint(0, 192)
    for m in (0, 1, 2, 3, 96, 191, 192):  # just to a limit, or just short of it
        for steps in (-1, 0, 1):
            yield LARGEST - m + min(steps, m), m
            yield SMALLEST - m + steps, m
        yield 0, m
        yield MINUS_ZERO, m
    for _ in range(15):
        yield subnormal(), dealt.randint(0, 192)


def admissions():
    for a in (0, 1, 2, 2**52 - 1, 2**52, SMALLEST - 1, SMALLEST, SMALLEST + 1, ONE - 1, ONE, ONE + 1, LARGEST - 1, LARGEST,
              LARGEST + 1, LARGEST + 2**52, INFINITY - 1, INFINITY, INFINITY + 1, INFINITY + 2**51, 2**63 - 1):
        yield (a,)
        yield (a | SIGN,)
    for _ in range(60):
        yield (any_number(),)
    for _ in range(30):
        yield (subnormal(),)
    for _ in range(40):  # too large
        yield (signed(dealt.randrange(LARGEST + 1, INFINITY)),)
    for _ in range(40):
        yield (signed(INFINITY + dealt.randrange(2**52)),)
    for _ in range(40):
        yield (dealt.getrandbits(64),)


def comparisons():
    for _ in range(70):
        yield any_number(), any_number()
    for _ in range(60):  # neighbours, equals, and numbers that differ in the sign
        a = any_number()
        yield a, near(a, 1) if a % SIGN < LARGEST else a
        yield a, negative(a)
    for _ in range(20):
        yield subnormal(), subnormal()
    yield from zeros()


def pairs(cases):
    """Cases of numbers alone, by their patterns."""
    for case in cases:
        yield tuple(hexed(bits) for bits in case)


def lifted(cases):
    """Cases of a number and a count."""
    for bits, m in cases:
        yield hexed(bits), m


def main():
    arith = Binary64()
    text = [heading(arith, "operation vectors by tools/binary64_vectors.py", SEED), arith.name]
    text += lines(arith, sum_line, pairs(sums()))
    text += lines(arith, product_line, pairs(products()))
    text += lines(arith, lift_line, lifted(lifts()))
    text += lines(arith, admit_line, pairs(admissions()))
    text += lines(arith, at_most_line, pairs(comparisons()))
    write("\n".join(text) + "\n")


main()
