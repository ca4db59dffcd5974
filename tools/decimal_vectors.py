#!/usr/bin/env python3
"""Operation vectors for decimal with eight, seven, six, five and four digits, a section for each.

Library: libmpdec 2.5.1 (Python's decimal module), d digits, half-even, Emin d - 71 (so that the least unit is 10^-70). Seeds: 20261 for
eight digits, 20277, 20276, 20275 and 20274 for seven to four. A section of fewer than eight digits has a quarter of the dealt lines of each
kind.

crates/vectors/stdin is what binary64_vectors.py writes, and after it what this script writes. crates/vectors/stdout counts the lines of
each kind in each section, all of which agree; the line of a sum or a product counts for the rounded operation and for the split.

usage: decimal_vectors.py [output path]
"""

import random
from math import gcd

from outside import Decimal, heading, written
from vector_lines import admit_line, at_most_line, lift_line, lines, product_line, sum_line, write

SEEDS = {8: 20261, 7: 20277, 6: 20276, 5: 20275, 4: 20274}
ZERO = (0, 0)


def negative(number):
    return -number[0], number[1]


class Cases:
    """The cases of decimal with d digits. A number is told by its M and e."""

    def __init__(self, arith):
        self.d, self.unit, self.full = arith.d, arith.unit, arith.full
        self.one = (self.unit, 1 - self.d)
        self.largest = (self.unit, 41 - self.d)  # 10^40
        self.smallest = (self.unit, -39 - self.d)  # 10^-40, the lower limit of products
        # the exponents of the numbers just below 10^40 and just below 10^-40
        self.below_high, self.below_low = 40 - self.d, -40 - self.d
        self.dealt = random.Random(SEEDS[self.d])

    def dealings(self, count):
        """So many, one by one; for fewer than eight digits every fourth."""
        return range(0, count, 1 if self.d == 8 else 4)

    def signed(self, number):
        return negative(number) if self.dealt.random() < 0.5 else number

    def power(self, exponent):
        """A power of ten, from 10^-70 on."""
        return (self.unit, exponent + 1 - self.d) if exponent >= self.d - 71 else (10 ** (exponent + 70), -70)

    def significand(self):
        """All digits: any, few at the front, few at the end, nines, none but the first."""
        deal = self.dealt
        kind = deal.randrange(6)
        if kind <= 1:
            return deal.randrange(self.unit, self.full)
        if kind == 2:
            return deal.randrange(100, 1000) * 10 ** (self.d - 3)
        if kind == 3:
            return self.unit + deal.randrange(100)
        return self.full - 1 - deal.randrange(3) if kind == 4 else deal.randrange(1, 10) * self.unit

    def between(self, low, high):
        """A number of all digits whose exponent is from low to high."""
        return self.signed((self.significand(), self.dealt.randint(low, high)))

    def small(self):
        """A number of fewer digits."""
        deal, unit = self.dealt, self.unit
        return self.signed((deal.choice([deal.randrange(1, unit), deal.randrange(1, min(unit, 1000)), 1, unit - 1]), -70))

    def any_number(self):
        return self.between(-70, self.below_high)

    def near(self, number, most=3):
        """A neighbour of a number of all digits, some steps away where it has as many digits."""
        stepped = number[0] + self.dealt.randint(-most, most)
        return (stepped, number[1]) if self.unit <= abs(stepped) < self.full else number

    def below(self, number):
        """The number before a power of ten."""
        return self.stepped_down(number[1] - 1, 1)

    def stepped_down(self, exponent, steps):
        """The power of ten after the numbers of all digits with an exponent, or the number some steps below it."""
        return (self.full - steps, exponent) if steps > 0 else (self.unit, exponent + 1)

    def whole(self, size, exponent):
        """A number of no more digits in its one form."""
        while size < self.unit:
            size, exponent = size * 10, exponent - 1
        return size, exponent

    def about(self, exponent):
        """A power of ten, or a neighbour."""
        a = self.power(exponent)
        return self.dealt.choice([a, self.near(a, 3), self.stepped_down(a[1] - 1, self.dealt.randint(1, 3))])

    def sums(self):
        deal, d, half = self.dealt, self.d, 5 * self.unit
        for _ in self.dealings(110):
            yield self.any_number(), self.any_number()
        for _ in self.dealings(230):  # exponents that overlap, or nearly
            a = self.between(-70, self.below_high - 1)
            e = max(a[1] - deal.randint(0, d + 1), -70)
            yield a, self.between(e, e)
        for _ in self.dealings(140):  # half a unit in the last place of the first, exactly or nearly
            a = self.between(d - 70, self.below_high - 1)
            b = (half, a[1] - d)
            yield a, self.signed(self.near(b, 1) if deal.random() < 0.5 else b)
        for _ in self.dealings(60):  # the half below a power of ten
            a = self.signed(self.power(deal.randint(-50, 38)))
            yield a, self.signed(self.near((half, a[1] - d - 1), 1))
        for _ in self.dealings(80):  # carries to the next power of ten
            a = self.below(self.power(deal.randint(-50, 40)))
            b = deal.choice([self.power(a[1]), (half, a[1] - d), (half - 1, a[1] - d)])
            yield self.signed(self.near(a, 1)), self.signed(b)
        for _ in self.dealings(90):  # cancellation, whole or nearly
            a = self.any_number()
            yield a, negative(self.near(a, deal.choice([0, 1, 10 ** (d // 2 - 1)])))
        for _ in self.dealings(70):  # fewer digits
            yield self.small(), self.small()
        for _ in self.dealings(70):  # error parts of fewer digits
            yield self.between(-69, d - 71), self.small()
        for _ in self.dealings(30):
            yield self.between(-69, d - 68), self.between(-70, d - 72)
        yield from self.sums_at_limit()
        yield from self.sums_at_least_exponent()
        yield from self.zeros()

    def sums_at_limit(self):
        """Sums about 10^40, from inside and outside."""
        deal, high = self.dealt, self.below_high
        unit, half = self.unit, 5 * self.unit
        place = self.largest[1] - self.d  # unit and half with this exponent are a tenth and half of the last place of 10^40
        steps = [(unit, place + 1), (half, place), (half + 1, place), (half - 1, place), (half, place - 1), (half + 1, place - 1),
                 (half - 1, place - 1), (unit, place), (unit, place - 7), (1, -70)]
        for a in (self.largest, self.below(self.largest), self.stepped_down(high, 2)):
            for b in steps:
                yield a, b
                yield a, negative(b)
                yield negative(a), negative(b)
        yield self.largest, self.largest
        yield self.largest, negative(self.largest)
        yield (half, high), (half, high)
        yield (half, high), (half + 1, high)
        for _ in self.dealings(40):
            yield self.near(self.largest, 0), self.between(place - 1, place + 2)
            a = deal.randrange(unit, self.full)
            yield (a, high), (max(self.full - a + deal.randint(-2, 2), unit), high)

    def sums_at_least_exponent(self):
        """Sums of numbers with the exponent -70, to the numbers of fewer digits and to those of the exponent -69."""
        least, last = (self.unit, -70), (self.full - 1, -70)
        for a, b in ((least, (-1, -70)), ((self.unit - 1, -70), (1, -70)), (last, (1, -70)), (last, (6, -70)), (last, last), (least, last)):
            yield a, b
            yield negative(b), negative(a)

    def zeros(self):
        for b in (ZERO, self.one, negative(self.one), self.largest, negative(self.largest), self.smallest, (1, -70), (-1, -70)):
            yield ZERO, b
            yield b, ZERO

    def products(self):
        deal, d = self.dealt, self.d
        for _ in self.dealings(140):
            yield self.any_number(), self.any_number()
        for _ in self.dealings(340):  # in range, mostly
            a = self.between(self.below_low + 2, self.below_high - 1)
            e = deal.randint(max(self.below_low + 2 - d - a[1], -70), min(self.below_high - d - a[1], self.below_high))
            yield a, self.between(e, e)
        for _ in self.dealings(160):  # ties: one digit too many, which is 5
            front, back = d // 2, d - d // 2
            a = deal.randrange(10 ** (front - 1) + 1, 10**front, 2)
            b = deal.randrange(2 * 10 ** (back - 1) + 1, 10 ** (back + 1), 2)
            a, b = deal.choice([(a, 5 * (b // 5 | 1)), (5 * (a // 5 | 1), b)])
            yield self.signed(self.whole(a, deal.randint(-20, 20))), self.signed(self.whole(b, deal.randint(-20, 20)))
        for _ in self.dealings(110):  # carries to the next power of ten
            k = deal.randint(d // 2 - 1, d - 1)
            a = self.unit + 10 ** (d - 1 - k)
            b = self.full - 10 ** (d - k)
            yield self.signed(self.near((a, deal.randint(-20, 20)), 1)), self.signed(self.near((b, deal.randint(-20, 20)), 1))
        for _ in self.dealings(30):  # factors of fewer digits
            yield self.small(), self.between(18 - d, self.below_high)
        for _ in self.dealings(100):  # about the lower limit
            e = deal.randint(-39, -1)
            yield self.signed(self.about(e)), self.signed(self.about(-40 - e))
        for _ in self.dealings(100):  # about the upper limit
            e = deal.randint(1, 39)
            yield self.signed(self.about(e)), self.signed(self.about(40 - e))
        yield from self.products_at_limits()
        yield from self.products_below_one()
        yield from self.zeros()

    def products_at_limits(self):
        """Products of 10^-40, 10^40 and their neighbours by 1 and its neighbours."""
        after_smallest, after_one = ((number[0] + 1, number[1]) for number in (self.smallest, self.one))
        for a in (self.below(self.smallest), self.smallest, after_smallest,
                  self.below(self.largest), self.largest, self.stepped_down(self.below_high, 2)):
            for b in (self.below(self.one), self.one, after_one, negative(self.one), self.stepped_down(-self.d, 2)):
                yield a, b

    def products_below_one(self):
        """Products that fall short of 1 by 10 steps^2 units of 10^(1 - 2 d). All carry to 1, but in four digits the one of 8 steps."""
        for steps in range(1, 9):
            a, b = (self.unit + steps, 1 - self.d), (self.full - 10 * steps, -self.d)
            yield a, b
            yield negative(a), b

    def lifts(self):
        deal, low, high = self.dealt, self.below_low, self.below_high
        for m in self.dealings(193):  # every m, or every fourth, for numbers of each kind
            yield self.between(low + 2, high - 1), m
            yield self.signed(self.power(deal.randint(-39, 39))), m
            yield self.signed((self.full - 1 - deal.randrange(300), deal.randint(low + 2, high - 1))), m
        for _ in self.dealings(220):
            yield self.any_number(), deal.randint(0, 192)
        for _ in self.dealings(90):  # about the lower limit
            a = self.stepped_down(low, deal.randint(0, 1000)) if deal.random() < 0.8 else self.near(self.smallest)
            yield self.signed(a), deal.randint(0, 192)
        for _ in self.dealings(90):  # about the upper limit
            yield self.signed(self.stepped_down(high, deal.randint(1, 1000))), deal.randint(0, 192)
        for m in (0, 1, 2, 3, 96, 191, 192):  # just to a limit, or just short of it: u is five units of the last digit below a power
            for steps in (-1, 0, 1):
                yield self.stepped_down(high, 5 * m - steps), m
                yield self.stepped_down(low, 5 * m - steps), m
            yield ZERO, m
            yield self.largest, m
            yield self.smallest, m
        for _ in self.dealings(20):
            yield self.small(), deal.randint(0, 192)
        yield from self.lifts_to_ties()

    def lifts_to_ties(self):
        """Numbers whose quotient is a tie; in eight digits there is none, since 2^8 is above 192."""
        deal, roundoffs = self.dealt, 2 * self.unit
        for m in range(2**self.d, 193, 2 ** (self.d + 1)):
            divisor = roundoffs - m
            part = divisor // gcd(divisor, 2 * roundoffs)  # odd multiples of it come to odd numbers of halves
            for _ in range(6):
                times = deal.randrange(self.unit // part + 1, self.full // part) | 1
                yield self.signed((times * part, deal.randint(self.below_low + 2, self.below_high - 1))), m

    def admissions(self):
        deal, one = self.dealt, self.one
        exponents = (self.below_high, self.largest[1], self.largest[1] + 1)
        for size in (1, self.unit - 1, self.unit, self.unit + 1, self.full - 1, self.full, 2**31 - 1):
            for exponent in (-32768, -71, -70, -69, self.smallest[1], one[1], -1, 0, 1, *exponents, 32767):
                yield (written(size, exponent),)
            for exponent in (-71, -70, *exponents):
                yield (written(-size, exponent),)
        yield (written(-(2**31), 0),)
        for exponent in (-32768, -70, -1, 0, 1, self.largest[1]):
            yield (written(0, exponent),)
        for tail in (1, 256, 65535):
            yield (written(0, 0, tail),)
            yield (written(*one, tail),)
            yield (written(self.unit + 1, self.largest[1], tail),)
        for _ in self.dealings(40):
            yield (written(*self.any_number()),)
        for _ in self.dealings(15):
            yield (written(*self.small()),)
        for _ in self.dealings(20):  # too large
            yield (written(*self.between(self.largest[1], self.largest[1])),)
        for _ in self.dealings(20):
            yield (f"{deal.getrandbits(64):016X}",)
        for d in range(4, 9):  # 1 in each count of digits
            yield (written(10 ** (d - 1), 1 - d),)

    def comparisons(self):
        deal = self.dealt
        for _ in self.dealings(70):
            yield self.any_number(), self.any_number()
        for _ in self.dealings(60):  # neighbours, equals, and numbers that differ in the sign or in the exponent
            a = self.any_number()
            yield a, self.near(a, 1)
            yield a, negative(a)
        for _ in self.dealings(30):
            a = self.any_number()
            yield a, (a[0], max(-70, min(self.below_high, a[1] + deal.choice([-1, 1]))))
        for _ in self.dealings(20):
            yield self.small(), self.small()
        yield from self.zeros()


def pairs(cases):
    """Cases of numbers alone, by their patterns."""
    for case in cases:
        yield tuple(written(*number) for number in case)


def lifted(cases):
    """Cases of a number and a count."""
    for number, m in cases:
        yield written(*number), m


def section(d):
    """The lines of decimal with d digits."""
    arith = Decimal(d)
    cases = Cases(arith)
    text = [heading(arith, "operation vectors by tools/decimal_vectors.py", SEEDS[d]), arith.name]
    text += lines(arith, sum_line, pairs(cases.sums()))
    text += lines(arith, product_line, pairs(cases.products()))
    text += lines(arith, lift_line, lifted(cases.lifts()))
    text += lines(arith, admit_line, cases.admissions())
    text += lines(arith, at_most_line, pairs(cases.comparisons()))
    return text


def main():
    write("\n".join(line for d in SEEDS for line in section(d)) + "\n")


main()
