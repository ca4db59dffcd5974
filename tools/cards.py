#!/usr/bin/env python3
"""Whole cards for binary64 and for decimal with eight, seven, six, five and four digits, with the answer of each call.

A card is a bench of some highest order, to which zeros are added, and of which orders are asked and claims marked. Row, closing and verdict
are worked here operation by operation over the outside libraries: GNU MPFR 4.2.0 for binary64, libmpdec 2.5.1 (Python's decimal module) for
decimal. Seeds: 20262 for binary64, 20263 for decimal8, 20287, 20286, 20285 and 20284 for decimal7 to decimal4.

    card binary64 3      a card of highest order 3
    add X = Z 1              the number of the zero
    ask 2 = K 2 V B          value and bound
    mark 1 C T = M 1 right   the verdict on the claim C with the tolerance T: right, wrong or open
                             a refused call has `R`, the number of the refusal and its details

crates/cards/stdout has the line that is wrong on purpose, with the right answer; then it counts the cards and calls of binary64, and those
of decimal with any count of digits.

usage: cards.py [output path]
"""

import random
from fractions import Fraction

from outside import Binary64, Decimal, heading, written
from vector_lines import write

# the seed of each arithmetic, and how many cards are dealt
DEALT = {
    "binary64": (20262, 300),
    "decimal8": (20263, 300),
    "decimal7": (20287, 60),
    "decimal6": (20286, 60),
    "decimal5": (20285, 60),
    "decimal4": (20284, 60),
}

# written by hand: of highest order 3, with two zeros held, the third order is refused by 7
BY_HAND = {
    "binary64": """card binary64 3
add 3FF0000000000000 = Z 1
add 4000000000000000 = Z 2
ask 3 = R 7
""",
    "decimal8": """card decimal8 3
add 00989680FFF90000 = Z 1
add 01312D00FFF90000 = Z 2
ask 3 = R 7
""",
}

# a card with a wrong answer
WRONG = """# a wrong answer, so that a difference is seen to be found
card binary64 3
add 3FF0000000000000 = Z 1
add 4000000000000000 = Z 3
"""


def known_figures(arith):
    """Cards with known figures: the highest order, the zeros, and claims on orders with their tolerances."""
    if arith.name == "binary64":
        return [
            (3, [1, 2, 3], []),
            (2, [Fraction(1, 2**450)] * 2, []),
            (2, [Fraction(1, 2**460)] * 2, []),
            (1, [2**900] * 2, []),
        ]
    after_one = 1 + Fraction(1, arith.unit)
    large = 1000 * arith.unit  # its last place is 1,000, so that adding 45 leaves it unchanged
    claims = [(1, "-15.92", 0), (1, "-15.92", "0.01"), (1, "-15.93", 0)]
    return [
        (3, [1, 2, 3], []),
        (2, [after_one] * 2, []),
        (1, [large, 45, 45, -large, Fraction("1.2345678"[:arith.d + 1])], []),
        (3, ["1.234", "5.678", "9.012"], claims),
    ]


def not_admitted(arith):
    """Patterns that are not admitted."""
    if arith.name == "binary64":
        return ["7FF0000000000000", "FFF0000000000000", "7FF8000000000001", "7830000000000001", "F840000000000000"]
    unit, full, largest = arith.unit, arith.full, 41 - arith.d
    return [written(0, 1), written(1, 0), written(unit, 1 - arith.d, 1), written(unit + 1, largest), written(1 - full, largest)]


class Refused(Exception):
    """A call is refused, by the number of the refusal and its details."""


def carried_out(result, *refusal):
    if result is None:
        raise Refused(*refusal)
    return result


class Bench:
    """A bench with at most one question out, which is marked or withdrawn at once."""

    def __init__(self, arith, highest):
        self.arith = arith
        self.highest = highest
        self.held = 0
        zero = Fraction(0)
        self.cells = [(Fraction(1), zero, zero)] + [(zero, zero, zero)] * highest

    def admitted(self, pattern):
        number, cause = self.arith.admission(pattern)
        if cause:
            raise Refused(17, cause)
        return number

    def new_cell(self, x, j):
        """The nine operations at order j."""
        a = self.arith
        s, c, e = self.cells[j]
        s0, c0, e0 = self.cells[j - 1]
        p, beta = carried_out(a.split_product(x, s0), 5, j, 1)
        s1, sigma = carried_out(a.split_sum(s, p), 5, j, 2)
        w = carried_out(a.sum(beta, sigma), 5, j, 3)
        g = carried_out(a.sum(c, w), 5, j, 4)
        h = carried_out(a.product(x, c0), 5, j, 5)
        c1 = carried_out(a.sum(g, h), 5, j, 6)
        f = carried_out(a.sum(e, abs(w)), 5, j, 7)
        t = carried_out(a.product(abs(x), e0), 5, j, 8)
        e1 = carried_out(a.sum(f, t), 5, j, 9)
        return s1, c1, e1

    def add(self, pattern):
        x = self.admitted(pattern)
        if self.held >= 64:
            raise Refused(3)
        if not self.arith.in_limits(x):
            raise Refused(4)
        last = min(self.held + 1, self.highest)
        written = {j: self.new_cell(x, j) for j in range(last, 0, -1)}
        for j, cell in written.items():
            self.cells[j] = cell
        self.held += 1
        return self.held

    def check_order(self, k):
        if k > self.highest:
            raise Refused(6)
        if k > self.held:
            raise Refused(7)

    def close(self, k):
        """Value and bound of order k."""
        if k == 0:
            return Fraction(1), Fraction(0)
        a, n = self.arith, self.held
        s, c, e = self.cells[k]
        v, rest = carried_out(a.split_sum(s, c), 8, 1)
        gamma = carried_out(a.lift(a.grain(2 * (n - 1)), 2 * (n - 1)), 8, 2)
        product = carried_out(a.product(gamma, e), 8, 3)
        lifted = carried_out(a.lift(product, 3 * n), 8, 4)
        both = carried_out(a.sum(abs(rest), lifted), 8, 5)
        bound = carried_out(a.lift(both, 2), 8, 6)
        return (-v if k % 2 else v), bound

    def ask(self, k):
        self.check_order(k)
        return self.close(k)

    def mark(self, k, claim, tolerance):
        """Issues a question of order k, and marks the claim by it."""
        self.check_order(k)
        claim = self.admitted(claim)
        tolerance = self.admitted(tolerance)
        if tolerance < 0:
            raise Refused(11)
        value, bound = self.close(k)
        a = self.arith
        d = abs(carried_out(a.sum(claim, -value), 12, 1))
        above = carried_out(a.sum(d, bound), 12, 2)
        near = carried_out(a.lift(above, 3), 12, 3)
        wide = carried_out(a.sum(tolerance, bound), 12, 4)
        far = carried_out(a.lift(wide, 3), 12, 5)
        if near <= tolerance:
            return "right"
        return "wrong" if far < d else "open"


class Dealer:
    """Deals cards of one arithmetic, and writes their lines."""

    def __init__(self, arith, seed):
        self.arith = arith
        self.seed = seed
        self.dealt = random.Random(seed)
        # the limits are about 10^-reach and 10^reach
        self.reach = 270 if arith.name == "binary64" else 40
        # some numbers are dealt to differ in the last of so many digits; binary64 has more
        self.digits = 8 if arith.name == "binary64" else arith.d
        self.strange = not_admitted(arith)

    def number(self, low, high):
        """A number between powers of ten, of few digits or of many."""
        short = self.dealt.random() < 0.3
        if self.arith.name == "binary64":
            bits = 6 if short else 53
            exponent = self.dealt.randint(round(low * 3.321928), round(high * 3.321928))
            size = Fraction(self.dealt.getrandbits(bits) | 1 << (bits - 1)) * Fraction(2) ** (exponent - bits)
        else:
            digits = 2 if short else self.digits
            size = self.dealt.randrange(10 ** (digits - 1), 10**digits) * Fraction(10) ** (self.dealt.randint(low, high) - digits)
        return -size if self.dealt.random() < 0.5 else size

    def count(self):
        """How many zeros a card has: mostly few."""
        share = self.dealt.random()
        for most, part in ((8, 0.62), (20, 0.87), (40, 0.97)):
            if share < part:
                return self.dealt.randint(1, most)
        return self.dealt.randint(41, 64)

    def zeros(self, kind, n):
        """The zeros of a card."""
        deal, reach, digits = self.dealt, self.reach, self.digits
        if kind == "near one":
            return [self.number(0, 1) for _ in range(n)]
        if kind == "mixed":
            return [self.number(-4, 5) for _ in range(n)]
        if kind == "whole":
            return [Fraction(deal.randint(-9, 9)) for _ in range(n)]
        if kind == "alike":
            middle = self.number(-1, 1)
            return [deal.choice([1, -1]) * (self.arith.sum(middle, self.number(1 - digits, 3 - digits)) or middle) for _ in range(n)]
        if kind == "far apart":
            return [self.number(-reach // 4, reach // 4) for _ in range(n)]
        if kind == "large":
            return [self.number(reach // 3, reach - 1) for _ in range(n)]
        if kind == "small":
            return [self.number(-reach - 3, -reach // 3) for _ in range(n)]
        if kind == "at the top":  # sums that come to the upper limit
            return [self.number(reach, reach + 1 if self.arith.name == "binary64" else reach) for _ in range(n)]
        if kind == "faint":  # sums whose errors are too small to be multiplied
            return [self.number(-reach + max(2 * digits - 10, 1), -reach + 2 * digits + 2) for _ in range(n)]
        return [deal.choice([self.number(-1, 1), Fraction(0)]) for _ in range(n)]

    def claim(self, value, bound):
        """A claim about a value, and a tolerance."""
        deal, high, digits = self.dealt, self.arith.high, self.digits
        twice = self.total(bound, bound)
        apart = deal.choice([Fraction(0), bound, -twice, self.number(-1 - digits, 0), self.number(1 - digits, 4 - digits)])
        claims = [value, self.total(value, apart), -value, self.number(-3, 3), high, -high]
        claim = deal.choices(claims, [6, 16, 1, 2, 1, 1])[0]
        tolerances = [Fraction(0), bound, twice, abs(apart), self.total(abs(apart), twice), abs(self.number(-1 - digits, 0)), high,
                      -abs(self.number(-3, 0))]
        return claim, deal.choices(tolerances, [4, 4, 4, 4, 4, 4, 1, 1])[0]

    def total(self, a, b):
        """The rounded sum of two numbers, or the first where it is refused."""
        rounded = self.arith.sum(a, b)
        return a if rounded is None else rounded

    def pattern(self, a):
        """The pattern of a number, and now and then one that is not admitted."""
        return self.dealt.choice(self.strange) if self.dealt.random() < 0.01 else self.arith.pattern(a)

    def added(self, bench, pattern):
        return f"add {pattern} = {added_line(bench, pattern)}"

    def asked(self, bench, k):
        return f"ask {k} = {asked_line(bench, k)}"

    def marked(self, bench, k):
        try:
            value, bound = bench.ask(k)
        except Refused:
            value, bound = self.number(-1, 1), Fraction(0)
        claim, tolerance = (self.pattern(x) for x in self.claim(value, bound))
        return f"mark {k} {claim} {tolerance} = {marked_line(bench, k, claim, tolerance)}"

    def order(self, bench):
        """An order, mostly one that has a coefficient."""
        if self.dealt.random() < 0.08:
            return self.dealt.randint(0, 70)
        return self.dealt.randint(0, min(bench.held, bench.highest))

    def card(self):
        deal = self.dealt
        kind = deal.choice(["near one", "mixed", "whole", "alike", "far apart", "large", "small", "at the top", "faint", "with zeros"])
        n = self.count()
        highest = deal.choice([deal.randint(1, 64), deal.randint(1, 8), n, 64])
        if kind in ("large", "small"):
            n = min(n, 12)
        if kind in ("at the top", "faint"):
            highest = 1
        zeros = self.zeros(kind, n)
        bench = Bench(self.arith, highest)
        lines = [f"card {self.arith.name} {highest}"]
        lines += [self.added(bench, self.pattern(zero)) for zero in zeros]
        lines += [self.asked(bench, self.order(bench)) for _ in range(deal.randint(2, 5))]
        lines += [self.marked(bench, self.order(bench)) for _ in range(deal.randint(1, 4))]
        if deal.random() < 0.3:  # more zeros after the askings
            lines += [self.added(bench, self.pattern(self.number(-2, 2))), self.asked(bench, self.order(bench))]
        return lines

    def figures(self, highest, zeros, claims):
        """A card of which every order is asked, and then the claims are marked."""
        bench = Bench(self.arith, highest)
        lines = [f"card {self.arith.name} {highest}"]
        lines += [self.added(bench, self.arith.pattern(Fraction(zero))) for zero in zeros]
        lines += [self.asked(bench, k) for k in range(highest + 1)]
        for k, *numbers in claims:
            claim, tolerance = (self.arith.pattern(Fraction(x)) for x in numbers)
            lines.append(f"mark {k} {claim} {tolerance} = {marked_line(bench, k, claim, tolerance)}")
        return lines

    def full(self):
        """64 zeros, and one more that is refused."""
        bench = Bench(self.arith, 64)
        lines = [f"card {self.arith.name} 64"]
        lines += [self.added(bench, self.arith.pattern(self.number(0, 1))) for _ in range(65)]
        lines += [self.asked(bench, k) for k in (0, 1, 2, 31, 32, 63, 64, 65)]
        lines += [self.marked(bench, k) for k in (1, 32, 64)]
        return lines

    def text(self, count):
        """So many dealt cards, after those with known figures and a full one."""
        lines = [heading(self.arith, "whole cards by tools/cards.py", self.seed)]
        for figures in known_figures(self.arith):
            lines += self.figures(*figures)
        lines += self.full()
        for _ in range(count):
            lines += self.card()
        return "\n".join(lines) + "\n"


def told(call):
    """The line that a call answers, or that of its refusal."""
    try:
        return call()
    except Refused as refusal:
        return " ".join(["R", *map(str, refusal.args)])


def added_line(bench, pattern):
    return told(lambda: f"Z {bench.add(pattern)}")


def asked_line(bench, k):
    return told(lambda: " ".join(["K", str(k), *map(bench.arith.pattern, bench.ask(k))]))


def marked_line(bench, k, claim, tolerance):
    return told(lambda: f"M {k} {bench.mark(k, claim, tolerance)}")


def main():
    text = "# by hand\n" + BY_HAND["binary64"] + BY_HAND["decimal8"] + WRONG
    for arith in (Binary64(), *map(Decimal, range(8, 3, -1))):
        seed, count = DEALT[arith.name]
        text += Dealer(arith, seed).text(count)
    write(text)


if __name__ == "__main__":
    main()
