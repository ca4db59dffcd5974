#!/usr/bin/env python3
"""Whole sheets for binary64 and for decimal with four to eight digits, with the report of each.

A sheet is read and worked here by the rules of docs/SHEET.md, apart from the code, on the bench of cards.py, whose operations are those of
the outside libraries: GNU MPFR 4.2.0 for binary64, libmpdec 2.5.1 (Python's decimal module) for decimal. Seeds: 20264 for binary64, 20265
for decimal8, 20294 to 20297 for decimal4 to decimal7.

The first file has a comment and a line for each sheet. All digits are hexadecimal, two for each byte.

    sheet                      the sheet of no bytes
    sheet 0103                 these bytes
    sheet 0103 7FFE 00         these bytes, and after them so many copies (four digits) of some

The second file has the comments and the reports.

usage: sheets.py SHEETS REPORTS
"""

import random
import sys
from fractions import Fraction

from cards import Bench, Dealer, Refused, added_line, asked_line, marked_line
from outside import Binary64, Decimal, heading, written

# the seed of each arithmetic, and how many sheets are dealt
DEALT = {
    "binary64": (20264, 100),
    "decimal8": (20265, 100),
    "decimal4": (20294, 25),
    "decimal5": (20295, 25),
    "decimal6": (20296, 25),
    "decimal7": (20297, 25),
}

# the arithmetics by their number in a header
ARITHMETIC = {1: Binary64(), 2: Decimal(8), 4: Decimal(4), 5: Decimal(5), 6: Decimal(6), 7: Decimal(7)}
NUMBER = {arith.name: number for number, arith in ARITHMETIC.items()}
LONGEST = 32768
MAPS = (0, 1, 2, 3, 14, 15)
ZERO, ORDER, CLAIM, TOLERANCE = 1, 2, 4, 8
SIZE = {ZERO: 8, ORDER: 1, CLAIM: 8, TOLERANCE: 8}


class Fault(Exception):
    """A sheet is not read on, by the number of the fault, its slip and byte, and for a pattern the cause."""


class Slip:
    """The fields of a slip, by their bits, as bytes; and where it ends."""

    def __init__(self, sheet, byte, number, arith):
        bits = sheet[byte]
        if bits not in MAPS:
            raise Fault(16, number, byte)
        self.fields = {}
        places = {}
        end = byte + 1
        for bit, size in SIZE.items():
            if bits & bit:
                places[bit] = end
                self.fields[bit] = sheet[end:end + size]
                end += size
        if end > len(sheet):
            raise Fault(19, number, byte)
        for bit in (ZERO, CLAIM, TOLERANCE):
            if bits & bit:
                _, cause = arith.admission(self.pattern(bit))
                if cause:
                    raise Fault(17, number, places[bit], cause)
        self.end = end

    def pattern(self, bit):
        return self.fields[bit].hex().upper()

    def order(self):
        return self.fields[ORDER][0]

    def worked(self, bench):
        """The lines of the slip; a slip without fields is not worked here."""
        lines = []
        if ZERO in self.fields:
            lines.append(added_line(bench, self.pattern(ZERO)))
        if CLAIM in self.fields:
            lines.append(marked_line(bench, self.order(), self.pattern(CLAIM), self.pattern(TOLERANCE)))
        elif ORDER in self.fields:
            lines.append(asked_line(bench, self.order()))
        return lines


def opened(sheet):
    """The arithmetic and the highest order of a sheet."""
    if not 2 <= len(sheet) <= LONGEST:
        raise Fault(13, 0, 0)
    if sheet[0] not in ARITHMETIC:
        raise Fault(14, 0, 0)
    if not 1 <= sheet[1] <= 64:
        raise Fault(15, 0, 1)
    return ARITHMETIC[sheet[0]], sheet[1]


def report(sheet):
    """The lines of a sheet's report."""
    lines = []
    try:
        arith, highest = opened(sheet)
        bench = Bench(arith, highest)
        byte, slips = 2, 0
        while byte < len(sheet):
            slip = Slip(sheet, byte, slips + 1, arith)
            if slip.fields:
                lines += slip.worked(bench)
            else:
                bench = Bench(arith, highest)
                lines.append("C")
            byte, slips = slip.end, slips + 1
        lines.append(f"end {slips}")
    except Fault as fault:
        lines.append(" ".join(["F", *map(str, fault.args)]))
    return lines


class Files:
    """The two files, sheet by sheet."""

    def __init__(self):
        self.sheets = []
        self.reports = []

    def comment(self, text):
        self.sheets.append(text)
        self.reports.append(text)

    def case(self, text, sheet, copies=0, part=b""):
        """A sheet under a comment; its bytes are some, and then copies of a part."""
        self.comment(f"# {text}")
        words = [sheet.hex().upper()] + ([f"{copies:04X}", part.hex().upper()] if copies else [])
        self.sheets.append(" ".join(["sheet", *words]).rstrip())
        self.reports += report(sheet + copies * part)


class Writer:
    """Writes sheets of one arithmetic. Zeros, claims and tolerances are numbers, or patterns as they are."""

    def __init__(self, arith):
        self.arith = arith
        self.name = arith.name

    def sheet(self, highest, *slips):
        return bytes([NUMBER[self.name], highest]) + b"".join(slips)

    def bytes(self, x):
        return bytes.fromhex(x if isinstance(x, str) else self.arith.pattern(Fraction(x)))

    def clear(self):
        return b"\0"

    def add(self, zero):
        return b"\1" + self.bytes(zero)

    def ask(self, k):
        return bytes([2, k])

    def add_ask(self, zero, k):
        return b"\3" + self.bytes(zero) + bytes([k])

    def mark(self, k, claim, tolerance):
        return bytes([14, k]) + self.bytes(claim) + self.bytes(tolerance)

    def add_mark(self, zero, k, claim, tolerance):
        return b"\x0f" + self.bytes(zero) + bytes([k]) + self.bytes(claim) + self.bytes(tolerance)

    def of_map(self, bits):
        """A slip of some map with the zero 2, the order 1, the claim -3 and the tolerance 0.5."""
        fields = {ZERO: self.bytes(2), ORDER: b"\1", CLAIM: self.bytes(-3), TOLERANCE: self.bytes(Fraction(1, 2))}
        return bytes([bits]) + b"".join(field for bit, field in fields.items() if bits & bit)


def out_of_range(w):
    """Sheets whose zeros, additions, closings and verdicts leave the range, and what they show."""
    two = Fraction(2)
    if w.name == "binary64":
        top, half, tiny, small = two**900, two**847, two**-901, two**-899
        near_small = small + two**-951
        faint = [w.add(two**-800), w.add(two**-860)]
        # the sum of the first and the others is the first; its square is in range
        long, short, far = 3 * two**448, two**395, two**600
    else:
        d, ten = w.arith.d, Fraction(10)
        top, half, tiny, small = ten**40, 5 * ten ** (40 - d), ten**-41, ten**-40
        near_small = small + ten ** (-39 - d)
        # the error of the sum is some 10^-d of it, and multiplied by a grain of some 10^(1 - d) it is below low
        first = ten ** (2 * d - 46)
        faint = [w.add(first), w.add(Fraction("1.2345678"[:d + 1]) * first / 10)]
        long, short, far = 15 * ten**18, 4 * ten ** (19 - d), ten**30
    full = [w.add(top), w.add(half)]
    return [
        ("4: a zero below low", w.sheet(2, w.add(tiny), w.add(-tiny), w.ask(0))),
        ("4, and the order of the slip is worked", w.sheet(2, w.add(1), w.add_ask(tiny, 1), w.add_mark(tiny, 1, -1, 0), w.add(3))),
        ("5: at order 1, operation 2", w.sheet(1, w.add(top), w.add(top), w.add(-top), w.ask(1))),
        ("5: at order 2, operation 1, too large, and the order of the slip is worked", w.sheet(2, w.add(top), w.add_ask(2, 1), w.ask(2))),
        ("5: at order 2, operation 1, too small", w.sheet(2, w.add(small), w.add_mark(small, 1, -small, small))),
        ("5: at order 2, operation 5: the sum is 0, its correction is not",
         w.sheet(2, w.add(long), w.add(short), w.add(-long), w.add_ask(far, 2), w.ask(1))),
        ("5: at order 2, operation 8: the sum and its correction are 0",
         w.sheet(2, w.add(long), w.add(short), w.add(-short), w.add(-long), w.add_ask(far, 2), w.ask(1))),
        ("8: at operation 1", w.sheet(1, *full, w.add(half), w.ask(1), w.mark(1, 0, 0), w.ask(0))),
        ("8: at operation 3", w.sheet(1, *faint, w.ask(1), w.mark(1, 0, 0), w.add(0))),
        ("11 comes before 8", w.sheet(1, *faint, w.mark(1, 0, -1))),
        ("12: at operation 1", w.sheet(1, w.add(top), w.mark(1, top, 0))),
        ("12: at operation 2", w.sheet(1, *full, w.mark(1, 0, 0))),
        ("12: at operation 3, too large", w.sheet(1, w.add(top), w.mark(1, 0, 0))),
        ("12: at operation 3, too small", w.sheet(1, w.add(small), w.mark(1, -near_small, 0))),
        ("12: at operation 4", w.sheet(1, *full, w.mark(1, -top, top))),
        ("12: at operation 5, though the claim is right, also at order 0", w.sheet(1, w.add(1), w.mark(1, -1, top), w.mark(0, 1, top))),
        ("a refused marking is withdrawn: a zero is added, and the claim marked", w.sheet(
            2, w.add(1), w.mark(1, -1, top), w.add(2), w.mark(1, -3, -1), w.add_mark(3, 1, -6, -1), w.add_mark(4, 1, -10, 0))),
    ]


def strange_patterns(w):
    """Patterns that are not admitted, by their cause and what they are."""
    if w.name == "binary64":
        return [
            ("1, infinity", "7FF0000000000000"),
            ("1, minus infinity", "FFF0000000000000"),
            ("1, no number", "7FF8000000000001"),
            ("2, above 2^900", "7830000000000001"),
            ("2, below -2^900", "F840000000000000"),
        ]
    d, unit, full = w.arith.d, w.arith.unit, w.arith.full
    more = ("five", "six", "seven", "eight", "nine")[d - 4]
    return [
        ("3, zero with an exponent", written(0, 1)),
        ("3, one digit at exponent 0", written(1, 0)),
        ("3, other last bytes", written(unit, 1 - d, 1)),
        (f"3, exponent {42 - d}", written(unit, 42 - d)),
        ("3, exponent -71", written(unit, -71)),
        (f"3, {more} digits", written(full, 0)),
        ("2, above 10^40", written(unit + 1, 41 - d)),
        ("2, below -10^40", written(-unit - 1, 41 - d)),
    ]


def faults(w, files):
    """Faults 16, 17 and 19 in one arithmetic."""
    start = w.sheet(2, w.add(1))
    for bits in MAPS[1:]:
        slip = w.of_map(bits)
        files.case(f"{w.name}: 19, map {bits} one byte short", start + slip[:-1])
        files.case(f"{w.name}: 19, map {bits} and nothing after it", start + slip[:1])
        files.case(f"{w.name}: map {bits} to its last byte", start + slip)
    for bits in (4, 5, 8, 10, 13, 16, 129, 255):
        files.case(f"{w.name}: 16, map {bits}", start + bytes([bits]) + 25 * w.clear())
    for what, pattern in strange_patterns(w):
        files.case(f"{w.name}: 17, zero: {what}", start + w.add(2) + w.add(pattern) + w.clear())
        files.case(f"{w.name}: 17, claim: {what}", start + w.mark(1, pattern, 0) + w.clear())
        files.case(f"{w.name}: 17, tolerance: {what}", start + w.add(2) + w.mark(1, -3, pattern) + w.clear())
    strange = [pattern for _, pattern in strange_patterns(w)]
    first, last = strange[0], strange[-1]
    files.case(f"{w.name}: a tolerance that is not admitted: the zero of its slip is not added", start + w.add_mark(2, 1, -3, first))
    files.case(f"{w.name}: the zero comes first", start + w.add_mark(last, 1, first, first))
    files.case(f"{w.name}: the claim comes before the tolerance", start + w.add_mark(2, 1, last, first))
    files.case(f"{w.name}: 19 comes before 17", start + w.add_mark(first, 1, 0, 0)[:-1])
    files.case(f"{w.name}: patterns are admitted though the order would be refused", start + w.mark(65, first, 0))


def lines_of_slips(w, files):
    """What slips tell in one arithmetic."""
    for bits in MAPS:
        slip = w.of_map(bits)
        files.case(f"{w.name}: map {bits}, on a new bench and after a zero", w.sheet(2, slip, w.clear(), w.add(1), slip))
    files.case(f"{w.name}: the zeros 1, 2, 3, a coefficient and a claim",
               w.sheet(3, w.add(1), w.add(2), w.add_ask(3, 2), w.mark(1, -6, Fraction(1, 2))))
    claims = [w.mark(1, claim, Fraction(1, 2)) for claim in (-6, -5, Fraction(-13, 2))]
    files.case(f"{w.name}: right, wrong and open", w.sheet(3, w.add(1), w.add(2), w.add(3), *claims))
    files.case(f"{w.name}: order 0 of no zeros", w.sheet(1, w.ask(0), w.mark(0, 1, 0), w.mark(0, 2, 0)))
    files.case(f"{w.name}: clearing, and numbers from 1 again",
               w.sheet(2, w.add(1), w.add(2), w.clear(), w.ask(0), w.ask(1), w.add_ask(5, 1)))
    files.case(f"{w.name}: zeros of 0, as value and tolerance too", w.sheet(3, w.add(0), w.add_ask(0, 1), w.mark(1, 0, 0), w.add_ask(3, 3)))
    files.case(f"{w.name}: K = 1, more zeros than orders", w.sheet(1, w.add(1), w.add(2), w.add_ask(3, 1), w.ask(2)))
    files.case(f"{w.name}: 3: one zero more than 64; the order of the slip is worked", w.sheet(1), 65, w.add_ask(0, 1))
    files.case(f"{w.name}: 64 zeros, and orders above 63", w.sheet(64, 63 * w.add(1), w.ask(64), w.add_ask(1, 64), w.ask(32), w.ask(65)))
    files.case(f"{w.name}: 6 and 7, of asking", w.sheet(3, w.add(1), w.add(2), w.ask(3), w.ask(4), w.ask(255), w.add_ask(3, 3)))
    files.case(f"{w.name}: 6 and 7, of issuing; claim and tolerance are looked at no further",
               w.sheet(3, w.add(1), w.mark(2, 0, -1), w.mark(4, 0, -1), w.add_mark(2, 200, 0, -1), w.add(3)))
    files.case(f"{w.name}: 11, a tolerance below 0", w.sheet(3, w.add_mark(1, 1, -1, -1), w.add_mark(2, 1, -3, -1), w.ask(2)))
    files.case(f"{w.name}: a fault after some slips", w.sheet(3, w.add(1), w.ask(1), w.clear(), w.add(2), w.ask(1)) + b"\7\0\0")
    for what, sheet in out_of_range(w):
        files.case(f"{w.name}: {what}", sheet)


def openings(files):
    """Sheets by their headers and their lengths."""
    files.case("13: no bytes", b"")
    files.case("13: one byte", b"\1")
    files.case("13: one byte, which names no arithmetic", b"\3")
    files.case("13: 32,769 bytes", b"\1\3", LONGEST - 1, b"\0")
    files.case("13: 32,769 bytes, which name no arithmetic", b"\0\0", LONGEST - 1, b"\0")
    for first in (0, 3, 8, 9, 255):
        files.case(f"14: first byte {first}", bytes([first, 3]))
        files.case(f"14 comes before 15: first byte {first}, K 0", bytes([first, 0, 0]))
    for format in ARITHMETIC:
        for highest in (0, 65, 255):
            files.case(f"15: arithmetic {format}, K {highest}", bytes([format, highest]))
        for highest in (1, 64):
            files.case(f"arithmetic {format}, K {highest}, no slips", bytes([format, highest]))


def long_sheets(w, files):
    """Sheets of 32,768 bytes: mostly 1,260 slips of 26 bytes."""
    slip = w.add_mark(0, 1, 0, 0)
    files.case(f"{w.name}: 32,768 bytes", w.sheet(1, *[w.clear()] * 6), 1260, slip)
    files.case(f"{w.name}: 32,768 bytes, the last of them a map with nothing after it",
               w.sheet(1, *[w.clear()] * 5, slip[:1]), 1260, slip[1:] + slip[:1])
    files.case(f"{w.name}: 32,768 bytes, the first map refused", w.sheet(1), LONGEST - 2, b"\xff")


def minus_zero(files):
    """Minus zero, which binary64 admits as zero and decimal does not have."""
    w = Writer(ARITHMETIC[1])
    zero = "8000000000000000"
    files.case("binary64: minus zero as a zero, a claim and a tolerance",
               w.sheet(2, w.add_ask(zero, 1), w.mark(1, zero, zero), w.add_mark(1, 1, -1, zero), w.mark(1, zero, 2), w.ask(2)))
    files.case("binary64: the smallest number below zero is no tolerance", w.sheet(2, w.add_mark(zero, 1, zero, "8000000000000001")))
    files.case("decimal8: a sign without digits is in no form", bytes.fromhex("020201" + zero))


def four_digits(files):
    """The sheet in four digits that docs/SHEET.md tells byte by byte; and its slips under other first bytes."""
    w = Writer(ARITHMETIC[4])
    one, two, three, claim = (Fraction(size) for size in ("1.234", "5.678", "9.012", "-15.92"))
    sheet = w.sheet(3, w.add(one), w.add(two), w.add_ask(three, 1), w.mark(1, claim, Fraction(1, 100)))
    files.case("decimal4: the zeros 1.234, 5.678 and 9.012, whose sum four digits do not hold", sheet)
    files.case("14: the same with the first byte 8", b"\x08" + sheet[1:])
    files.case("decimal5: the same with the first byte 5: 17, since four digits are not the one form of a number of five", b"\x05" + sheet[1:])


def last_maps(files):
    """Each byte as a map with nothing after it."""
    for bits in range(256):
        files.case(f"map {bits} as the last byte", bytes([1, 3, bits]))


class SheetDealer(Dealer):
    """Deals sheets of one arithmetic, with the numbers, claims and orders of the cards."""

    def __init__(self, arith, seed):
        super().__init__(arith, seed)
        self.writer = Writer(arith)

    def slip(self, bench):
        """A slip for a bench, to which its zero is added; mostly its zero and its order are accepted."""
        deal, w = self.dealt, self.writer
        bits = deal.choices(MAPS, [1, 8, 4, 6, 4, 4])[0]
        slip = bytes([bits])
        if bits & ZERO:
            zero = self.pattern(self.number(-2, 3) if deal.random() < 0.97 else self.number(-self.reach - 2, self.reach))
            added_line(bench, zero)
            slip += w.bytes(zero)
        if bits & ORDER:
            k = self.order(bench)
            slip += bytes([k])
        if bits & CLAIM:
            try:
                value, bound = bench.ask(k)
            except Refused:
                value, bound = self.number(-1, 1), Fraction(0)
            slip += b"".join(w.bytes(self.pattern(x)) for x in self.claim(value, bound))
        return slip

    def sheet(self):
        deal = self.dealt
        highest = deal.choice([deal.randint(1, 64), deal.randint(1, 6)])
        sheet = self.writer.sheet(highest)
        bench = Bench(self.arith, highest)
        for _ in range(deal.choice([deal.randint(1, 8), deal.randint(5, 25), deal.randint(40, 110)])):
            slip = self.slip(bench)
            bench = Bench(self.arith, highest) if slip == b"\0" else bench
            sheet += slip
        return sheet

    def damaged(self, sheet):
        """Mostly the sheet as it is; else with another byte somewhere, or cut short; and what was done."""
        deal = self.dealt
        share = deal.random()
        if share < 0.15:
            place = deal.randrange(len(sheet))
            return "a damaged byte", sheet[:place] + bytes([deal.randrange(256)]) + sheet[place + 1:]
        if share < 0.25:
            return "cut short", sheet[:deal.randrange(len(sheet))]
        return "whole", sheet

    def deal_sheets(self, files, count):
        files.comment(heading(self.arith, f"sheets in {self.arith.name} by tools/sheets.py", self.seed))
        for i in range(count):
            what, sheet = self.damaged(self.sheet())
            files.case(f"{self.arith.name} {i + 1}, {what}", sheet)


def main():
    files = Files()
    files.comment("# sheets by hand, by tools/sheets.py")
    files.comment("# 2, 9 and 10 cannot occur on a sheet: a slip issues one question at most, which is marked or withdrawn on the same")
    files.comment("# bench before the next slip; so none is out where a zero is added, the bench is cleared or a question is issued")
    openings(files)
    for arith in ARITHMETIC.values():
        w = Writer(arith)
        lines_of_slips(w, files)
        faults(w, files)
    minus_zero(files)
    four_digits(files)
    last_maps(files)
    for number in (1, 2, 4):  # binary64, and decimal with most and with fewest digits
        long_sheets(Writer(ARITHMETIC[number]), files)
    for arith in ARITHMETIC.values():
        seed, count = DEALT[arith.name]
        SheetDealer(arith, seed).deal_sheets(files, count)
    for path, lines in zip(sys.argv[1:3], (files.sheets, files.reports), strict=True):
        with open(path, "w", encoding="ascii") as file:
            file.write("\n".join(lines) + "\n")


if __name__ == "__main__":
    main()
