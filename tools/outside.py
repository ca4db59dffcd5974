"""The arithmetics over outside libraries: binary64 over GNU MPFR, decimal with four to eight digits over libmpdec (Python's decimal).

Values are exact fractions. The library rounds; the limits, the refusals and the error parts are worked here on the fractions, straight
from their definitions. A refused operation gives None.
"""

import ctypes
import decimal
import sys
from fractions import Fraction


class Arithmetic:
    """What all arithmetics have: everything but the rounding and the patterns."""

    def sum(self, a, b):
        r = self.rounded_sum(a, b)
        return r if r is not None and abs(r) <= self.high else None

    def product(self, a, b):
        if a * b == 0:
            return Fraction(0)
        return self.within(self.rounded_product(a, b))

    def lift(self, a, m):
        if a == 0:
            return Fraction(0)
        return self.within(self.rounded_lift(a, m))

    def split_sum(self, a, b):
        r = self.sum(a, b)
        return None if r is None else (r, a + b - r)

    def split_product(self, a, b):
        r = self.product(a, b)
        return None if r is None else (r, a * b - r)

    def grain(self, m):
        return Fraction(m, self.U)

    def within(self, r):
        return r if r is not None and self.low <= abs(r) <= self.high else None

    def in_limits(self, a):
        return a == 0 or self.low <= abs(a) <= self.high


class MpfrStruct(ctypes.Structure):
    _fields_ = [
        ("precision", ctypes.c_long),
        ("sign", ctypes.c_int),
        ("exponent", ctypes.c_long),
        ("limbs", ctypes.c_void_p),
    ]


NEAREST = 0  # MPFR_RNDN: to nearest, ties to even


def open_mpfr():
    library = ctypes.CDLL("libmpfr.so.6")
    number = ctypes.POINTER(MpfrStruct)
    library.mpfr_get_version.restype = ctypes.c_char_p
    library.mpfr_init2.argtypes = [number, ctypes.c_long]
    library.mpfr_set_emin.argtypes = [ctypes.c_long]
    library.mpfr_set_emax.argtypes = [ctypes.c_long]
    for name in ("add", "mul", "div"):
        getattr(library, "mpfr_" + name).argtypes = [number, number, number, ctypes.c_int]
    library.mpfr_subnormalize.argtypes = [number, ctypes.c_int, ctypes.c_int]
    library.mpfr_number_p.argtypes = [number]
    library.mpfr_zero_p.argtypes = [number]
    library.mpfr_strtofr.argtypes = [number, ctypes.c_char_p, ctypes.c_void_p, ctypes.c_int, ctypes.c_int]
    library.mpfr_get_str.argtypes = [
        ctypes.c_char_p, ctypes.POINTER(ctypes.c_long), ctypes.c_int, ctypes.c_size_t, number, ctypes.c_int]
    library.mpfr_get_str.restype = ctypes.c_char_p
    return library


class Binary64(Arithmetic):
    """IEEE 754 binary64 by MPFR: 53 bits, the exponents of the format, subnormal results by mpfr_subnormalize."""

    name = "binary64"
    Q = 2**1074
    U = 2**53
    low = Fraction(1, 2**900)
    high = Fraction(2**900)

    def __init__(self):
        self.mpfr = open_mpfr()
        self.library = "GNU MPFR " + self.mpfr.mpfr_get_version().decode()
        # a number of MPFR is from 1/2 to 1 times 2^exponent
        assert self.mpfr.mpfr_set_emin(-1073) == 0
        assert self.mpfr.mpfr_set_emax(1024) == 0
        self.x, self.y, self.z = self.fresh(), self.fresh(), self.fresh()
        self.digits = ctypes.create_string_buffer(64)

    def fresh(self):
        number = MpfrStruct()
        self.mpfr.mpfr_init2(number, 53)
        return number

    def put(self, number, a):
        """Writes the fraction a, which must be a number of the format, into a number of MPFR."""
        scale = a.denominator.bit_length() - 1
        assert a.denominator == 1 << scale
        text = f"{a.numerator:#x}p-{scale}".encode()
        assert self.mpfr.mpfr_strtofr(number, text, None, 0, NEAREST) == 0

    def taken(self, number):
        """The fraction that a number of MPFR stands for; None for an infinity."""
        if not self.mpfr.mpfr_number_p(number):
            return None
        if self.mpfr.mpfr_zero_p(number):
            return Fraction(0)
        exponent = ctypes.c_long()
        text = self.mpfr.mpfr_get_str(self.digits, ctypes.byref(exponent), 2, 0, number, NEAREST)
        bits = len(text.lstrip(b"-"))
        scale = exponent.value - bits
        return Fraction(int(text, 2)) * (Fraction(2) ** scale)

    def worked(self, operation, a, b):
        self.put(self.x, a)
        self.put(self.y, b)
        ternary = operation(self.z, self.x, self.y, NEAREST)
        self.mpfr.mpfr_subnormalize(self.z, ternary, NEAREST)
        return self.taken(self.z)

    def rounded_sum(self, a, b):
        return self.worked(self.mpfr.mpfr_add, a, b)

    def rounded_product(self, a, b):
        return self.worked(self.mpfr.mpfr_mul, a, b)

    def rounded_lift(self, a, m):
        # the divisor has 53 bits, so that the quotient is rounded once
        return self.worked(self.mpfr.mpfr_div, a, 1 - Fraction(m, self.U))

    def pattern(self, a):
        """The 64 bits of a number as 16 hexadecimal digits; zero as zeros."""
        units = abs(a) * self.Q
        assert units.denominator == 1
        units = units.numerator
        shift = max(units.bit_length() - 53, 0)
        significand = units >> shift
        assert significand << shift == units
        bits = significand if units < 2**52 else ((shift + 1) << 52) | (significand - 2**52)
        return f"{bits | (2**63 if a < 0 else 0):016X}"

    def value(self, pattern):
        """The number that 64 bits stand for, whatever its size; None for an infinity or a NaN."""
        bits = int(pattern, 16)
        exponent, fraction = bits >> 52 & 0x7FF, bits & (2**52 - 1)
        if exponent == 0x7FF:
            return None
        units = fraction if exponent == 0 else (2**52 + fraction) << (exponent - 1)
        return Fraction(-units if bits >> 63 else units, self.Q)

    def admission(self, pattern):
        """The number, or the cause why there is none."""
        a = self.value(pattern)
        if a is None:
            return None, 1
        if abs(a) > self.high:
            return None, 2
        return a, 0


class Decimal(Arithmetic):
    """Decimal with d digits by libmpdec: results below 10^(d - 71) are rounded to a multiple of 10^-70."""

    Q = 10**70
    low = Fraction(1, 10**40)
    high = Fraction(10**40)

    def __init__(self, d):
        self.d = d
        self.name = f"decimal{d}"
        self.unit, self.full = 10 ** (d - 1), 10**d  # M of d digits is from unit to full - 1
        self.U = 2 * self.unit
        self.library = "libmpdec " + decimal.__libmpdec_version__
        self.context = decimal.Context(
            prec=d, rounding=decimal.ROUND_HALF_EVEN, Emin=d - 71, Emax=999999, clamp=0, traps=[])
        assert self.context.Etiny() == -70

    def made(self, a):
        """The exact decimal of a multiple of 10^-70."""
        units = a * self.Q
        assert units.denominator == 1
        sign, digits, _ = decimal.Decimal(units.numerator).as_tuple()
        return decimal.Decimal((sign, digits, -70))

    def rounded_sum(self, a, b):
        return Fraction(self.context.add(self.made(a), self.made(b)))

    def rounded_product(self, a, b):
        return Fraction(self.context.multiply(self.made(a), self.made(b)))

    def rounded_lift(self, a, m):
        # a U is exact, so that the quotient is rounded once
        return Fraction(self.context.divide(self.made(a * self.U), decimal.Decimal(self.U - m)))

    def form(self, a):
        """M and e of a number."""
        units = a * self.Q
        assert units.denominator == 1
        size, exponent = abs(units.numerator), -70
        while size >= self.full:
            size, rest = divmod(size, 10)
            assert rest == 0
            exponent += 1
        return (0, 0) if a == 0 else (-size if a < 0 else size, exponent)

    def pattern(self, a):
        return written(*self.form(a))

    def admission(self, pattern):
        """The number, or the cause why there is none."""
        data = bytes.fromhex(pattern)
        significand = int.from_bytes(data[0:4], "big", signed=True)
        exponent = int.from_bytes(data[4:6], "big", signed=True)
        digits = len(str(abs(significand))) if significand else 0
        one_form = (
            (digits == 0 and exponent == 0)
            or (digits == self.d and -70 <= exponent <= 41 - self.d)
            or (1 <= digits < self.d and exponent == -70))
        if not one_form or data[6:8] != b"\0\0":
            return None, 3
        a = significand * Fraction(10) ** exponent
        return (None, 2) if abs(a) > self.high else (a, 0)


def written(significand, exponent, tail=0):
    """A decimal pattern: M in four bytes, e in two, and two bytes more."""
    data = significand.to_bytes(4, "big", signed=True) + exponent.to_bytes(2, "big", signed=True) + tail.to_bytes(2, "big")
    return data.hex().upper()


def heading(arith, what, seed):
    return f"# {what}: {arith.library}, Python {sys.version.split()[0]}, seed {seed}"
