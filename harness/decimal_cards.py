"""Works the cards that the harness prints by Python's decimal module, and by libmpdec from C: the same nine operations in two passes and
the six of each closing, without the range tests of an addition and with them. Compares every value and bound with the proved library's,
and prints the microseconds of each card, the shortest of some repetitions: by Python without the tests and with them, and by libmpdec
so (`nan` where its functions cannot be found, in the module as Python has it)."""

import ctypes
import os
import subprocess
import sys
import time

import _decimal
from decimal import MAX_EMAX, MIN_EMIN, ROUND_HALF_EVEN, Context, Decimal

EIGHT = Context(prec=8, rounding=ROUND_HALF_EVEN, Emin=-999999, Emax=999999)
WIDE = Context(prec=150, rounding=ROUND_HALF_EVEN, Emin=MIN_EMIN, Emax=MAX_EMAX)
ZERO, ONE = Decimal(0), Decimal(1)
U = Decimal(5).scaleb(-8)
LOW, HIGH = Decimal("1E-40"), Decimal("1E+40")


class Refused(Exception):
    pass


def at_most_high(r):
    if abs(r) > HIGH:
        raise Refused
    return r


def in_range(r, a, b):
    if not LOW <= abs(r) <= HIGH and a and b:
        raise Refused
    return r


def update(x, size_of_x, old, below):
    s, c, e = old
    s0, c0, e0 = below
    add, multiply = EIGHT.add, EIGHT.multiply
    p = multiply(x, s0)
    beta = WIDE.fma(x, s0, -p)
    new = add(s, p)
    sigma = WIDE.subtract(WIDE.add(s, p), new)
    w = add(beta, sigma)
    c = add(add(c, w), multiply(x, c0))
    e = add(add(e, abs(w)), multiply(size_of_x, e0))
    return new, c, e


def update_tested(x, size_of_x, old, below):
    s, c, e = old
    s0, c0, e0 = below
    add, multiply = EIGHT.add, EIGHT.multiply
    p = in_range(multiply(x, s0), x, s0)
    beta = WIDE.fma(x, s0, -p)
    new = at_most_high(add(s, p))
    sigma = WIDE.subtract(WIDE.add(s, p), new)
    w = at_most_high(add(beta, sigma))
    g = at_most_high(add(c, w))
    h = in_range(multiply(x, c0), x, c0)
    c = at_most_high(add(g, h))
    f = at_most_high(add(e, abs(w)))
    t = in_range(multiply(size_of_x, e0), x, e0)
    e = at_most_high(add(f, t))
    return new, c, e


def lift(a, m):
    return EIGHT.divide(a, WIDE.subtract(ONE, m * U))


def close(cell, n, k):
    if k == 0:
        return ONE, ZERO
    s, c, e = cell
    v = EIGHT.add(s, c)
    c = WIDE.subtract(WIDE.add(s, c), v)
    m = 2 * (n - 1)
    a = lift(EIGHT.multiply(lift(m * U, m), e), 3 * n)
    return -v if k % 2 else v, lift(EIGHT.add(abs(c), a), 2)


def card(zeros, update):
    n = len(zeros)
    row = [(ONE, ZERO, ZERO)] + [(ZERO, ZERO, ZERO)] * n
    for i, x in enumerate(zeros, 1):
        size_of_x = abs(x)
        for j in range(i, 0, -1):
            update(x, size_of_x, row[j], row[j - 1])
        for j in range(i, 0, -1):
            row[j] = update(x, size_of_x, row[j], row[j - 1])
    return [number for k in range(n + 1) for number in close(row[k], n, k)]


def python_card(zeros, expected, update):
    if card(zeros, update) != expected:
        sys.exit(f"a card of {len(zeros)} zeros differs")
    return lambda: card(zeros, update)


# ---- libmpdec from C

HERE = os.path.dirname(os.path.abspath(__file__))
NAMES = """qadd qsub qmul qdiv qfma qcopy qcopy_abs qcopy_negate qcmp iszero qset_ssize qset_string to_sci qnew""".split()


def functions():
    """The functions of libmpdec that c/libmpdec.c calls, in its order, where Python's module lies in memory; None where there are none."""
    named = subprocess.run(["nm", _decimal.__file__], capture_output=True, text=True).stdout
    places = {words[2]: int(words[0], 16) for words in map(str.split, named.splitlines()) if len(words) == 3}
    with open("/proc/self/maps", encoding="utf-8") as maps:
        start = next((int(line.split("-")[0], 16) for line in maps if line.rstrip().endswith(_decimal.__file__)), None)
    if start is None or not all("mpd_" + name in places for name in NAMES):
        return None
    return (ctypes.c_void_p * len(NAMES))(*[start + places["mpd_" + name] for name in NAMES])


def libmpdec_card(zeros, expected, tested):
    """A card so many times by libmpdec from C."""
    found = functions()
    if found is None:
        return None
    cards = ctypes.CDLL(os.path.join(HERE, "target", "c", "libmpdec_cards.so")).mpd_cards
    n = len(zeros)
    texts = (ctypes.c_char_p * n)(*[str(zero).encode() for zero in zeros])
    answers = (ctypes.c_char_p * (2 * n + 2))()

    def work(times):
        if cards(found, texts, ctypes.c_size_t(n), tested, ctypes.c_size_t(times), answers) != 0:
            sys.exit(f"a card of {n} zeros is refused")

    work(1)
    if [Decimal(text.decode()) for text in answers[2:]] != expected[2:]:
        sys.exit(f"a card of {n} zeros by libmpdec differs")
    return work


# ---- times

def shortest(zeros, work, times=None):
    """The microseconds of a card, the shortest of some repetitions; each so many times where the work takes that."""
    best = float("inf")
    for _ in range(max(100, 40000 // len(zeros) ** 2)):
        start = time.perf_counter()
        work(times) if times else work()
        best = min(best, (time.perf_counter() - start) / (times or 1))
    return best * 1e6


def main():
    lines = sys.stdin.read().split("\n")
    for zeros, expected in zip(lines[0::2], lines[1::2]):
        zeros = [Decimal(word) for word in zeros.split()]
        expected = [Decimal(word) for word in expected.split()]
        by_python = [shortest(zeros, python_card(zeros, expected, way)) for way in (update, update_tested)]
        in_c = [libmpdec_card(zeros, expected, tested) for tested in (0, 1)]
        by_libmpdec = [shortest(zeros, work, 10) if work else float("nan") for work in in_c]
        print(*[f"{time:.2f}" for time in by_python + by_libmpdec])


main()
