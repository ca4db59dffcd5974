"""The lines of operation vectors, for any of the arithmetics. Operands are patterns of 16 hexadecimal digits.

    sum A B = R E        the rounded sum and its error part, the answers of the rounded sum (R) and of the sum split (both)
    product A B = R E    the same of the product
    lift A m = R         A lifted by m
    admit A = N          the pattern of the number that A is admitted as
    at-most A B = yes    whether A is at most B, yes or no

A refused operation has '-' in place of its results, a pattern that is not admitted '!' and the number of the cause.
"""

import sys


def number(arith, pattern):
    a, cause = arith.admission(pattern)
    assert cause == 0, pattern
    return a


def split_line(arith, word, split, a, b):
    parts = split(number(arith, a), number(arith, b))
    answer = "-" if parts is None else " ".join(arith.pattern(part) for part in parts)
    return f"{word} {a} {b} = {answer}"


def sum_line(arith, a, b):
    return split_line(arith, "sum", arith.split_sum, a, b)


def product_line(arith, a, b):
    return split_line(arith, "product", arith.split_product, a, b)


def lift_line(arith, a, m):
    lifted = arith.lift(number(arith, a), m)
    return f"lift {a} {m} = {'-' if lifted is None else arith.pattern(lifted)}"


def admit_line(arith, a):
    admitted, cause = arith.admission(a)
    return f"admit {a} = {arith.pattern(admitted) if cause == 0 else '!' + str(cause)}"


def at_most_line(arith, a, b):
    return f"at-most {a} {b} = {'yes' if number(arith, a) <= number(arith, b) else 'no'}"


def lines(arith, line, cases):
    """A line for each case, each case once."""
    return [line(arith, *case) for case in dict.fromkeys(cases)]


def write(text):
    """To the path that is given, or to standard output."""
    if len(sys.argv) > 1:
        with open(sys.argv[1], "w", encoding="ascii") as file:
            file.write(text)
    else:
        sys.stdout.write(text)
