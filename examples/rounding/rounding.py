"""Amounts rounded by Python's fractions."""

from fractions import Fraction
from math import floor

from reckoning import publish, rows

printed = []
half = Fraction(1, 2)


def main():
    for a, d in rows("shares.csv"):
        share = Fraction(a, d)
        away = floor(abs(share) + half) * (1 if a >= 0 else -1)
        printed.append((a, d, away, floor(share + half), round(share)))
    yield from ()


publish(main, printed, {})
