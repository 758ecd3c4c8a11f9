"""Compound interest, reckoned year by year."""

from reckoning import publish

printed = []


def main():
    balance = 100000
    for _ in range(3):
        interest = balance * 35 // 1000
        balance += interest
        printed.append((balance, interest))
    yield from ()


publish(main, printed, {})
