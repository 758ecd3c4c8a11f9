"""Two additions under one lock."""

from reckoning import Fork, Join, Lock, Unlock, publish, zeros

total = zeros(1)


def add(number):
    yield Lock("tally")
    total[0] += number
    yield Unlock("tally")


def main():
    yield Fork(add, (3,))
    yield Fork(add, (4,))
    yield Join(1)
    yield Join(2)


publish(main, [], {"total": total})
