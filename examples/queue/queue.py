"""The queue, reckoned customer by customer: each is served when he has come and the desk is free."""

from reckoning import Barrier, Fork, Join, Lock, Unlock, publish, quotient, remainder, rows, wrap, zeros

days = rows("days.csv")
served, waited, longest = zeros(1), zeros(1), zeros(1)
printed = []


def draws(number):
    """Numbers from 0 to 32767, drawn from a seed."""
    while True:
        number = wrap(number * 6364136223846793005 + 1442695040888963407)
        yield remainder(remainder(quotient(number, 2**32), 2**15) + 2**15, 2**15)


def waits_of(seed, gap, service, customers):
    """What each customer waits, and when the last one leaves."""
    drawn = draws(seed)
    clock = free = 0
    waits = []
    for _ in range(customers):
        clock += next(drawn) * 2 * gap // 2**15
        begins = max(clock, free)
        waits.append(begins - clock)
        free = begins + next(drawn) * 2 * service // 2**15
    return waits, free


def day(d, customers):
    yield Barrier("open", 8)
    waits, free = waits_of(*days[d], customers)
    printed.append((d, sum(wait > 0 for wait in waits), sum(waits), max(waits), free))
    yield Lock("book")
    served[0] += customers
    waited[0] += sum(wait > 0 for wait in waits)
    longest[0] = max(longest[0], *waits)
    yield Unlock("book")


def main():
    for w in range(8):
        yield Fork(day, (w, 20000))
    for thread in range(1, 9):
        yield Join(thread)


publish(main, printed, {"served": served, "waited": waited, "longest": longest}, "faults.csv")
