"""Billing, reckoned row by row."""

from reckoning import Fork, Join, Lock, Unlock, cells, publish, rows

usage = rows("usage.csv")
tariffs = rows("tariffs.csv")
bill = cells("open.csv", 6)
printed = []


def charge(first):
    charged = 0
    for who, tariff, units in usage[first::4]:
        price, allowance = tariffs[tariff]
        due = (units + max(units - allowance, 0)) * price
        yield Lock("desk", who)
        bill[who] += due
        yield Unlock("desk", who)
        charged += due
    return charged


def main():
    for first in range(4):
        yield Fork(charge, (first,))
    total = 0
    for thread in range(1, 5):
        total += yield Join(thread)
    printed.append((total,))


publish(main, printed, {"bill": bill}, "faults.csv")
