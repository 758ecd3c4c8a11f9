"""Settlement, reckoned trade by trade."""

from reckoning import Fork, Join, Lock, Unlock, cells, publish, rows, zeros

cash = cells("cash.csv", 8)
bonds = cells("bonds.csv", 8)
limits = rows("limits.csv")
totals = {"settled": zeros(1), "rejected": zeros(1), "turnover": zeros(1)}
printed = []


def reason(buyer, seller, units, amount):
    """Why the trade is rejected; 0 where it settles."""
    short = bonds[seller] < units
    past = cash[buyer] - amount < -limits[buyer][0]
    return 2 * short + 3 * past


def settle(buyer, seller, units, amount):
    cash[buyer] -= amount
    cash[seller] += amount
    bonds[buyer] += units
    bonds[seller] -= units


def settler(first):
    mine = dict.fromkeys(totals, 0)
    for i, (buyer, seller, units, price) in list(enumerate(rows("trades.csv")))[first::4]:
        if buyer == seller:
            printed.append((i, 1))
            mine["rejected"] += 1
            continue
        yield Lock("member", min(buyer, seller))
        yield Lock("member", max(buyer, seller))
        cash.names(buyer, seller)
        bonds.names(buyer, seller)
        why = reason(buyer, seller, units, units * price)
        if why == 0:
            settle(buyer, seller, units, units * price)
            mine["settled"] += 1
            mine["turnover"] += units * price
        else:
            printed.append((i, why))
            mine["rejected"] += 1
        yield Unlock("member", max(buyer, seller))
        yield Unlock("member", min(buyer, seller))
    yield Lock("board")
    for name, number in mine.items():
        totals[name][0] += number
    yield Unlock("board")


def main():
    for first in range(4):
        yield Fork(settler, (first,))
    for thread in range(1, 5):
        yield Join(thread)


publish(main, printed, {"cash": cash, "bonds": bonds, **totals}, "faults.csv")
