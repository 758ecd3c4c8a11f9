"""Transfers, reckoned move by move."""

from reckoning import Fork, Join, Lock, Unlock, cells, publish, rows

moves = rows("moves.csv")
accounts = cells("acct.csv", 100)
printed = []


def mover(first):
    refused = 0
    for source, target, amount in moves[first::8]:
        if source == target:
            continue
        yield Lock("bank", min(source, target))
        yield Lock("bank", max(source, target))
        accounts.names(source, target)
        if min(accounts[source] - amount, accounts[target] + amount) >= 0:
            accounts[source] -= amount
            accounts[target] += amount
        else:
            refused += 1
        yield Unlock("bank", max(source, target))
        yield Unlock("bank", min(source, target))
    return refused


def main():
    for first in range(8):
        yield Fork(mover, (first,))
    refused = 0
    for thread in range(1, 9):
        refused += yield Join(thread)
    printed.append((refused,))


publish(main, printed, {"acct": accounts})
