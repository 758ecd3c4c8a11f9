"""Settling, reckoned payment by payment."""

from reckoning import Fork, Join, Lock, Settle, Unlock, cells, publish, rows

payments = rows("payments.csv")
route = cells("routes.csv", 3)
accounts = cells("accounts.csv", 4)
printed = []


def pay(first):
    for who, amount in payments[first::2]:
        yield Lock("desk", who)
        target = route[who]
        yield Unlock("desk", who)
        yield Settle()
        yield Lock("bank", target)
        accounts[target] += amount
        yield Unlock("bank", target)


def main():
    yield Fork(pay, (0,))
    yield Fork(pay, (1,))
    yield Join(1)
    yield Join(2)
    yield Lock("bank", 3)
    collected = accounts[3]
    yield Unlock("bank", 3)
    yield Settle()
    if collected >= 1000:
        yield Lock("bank", 0)
        accounts[0] = collected // 10
        yield Unlock("bank", 0)
        printed.append((collected, collected // 10))
    else:
        printed.append((collected,))


publish(main, printed, {"route": route, "acct": accounts}, "faults.csv")
