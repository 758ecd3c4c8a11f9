"""Interest and fees, reckoned account by account."""

from reckoning import Barrier, Fork, Join, Lock, Unlock, publish, quotient, rows, zeros

accounts = rows("acct.csv")
kinds = [kind for (kind,) in rows("kind.csv")]
terms = rows("terms.csv")
totals = {"paid": zeros(1), "earned": zeros(1), "fees": zeros(1)}
printed = []


def month_of(balance, kind):
    """The interest and the fee of an account."""
    credit, debit, fee, waived = terms[kind]
    interest = quotient(balance * (debit if balance < 0 else credit), 120000)
    return interest, 0 if balance > waived else fee


def month(first, end):
    yield Barrier("start", 4)
    mine = dict.fromkeys(totals, 0)
    total = 0
    for number, balance in accounts[first:end]:
        interest, fee = month_of(balance, kinds[number])
        mine["paid"] += max(interest, 0)
        mine["earned"] += max(-interest, 0)
        mine["fees"] += fee
        printed.append((number, balance + interest - fee))
        total += balance + interest - fee
    yield Lock("books")
    for name, number in mine.items():
        totals[name][0] += number
    yield Unlock("books")
    return total


def main():
    count = len(accounts)
    for w in range(4):
        yield Fork(month, (count * w // 4, count * (w + 1) // 4))
    total = 0
    for thread in range(1, 5):
        total += yield Join(thread)
    printed.append((total,))


publish(main, printed, totals, "faults.csv")
