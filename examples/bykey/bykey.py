"""Moves by account, reckoned row by row; no line of an account comes before one of an earlier row of it."""

from reckoning import Barrier, Fork, Join, Lock, Unlock, cells, publish, rows

moves = rows("moves.csv")
acct = cells("acct.csv", 9)
printed = []


def post(mine):
    yield Barrier("start", 4)
    for i, (who, amount) in enumerate(moves):
        if who % 4 != mine:
            continue
        if 0 <= who < 9:
            yield Lock("bank", who)
            good = acct[who] + amount >= 0
            if good:
                acct[who] += amount
            printed.append((i, who, amount, int(good)))
            yield Unlock("bank", who)
        else:
            printed.append((i, who))


def main():
    for t in range(4):
        yield Fork(post, (t,))
    for t in range(1, 5):
        yield Join(t)


publish(main, printed, {"acct": acct}, "faults.csv")
last = {}
for i, who, *_ in printed:
    assert last.get(who, -1) < i, f"row {last[who]} of account {who} comes before row {i}"
    last[who] = i
