"""Numbers above 0, counted draw by draw."""

from reckoning import Barrier, Fork, Join, publish, wrap

printed = []


def draws(seed):
    yield Barrier("start", 8)
    number, above = seed, 0
    for _ in range(500000):
        number = wrap(number * 6364136223846793005 + 1442695040888963407)
        above += number > 0
    return above


def main():
    for seed in range(1, 9):
        yield Fork(draws, (seed,))
    total = 0
    for thread in range(1, 9):
        part = yield Join(thread)
        printed.append((part,))
        total += part
    printed.append((total,))


publish(main, printed, {})
