"""A few printed numbers."""

from reckoning import publish

printed = []


def main():
    printed.extend([(7,), (42,), (2**63 - 1,)])
    yield from ()


publish(main, printed, {})
