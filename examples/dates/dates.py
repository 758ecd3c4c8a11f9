"""Days between dates and their weekdays, by Python's calendar. Day 307 is the first of January of the year 1."""

from datetime import date

from reckoning import publish, rows

printed = []


def day_of(number):
    """The day of a date of the form 20261201, or None where the calendar has no such day."""
    try:
        return date(number // 10000, number // 100 % 100, number % 100)
    except ValueError:
        return None


def main():
    before = 0
    for i, (number,) in enumerate(rows("dates.csv")):
        day = day_of(number)
        if day is None:
            printed.append((i,))
            continue
        n = day.toordinal() + 306
        printed.append((i, n, day.weekday(), n - before, number))
        before = n
    yield from ()


publish(main, printed, {})
