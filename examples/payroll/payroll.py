"""Payroll, reckoned payslip by payslip: here the tax goes through the slices of the year's gross between the brackets."""

from reckoning import Fork, Join, Lock, Unlock, cells, publish, quotient, rows, zeros

staff = rows("staff.csv")
brackets = rows("brackets.csv")
year = cells("year.csv", 60)
cost = zeros(5)
heads = zeros(5)
printed = []


def tax_on(amount):
    """The tax on a year's gross, in hundredths of a cent."""
    ends = [low for low, _ in brackets[1:]] + [amount]
    slices = [(min(amount, end) - low, percent) for (low, percent), end in zip(brackets, ends)]
    return sum(width * percent for width, percent in slices if width > 0)


def clerk(first):
    paid = 0
    for i, (where, hours, rate, children) in list(enumerate(staff))[first::3]:
        gross = hours * rate // 10 + max(hours - 1600, 0) * rate // 20
        yield Lock("file", i)
        before = year[i]
        year[i] += gross
        yield Unlock("file", i)
        tax = max(quotient(tax_on(before + gross - 20000 * children) - tax_on(before), 100), 0)
        social = min(gross, 755000) * 93 // 1000
        printed.append((i, gross, tax, social, gross - tax - social))
        yield Lock("department", where)
        cost[where] += gross + social
        heads[where] += 1
        yield Unlock("department", where)
        paid += gross - tax - social
    return paid


def main():
    for first in range(3):
        yield Fork(clerk, (first,))
    paid = 0
    for thread in range(1, 4):
        paid += yield Join(thread)
    printed.append((paid,))


publish(main, printed, {"year": year, "cost": cost, "heads": heads}, "faults.csv")
