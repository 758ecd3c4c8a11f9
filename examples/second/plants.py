"""Rules of the second reading that are made wrong, so that it can be seen that a difference is found."""

import audit
import batch
import reckoning
import second
from reckoning import Order

KINDS = {}


def plant(function):
    KINDS[function.__name__.replace("_", "-")] = function
    return function


@plant
def order():
    """After thread t comes the last one before it that has not ended."""

    def after(self, thread):
        before = [other for other in self.live if other < thread] or self.live
        return before[-1] if before else None

    Order.after = after


@plant
def restart():
    """What depends on the struck position through others is not redone."""

    def dependents(subthreads, struck, front):
        return [struck] + [later for later in range(struck + 1, front) if subthreads[struck].clashes(subthreads[later])]

    second.dependents = audit.dependents = dependents


@plant
def arithmetic():
    """A quotient is rounded down."""
    batch.OPERATORS["/"] = lambda a, b: batch.wrap(a // b) if b else 0


@plant
def count():
    """A position that is redone twice counts once."""
    text = reckoning.text

    def counted(printed, end, records, subthreads, made, listed):
        for line in text(printed, end, records, subthreads, made, listed):
            yield f"redone {len({p for *_, redo in made for p in redo})}" if line.startswith("redone") else line

    second.text = counted
