"""Which rows of a trace may stand where, by the table "A lawful trace" of docs/ORDER.md."""

from reckoning import dependents, drains

SAFE = 64


class Journal:
    """What the rows so far leave."""

    def __init__(self, subthreads, faults):
        self.subthreads = subthreads
        self.faults = faults
        self.front = self.retired = 0
        self.attempt, self.begun = [], []
        self.posted, self.taken, self.applied, self.seen = set(), set(), set(), set()
        self.before, last = [], {}
        for position, this in enumerate(subthreads):
            self.before.append(last.get(this.thread))
            last[this.thread] = position

    def live(self):
        """The faults that name a present attempt of a position below the front."""
        return [(p, delay) for p, tried, delay, _ in self.faults if p < self.front and self.attempt[p] == tried]

    def due(self):
        return [p for p, delay in self.live() if self.begun[p] + delay <= self.front]

    def drains(self):
        return drains(self.subthreads, self.front)

    def judge(self, row):
        """Whether the row may stand here; what it leaves, if it may."""
        return getattr(self, row[0])(*row[1:])

    def issue(self, p):
        if p != self.front or p >= len(self.subthreads) or self.due():
            return False
        if self.before[p] is not None and self.before[p] not in self.seen:
            return False
        if self.subthreads[p].settles and self.retired < p:
            return False
        self.front += 1
        self.attempt.append(0)
        self.begun.append(self.front)
        return True

    def post(self, p, tried):
        if not self.retired <= p < self.front or tried != self.attempt[p] or (p, tried) in self.posted:
            return False
        this = self.subthreads[p]
        if any(e not in self.applied and self.subthreads[e].clashes(this) for e in range(self.retired, p)):
            return False
        self.posted.add((p, tried))
        return True

    def take(self, p, tried, how):
        if (p, tried) not in self.posted or (p, tried) in self.taken:
            return False
        if (how == "applied") != (tried == self.attempt[p]):
            return False
        self.taken.add((p, tried))
        self.seen.add(p)
        if how == "applied":
            self.applied.add(p)
        return True

    def restart(self, front, p, tried, redo):
        if front != self.front:
            return False
        due = self.due() or (self.drains() and [live for live, _ in self.live()])
        if not due or p != min(due) or tried != self.attempt[p] or redo != dependents(self.subthreads, p, front):
            return False
        for q in redo:
            self.attempt[q] += 1
            self.begun[q] = front
            self.applied.discard(q)
        return True

    def retire(self, p):
        if p != self.retired or p >= self.front or p not in self.applied or self.due():
            return False
        if not (self.front >= self.begun[p] + SAFE or (self.drains() and not self.live())):
            return False
        self.retired += 1
        return True

    def is_whole(self):
        return self.front == self.retired == len(self.subthreads) and not self.live()


def verdict(subthreads, faults, rows):
    """The line that an audit writes, and its status."""
    journal = Journal(subthreads, faults)
    for place, row in enumerate(rows, 1):
        if not journal.judge(row):
            return f"unlawful {place}", 9
    return ("lawful", 0) if journal.is_whole() else ("incomplete", 10)
