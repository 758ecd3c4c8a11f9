"""What `gprs` publishes for a batch that finishes, reckoned without it.

The rules are those of docs/ORDER.md (turns of the token, dependence, restarts) and docs/FORMATS.md (the text). The tasks of a
batch are written in Python: a task is a generator that does the same work and yields at each synchronisation. It works on
the data at once, since subthreads come here one after another, in the order of the token and without faults.

Beside each NAME.gp stands a NAME.py that prints what NAME.out holds. Run it in its own folder:

    cd examples/settlement && PYTHONPATH=.. python3 settlement.py
"""

import sys
from bisect import bisect_right
from dataclasses import dataclass


@dataclass(frozen=True)
class Lock:
    """Takes a lock."""

    array: str
    index: int = 0


@dataclass(frozen=True)
class Unlock:
    """Gives a lock back."""

    array: str
    index: int = 0


@dataclass(frozen=True)
class Fork:
    """Starts a thread; the yield answers its number."""

    task: object
    arguments: tuple = ()


@dataclass(frozen=True)
class Join:
    """Waits for the end of a thread; the yield answers what it returned."""

    thread: int


@dataclass(frozen=True)
class Barrier:
    """Waits until so many threads stand here."""

    name: str
    threads: int


@dataclass(frozen=True)
class Settle:
    """Makes a number of the data one of control; the thread has it at hand when the yield answers."""


@dataclass(frozen=True)
class Missing:
    """Stands before a statement that names a feed cell or a lock that is not there; no yield answers."""


@dataclass(frozen=True)
class Looping:
    """Stands before a loop turn that is one more than a subthread may take; no yield answers."""


START = object()
MOST_THREADS = 4_096


class Named:
    """The record cells that the present subthread reads and writes."""

    reads = set()
    writes = set()

    @classmethod
    def begin(cls):
        cls.reads, cls.writes = set(), set()


class Cells(list):
    """The cells of a record. A subthread reads those that it looks at, and writes those that it sets."""

    def __getitem__(self, index):
        Named.reads.add((id(self), index))
        return super().__getitem__(index)

    def __setitem__(self, index, value):
        Named.writes.add((id(self), index))
        super().__setitem__(index, value)

    def names(self, *indices):
        """Notes that these are read and written: of a choice on data, the cells of both arms count, whichever is taken."""
        for index in indices:
            self[index] = self[index]


class Thread:
    """A thread: its work, the synchronisation at which it stands, and what it returned once it has ended."""

    def __init__(self, work):
        self.work = work
        self.next = START
        self.result = 0
        self.arrived = False
        self.released = False

    def has_ended(self):
        return self.next is None

    def run(self, answer):
        """Does the work up to the next synchronisation."""
        try:
            self.next = self.work.send(answer)
        except StopIteration as end:
            self.next = None
            self.result = end.value or 0


@dataclass(frozen=True)
class Subthread:
    """What a subthread reads and writes, whether it begins with a settle, and its thread."""

    reads: frozenset
    writes: frozenset
    settles: bool
    thread: int

    def clashes(self, other):
        return not (self.writes.isdisjoint(other.reads) and self.writes.isdisjoint(other.writes) and self.reads.isdisjoint(other.writes))


@dataclass(frozen=True)
class End:
    """How a run ends: finished, spent at a position or at the limit on subthreads, or stuck, told of a thread."""

    how: str
    number: int = 0


class Order:
    """The subthreads of a batch, in order, and how the run ends."""

    def __init__(self, main, most_subthreads=100_000):
        self.most_subthreads = most_subthreads
        self.threads = [Thread(main())]
        self.live = [0]
        self.owners = {}
        self.subthreads = []
        self.end = self.take_turns()

    def take_turns(self):
        """Lets the token go round until every thread has ended, or the run ends before. Answers how it ends."""
        passed = set()
        thread = 0
        while thread is not None:
            if thread in passed:
                return End("stuck deadlock", self.live[0])
            end = self.ends(thread)
            if end is not None:
                return end
            arrives = self.arrives(thread)
            if self.can_go_on(thread):
                if len(self.subthreads) == self.most_subthreads:
                    return End("spent", self.most_subthreads)
                self.issue(thread)
                passed = set()
            else:
                passed = {thread} if arrives else passed | {thread}
            thread = self.after(thread)
        return End("finished")

    def after(self, thread):
        """The first thread after this one that has not ended."""
        place = bisect_right(self.live, thread)
        return (self.live[place:place + 1] or self.live[:1] or [None])[0]

    def ends(self, thread):
        """How the run ends at the turn of this thread, if its next synchronisation ends it."""
        sync = self.threads[thread].next
        if isinstance(sync, Missing):
            return End("stuck index", thread)
        if isinstance(sync, Looping):
            return End("spent", max(position for position, this in enumerate(self.subthreads) if this.thread == thread))
        if isinstance(sync, Join) and not 0 <= sync.thread < len(self.threads):
            return End("stuck join", thread)
        if isinstance(sync, Fork) and len(self.threads) == MOST_THREADS:
            return End("stuck threads", thread)
        return None

    def arrives(self, thread):
        """Whether the thread comes to its barrier now. If enough threads wait there then, all of them are released."""
        this = self.threads[thread]
        if not isinstance(this.next, Barrier) or this.arrived:
            return False
        this.arrived = True
        waiting = [other for other in self.threads if other.arrived and not other.released and other.next.name == this.next.name]
        if len(waiting) == this.next.threads:
            for other in waiting:
                other.released = True
        return True

    def can_go_on(self, thread):
        sync = self.threads[thread].next
        if isinstance(sync, Lock):
            return (sync.array, sync.index) not in self.owners
        if isinstance(sync, Join):
            return self.threads[sync.thread].has_ended()
        if isinstance(sync, Barrier):
            return self.threads[thread].released
        return True

    def issue(self, thread):
        """Performs the synchronisation of the thread and runs the subthread that begins with it."""
        this = self.threads[thread]
        sync = this.next
        reads, writes, answer = set(), {("thread", thread)}, None
        if isinstance(sync, Lock):
            self.owners[sync.array, sync.index] = thread
        elif isinstance(sync, Unlock):
            del self.owners[sync.array, sync.index]
        elif isinstance(sync, Fork):
            answer = len(self.threads)
            self.threads.append(Thread(sync.task(*sync.arguments)))
            self.live.append(answer)
            writes.add(("thread", answer))
        elif isinstance(sync, Join):
            answer = self.threads[sync.thread].result
            reads.add(("thread", sync.thread))
        this.arrived = this.released = False
        Named.begin()
        this.run(answer)
        if this.has_ended():
            self.live.remove(thread)
        settles = isinstance(sync, Settle)
        self.subthreads.append(Subthread(frozenset(reads | Named.reads), frozenset(writes | Named.writes), settles, thread))


def dependents(subthreads, struck, front):
    """The struck position and each later one below the front that clashes with one of them."""
    found = [struck]
    reads, writes = set(subthreads[struck].reads), set(subthreads[struck].writes)
    for later in range(struck + 1, front):
        if Subthread(reads, writes, False, 0).clashes(subthreads[later]):
            found.append(later)
            reads |= subthreads[later].reads
            writes |= subthreads[later].writes
    return found


def rolled_back(every):
    """What is redone where a run goes back to copies: all from the greatest cut on that is not after the struck position."""
    def redone(subthreads, struck, front):
        cut = max(p for p in range(struck + 1) if p % every == 0 or subthreads[p].settles)
        return list(range(cut, front))
    return redone


def drains(subthreads, front):
    """Whether faults are taken at this front whatever their delay."""
    return front == len(subthreads) or subthreads[front].settles


def restarts(subthreads, faults, redone=dependents):
    """The restarts that the faults make: rows of front, struck position, its attempt, and what is redone."""
    attempt, begun, made = {}, {}, []
    for front in range(1, len(subthreads) + 1):
        attempt[front - 1], begun[front - 1] = 0, front
        while True:
            live = [(p, delay) for p, tried, delay, _ in faults if p < front and attempt[p] == tried]
            due = [p for p, delay in live if begun[p] + delay <= front]
            if not due and drains(subthreads, front):
                due = [p for p, _ in live]
            if not due:
                break
            struck = min(due)
            redo = redone(subthreads, struck, front)
            made.append((front, struck, attempt[struck], redo))
            for p in redo:
                attempt[p] += 1
                begun[p] = front
    return made


def rows(name):
    """The rows of a file of numbers."""
    with open(name, encoding="ascii") as file:
        return [[int(field) for field in line.split(",")] for line in file if line.strip()]


def cells(name, size):
    """The first values of a record."""
    values = [0] * size
    for index, value in rows(name):
        values[index] = value
    return Cells(values)


def zeros(size):
    """The cells of a record that begins with zeros."""
    return Cells([0] * size)


def wrap(number):
    """A number as 64 bits hold it."""
    return (number + 2**63) % 2**64 - 2**63


def quotient(number, divisor):
    """The quotient, rounded towards 0."""
    return abs(number) // abs(divisor) * (1 if (number < 0) == (divisor < 0) else -1)


def remainder(number, divisor):
    """The remainder, with the sign of the number."""
    return number - quotient(number, divisor) * divisor


def text(printed, end, records, subthreads, made, listed):
    """The lines of a run's text: `end` is the line of a run that does not finish, and "" for one that does."""
    yield "output"
    for line in printed:
        yield " ".join(map(str, line))
    if end:
        yield end
    else:
        yield "records"
        for name, values in records.items():
            yield " ".join([f"{name}:", *map(str, values)])
    yield "restarts"
    for number, (front, struck, tried, redo) in enumerate(made, 1):
        yield " ".join([f"{number}: front {front} struck {struck} try {tried} redo", *map(str, redo)])
    yield "counts"
    yield f"subthreads {len(subthreads)}"
    yield f"restarts {len(made)}"
    yield f"redone {sum(len(redo) for _, _, _, redo in made)}"
    yield f"unused {len(listed) - len(made)}"


def publish(main, printed, records, faults=None):
    """Runs the batch and prints its text. `printed` and `records` are read after the run: lists of numbers, and lists by name.

    With the words `--every N` it is the text of a run that goes back to copies, which were taken before each Nth subthread."""
    order = Order(main)
    assert order.end == End("finished"), order.end
    listed = rows(faults) if faults else []
    redone = rolled_back(int(sys.argv[2])) if sys.argv[1:2] == ["--every"] else dependents
    made = restarts(order.subthreads, listed, redone)
    for line in text(printed, "", records, order.subthreads, made, listed):
        print(line)
