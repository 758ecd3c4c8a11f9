"""A program run in the order of the token: its tree is walked, and `reckoning` takes the turns.

The rules are those of docs/LANGUAGE.md ("Statements", "Expressions", "How a run ends") and docs/ORDER.md ("Subthreads", "The token",
"Dependence"). A thread is a generator that yields its synchronisations; before a stop it yields that, and no answer comes.
"""

from functools import partial

from reckoning import Barrier, Cells, Fork, Join, Lock, Looping, Missing, Named, Order, Settle, Unlock, quotient, remainder, wrap
from rows import RowRefused
from tree import Barrier as BarrierHead
from tree import Feed, Record

OPERATORS = {
    "+": lambda a, b: wrap(a + b),
    "-": lambda a, b: wrap(a - b),
    "*": lambda a, b: wrap(a * b),
    "/": lambda a, b: wrap(quotient(a, b)) if b else 0,
    "%": lambda a, b: remainder(a, b) if b else 0,
    "==": lambda a, b: int(a == b),
    "!=": lambda a, b: int(a != b),
    "<": lambda a, b: int(a < b),
    "<=": lambda a, b: int(a <= b),
    ">": lambda a, b: int(a > b),
    ">=": lambda a, b: int(a >= b),
    "and": lambda a, b: int(a != 0 and b != 0),
    "or": lambda a, b: int(a != 0 or b != 0),
}
UNARY = {"-": lambda a: wrap(-a), "not": lambda a: int(a == 0)}


class TooLong(Exception):
    """The run takes more steps than it is given here."""


class Stops(Exception):
    """The thread stops before a statement: `sync` says why."""

    def __init__(self, sync):
        super().__init__(sync)
        self.sync = sync


class Frame:
    """What a thread has: its variables of both kinds, the loop turns of its subthread, and the line at which it is."""

    def __init__(self, number, control, data):
        self.number = number
        self.control = control
        self.data = data
        self.turns = 0
        self.line = 0


class Code:
    """A program whose statements are functions of a frame. One that synchronises answers a generator, the others nothing."""

    def __init__(self, program, files, most_turns, most_steps, printed, started):
        self.most_turns = most_turns
        self.steps = most_steps
        self.printed = printed
        self.started = started
        self.records, self.locks_of, self.feeds, self.barriers = {}, {}, {}, {}
        self.first_cell, cells = {}, 0
        for head in program.heads:
            if isinstance(head, Record):
                self.records[head.name] = Cells(files[head.name] if head.file is not None else [0] * head.size)
                self.locks_of[head.name] = head.locks
                self.first_cell[head.name] = cells
                cells += head.size
            elif isinstance(head, Feed):
                self.feeds[head.name] = files[head.name]
            elif isinstance(head, BarrierHead):
                self.barriers[head.name] = head.threads
        self.sizes = {head.name: head.size for head in program.heads if hasattr(head, "size")}
        self.widths = {head.name: head.fields for head in program.heads if isinstance(head, Feed)}
        self.tasks = {task.name: task for task in program.tasks}
        self.bodies = {}
        self.written = {}

    def body(self, name):
        if name not in self.bodies:
            self.bodies[name] = self.block(self.tasks[name].body)
        return self.bodies[name]

    def parameters(self, name):
        return [parameter for parameter, _ in self.tasks[name].parameters]

    def frame(self, number, name, arguments):
        """The frame of a new thread: parameters start at the arguments, all else at 0."""
        control, data = {}, {"ret": 0}
        task = self.tasks[name]
        for place, (variable, _) in enumerate(task.parameters + task.variables):
            value = arguments[place] if place < len(task.parameters) else 0
            if variable.startswith("$"):
                data[variable[1:]] = value
            else:
                control[variable] = value
        return Frame(number, control, data)

    # Expressions: functions from a frame to a number.

    def value(self, expression):
        match expression:
            case "number", number:
                return lambda frame: number
            case "name", name:
                return lambda frame: frame.control[name]
            case "data", name:
                return lambda frame: frame.data[name]
            case ("self",):
                return lambda frame: frame.number
            case "rows", name:
                count = len(self.feeds[name])
                return lambda frame: count
            case "cell", name, row, column:
                return self.cell(self.feeds[name], self.value(row), self.value(column), self.widths[name])
            case "unary", operator, inner:
                apply_one, read = UNARY[operator], self.value(inner)
                return lambda frame: apply_one(read(frame))
            case "binary", operator, left, right:
                apply_two, first, second = OPERATORS[operator], self.value(left), self.value(right)
                return lambda frame: apply_two(first(frame), second(frame))

    @staticmethod
    def cell(rows, row, column, width):
        def read(frame):
            at, field = row(frame), column(frame)
            if not (0 <= at < len(rows) and 0 <= field < width):
                raise Stops(Missing())
            return rows[at][field]
        return read

    def atom(self, atom):
        return (lambda frame: atom) if isinstance(atom, int) else (lambda frame: frame.control[atom])

    # Statements.

    def block(self, statements):
        return [(statement[1], self.statement(statement)) for statement in statements]

    @staticmethod
    def walk(block, frame):
        """Does the statements of a block, one after another."""
        for line, do in block:
            frame.line = line
            work = do(frame)
            if work is not None:
                yield from work

    def stands(self, frame, line, sync):
        """Comes to a synchronisation, and goes on with the subthread that begins with it."""
        frame.line = line
        answer = yield sync
        frame.turns = 0
        return answer

    def statement(self, statement):
        line = statement[1]
        match statement:
            case "set", _, name, value:
                read = self.value(value)

                def do(frame):
                    frame.control[name] = read(frame)
            case "while", _, condition, block:
                do = self.loop(line, self.value(condition), self.block(block))
            case "if", _, condition, first, second:
                read, arms = self.value(condition), (self.block(second), self.block(first))

                def do(frame):
                    return self.walk(arms[read(frame) != 0], frame)
            case "lock", _, name, index:
                at, size = self.atom(index), self.sizes[name]

                def do(frame):
                    if not 0 <= at(frame) < size:
                        raise Stops(Missing())
                    return self.stands(frame, line, Lock(name, at(frame)))
            case "unlock", _, name, index:
                at = self.atom(index)

                def do(frame):
                    return self.stands(frame, line, Unlock(name, at(frame)))
            case "fork", _, name, arguments, into:
                reads = [self.value(argument) for argument in arguments]

                def do(frame):
                    sync = Fork(partial(self.started, name), ([read(frame) for read in reads],))
                    thread = yield from self.stands(frame, line, sync)
                    if into is not None:
                        frame.control[into] = thread
            case "join", _, thread, into:
                read = self.value(thread)

                def do(frame):
                    result = yield from self.stands(frame, line, Join(read(frame)))
                    if into is not None:
                        frame.data[into] = result
            case "barrier", _, name:
                sync = Barrier(name, self.barriers[name])

                def do(frame):
                    return self.stands(frame, line, sync)
            case "settle", _, data, name:

                def do(frame):
                    yield from self.stands(frame, line, Settle())
                    frame.control[name] = frame.data[data]
            case _:
                do = self.data_statement(statement)
        return do

    def loop(self, line, read, block):
        def do(frame):
            while read(frame) != 0:
                if frame.turns == self.most_turns:
                    raise Stops(Looping())
                frame.turns += 1
                self.steps -= 1
                if self.steps < 0:
                    raise TooLong
                yield from self.walk(block, frame)
                frame.line = line
        return do

    def data_statement(self, statement):
        """All cells of feeds are looked up before it does anything, and the record cells of both arms are named."""
        looks, names, do = self.looks(statement), self.names(statement), self.effect(statement)

        def whole(frame):
            for look in looks:
                look(frame)
            for notes, record, at in names:
                notes().add((id(record), at(frame)))
            do(frame)
        return whole if statement[0] == "when" else do

    def looks(self, part):
        """The feed cells that stand in a statement or an expression."""
        if not isinstance(part, (tuple, list)):
            return []
        if part and part[0] == "cell":
            return [self.value(part)]
        return [look for inner in part for look in self.looks(inner)]

    def names(self, statement):
        """What a statement names of records: the reads or the writes, the record, and the index."""
        match statement:
            case "read", _, record, index, _:
                return [(lambda: Named.reads, self.records[record], self.atom(index))]
            case "write", _, record, index, _:
                return [(lambda: Named.writes, self.records[record], self.atom(index))]
            case "when", _, _, first, second:
                return [name for inner in first + second for name in self.names(inner)]
        return []

    def effect(self, statement):
        """What a data statement does."""
        match statement:
            case "let", _, name, value:
                read = self.value(value)

                def do(frame):
                    frame.data[name] = read(frame)
            case "read", _, record, index, name:
                cells, at = self.records[record], self.atom(index)

                def do(frame):
                    frame.data[name] = cells[at(frame)]
            case "write", _, record, index, value:
                cells, at, read, first = self.records[record], self.atom(index), self.value(value), self.first_cell[record]

                def do(frame):
                    cells[at(frame)] = self.written[first + at(frame)] = read(frame)
            case "print", _, values:
                reads = [self.value(value) for value in values]

                def do(frame):
                    self.printed.append([read(frame) for read in reads])
            case "when", _, condition, first, second:
                read = self.value(condition)
                arms = [self.effect(inner) for inner in second], [self.effect(inner) for inner in first]

                def do(frame):
                    for inner in arms[read(frame) != 0]:
                        inner(frame)
        return do


class Batch(Order):
    """The order of a batch, with what each subthread printed, holds and left.

    With the rows of a log, the subthreads that have one leave what stands there."""

    def __init__(self, program, files, most_turns, most_subthreads, most_steps, rows=()):
        self.printed = []
        self.frames = []
        self.lengths = []
        self.holds = []
        self.log = []
        self.rows = rows
        self.bytes = len("output\n")
        self.code = Code(program, files, most_turns, most_steps, self.printed, self.started)
        super().__init__(partial(self.started, "main", []), most_subthreads)
        if len(rows) > len(self.subthreads):
            raise RowRefused(8, len(self.subthreads) + 1)

    def started(self, name, arguments):
        """The work of a new thread, which has the next number."""
        frame = self.code.frame(len(self.frames), name, arguments)
        self.frames.append(frame)
        return self.work(name, frame)

    def work(self, name, frame):
        try:
            yield from self.code.walk(self.code.body(name), frame)
        except Stops as stop:
            yield stop.sync
        return frame.data["ret"]

    def issue(self, thread):
        position, printed, threads = len(self.subthreads), len(self.printed), len(self.threads)
        self.code.steps -= 1
        if self.code.steps < 0:
            raise TooLong
        kept = [list(cells) for cells in self.code.records.values()] if position < len(self.rows) else None
        self.code.written = {}
        super().issue(thread)
        child = self.frames[-1] if len(self.threads) > threads else None
        self.holds.append({lock for lock, owner in self.owners.items() if owner == thread})
        if kept is not None:
            self.takes(position, thread, child, kept)
        self.bytes += sum(len(" ".join(map(str, line))) + 1 for line in self.printed[printed:])
        self.lengths.append(len(self.printed))
        groups = self.frames[thread].data.values(), child.data.values() if child else (), self.written_cells()
        self.log.append(f"{position} {self.bytes}" + "".join(" ;" + "".join(f" {value}" for value in group) for group in groups))

    def written_cells(self):
        for cell in sorted(self.code.written):
            yield cell
            yield self.code.written[cell]

    def takes(self, position, thread, child, kept):
        """Puts what the row of a log says in the place of what the subthread did, if the row fits."""
        code, place = self.code, position + 1
        row_position, length, registers, child_registers, cells = self.rows[position]
        before = self.rows[position - 1][1] if position else 7
        named = {}
        for name, first in code.first_cell.items():
            for index in range(code.sizes[name]):
                named[first + index] = name, index
        numbers = cells[0::2]
        if not (
            row_position == position
            and length >= before
            and len(registers) == len(self.frames[thread].data)
            and len(child_registers) == (len(child.data) if child else 0)
            and all(one < other for one, other in zip(numbers, numbers[1:]))
            and all(n in named and (code.locks_of[named[n][0]], named[n][1]) in self.holds[position] for n in numbers)
        ):
            raise RowRefused(8, place)
        for record, values in zip(code.records.values(), kept):
            list.__setitem__(record, slice(None), values)
        for cell, value in zip(numbers, cells[1::2]):
            name, index = named[cell]
            list.__setitem__(code.records[name], index, value)
        self.frames[thread].data.update(zip(self.frames[thread].data, registers))
        if self.threads[thread].has_ended():
            self.threads[thread].result = registers[0]
        if child:
            child.data.update(zip(child.data, child_registers))

    def end_line(self):
        """The line of a run that does not finish."""
        if self.end.how == "finished":
            return ""
        if self.end.how == "spent":
            return f"spent {self.end.number}"
        return f"{self.end.how} thread {self.end.number} line {self.frames[self.end.number].line}"
