"""The rules of the check, by the table of "What is refused, and why" in docs/LANGUAGE.md."""

from tree import Barrier, Feed, Locks, Record, Refused

MOST_CELLS = 65_536
MOST_FIELDS = 64
MOST_MEETING = 4_096
MOST_VARIABLES = 256


class Place:
    """A line, and the rules that are found broken there. The lowest is told."""

    def __init__(self, line):
        self.line = line
        self.broken = []

    def asks(self, rule, holds):
        if not holds:
            self.broken.append(rule)
        return holds

    def tell(self):
        if self.broken:
            raise Refused(f"check {min(self.broken)} at line {self.line}")


class Check:
    """Goes through a program, and raises the first refusal."""

    def __init__(self, program):
        self.names = {}
        # a record may stand before its lock array
        self.arrays = {head.name: head for head in reversed(program.heads) if isinstance(head, Locks)}
        self.lock_cells = self.record_cells = 0
        for head in program.heads:
            self.head(head)
        for task in program.tasks:
            self.task_head(task)
        if "main" not in self.names or not self.is_a("main", "task"):
            raise Refused("check 1 at line 1")
        for task in program.tasks:
            Bodies(self.names, task).follow()

    def is_a(self, name, kind):
        return name in self.names and self.names[name][0] == kind

    def head(self, head):
        place = Place(head.line)
        place.asks(2, head.name not in self.names)
        if isinstance(head, Locks):
            self.lock_cells += head.size
            place.asks(3, head.size > 0)
            place.asks(11, self.lock_cells <= MOST_CELLS)
            kind = "lock"
        elif isinstance(head, Record):
            self.record_cells += head.size
            place.asks(3, head.size > 0)
            if place.asks(1, head.locks in self.arrays):
                place.asks(10, self.arrays[head.locks].size == head.size)
            place.asks(11, self.record_cells <= MOST_CELLS)
            kind = "record"
        elif isinstance(head, Feed):
            place.asks(3, head.fields > 0)
            place.asks(11, head.fields <= MOST_FIELDS)
            kind = "feed"
        elif isinstance(head, Barrier):
            place.asks(3, head.threads > 0)
            place.asks(11, head.threads <= MOST_MEETING)
            kind = "barrier"
        place.tell()
        self.names[head.name] = kind, head

    def task_head(self, task):
        place = Place(task.line)
        place.asks(2, task.name not in self.names)
        place.asks(3, task.name != "main" or not task.parameters)
        place.tell()
        self.names[task.name] = "task", task
        known = {"$ret"}
        for name, line in task.parameters + task.variables:
            place = Place(line)
            place.asks(2, name not in known)
            known.add(name)
            place.asks(11, len(known) <= MOST_VARIABLES)
            place.tell()


class Bodies:
    """Follows the locks that are held along the text of a task."""

    def __init__(self, names, task):
        self.names = names
        self.task = task
        self.variables = {name for name, _ in task.parameters + task.variables} | {"$ret"}

    def follow(self):
        held = self.block(self.task.body, frozenset())
        place = Place(self.task.line)
        place.asks(7, not held)
        place.tell()

    def block(self, statements, held):
        for statement in statements:
            held = self.statement(statement, held)
        return held

    def is_a(self, name, kind):
        return name in self.names and self.names[name][0] == kind

    def value(self, place, expression, control):
        """Looks at an expression; in one of control no data variable stands."""
        match expression:
            case "name", name:
                place.asks(1, name in self.variables)
            case "data", name:
                place.asks(1, "$" + name in self.variables)
                place.asks(4, not control)
            case "rows", name:
                place.asks(1, self.is_a(name, "feed"))
            case "cell", name, row, column:
                place.asks(1, self.is_a(name, "feed"))
                self.value(place, row, True)
                self.value(place, column, True)
            case "unary", _, inner:
                self.value(place, inner, control)
            case "binary", _, left, right:
                self.value(place, left, control)
                self.value(place, right, control)

    def atom(self, place, atom):
        place.asks(1, isinstance(atom, int) or atom in self.variables)

    def sets(self, place, name, held):
        """A control variable is set."""
        place.asks(1, name in self.variables)
        place.asks(9, all(index != name for _, index in held))

    def touches(self, place, record, index, held):
        """A record cell is touched."""
        self.atom(place, index)
        if place.asks(1, self.is_a(record, "record")):
            place.asks(5, (self.names[record][1].locks, index) in held)

    def statement(self, statement, held):
        place = Place(statement[1])
        match statement:
            case "set", _, name, value:
                self.sets(place, name, held)
                self.value(place, value, True)
            case "while", _, condition, block:
                self.value(place, condition, True)
                place.tell()
                place.asks(8, self.block(block, held) == held)
            case "if", _, condition, first, second:
                self.value(place, condition, True)
                place.tell()
                before, held = held, self.block(first, held)
                place.asks(8, self.block(second, before) == held)
            case "lock", _, name, index:
                place.asks(1, self.is_a(name, "lock"))
                self.atom(place, index)
                place.asks(6, (name, index) not in held)
                held |= {(name, index)}
            case "unlock", _, name, index:
                place.asks(1, self.is_a(name, "lock"))
                self.atom(place, index)
                place.asks(5, (name, index) in held)
                held -= {(name, index)}
            case "fork", _, name, arguments, into:
                self.fork(place, name, arguments)
                if into is not None:
                    self.sets(place, into, held)
            case "join", _, thread, into:
                self.value(place, thread, True)
                place.asks(1, into is None or "$" + into in self.variables)
            case "barrier", _, name:
                place.asks(1, self.is_a(name, "barrier"))
            case "settle", _, data, name:
                place.asks(1, "$" + data in self.variables)
                self.sets(place, name, held)
            case "let", _, name, value:
                place.asks(1, "$" + name in self.variables)
                self.value(place, value, False)
            case "read", _, record, index, name:
                self.touches(place, record, index, held)
                place.asks(1, "$" + name in self.variables)
            case "write", _, record, index, value:
                self.touches(place, record, index, held)
                self.value(place, value, False)
            case "print", _, values:
                for value in values:
                    self.value(place, value, False)
            case "when", _, condition, first, second:
                self.value(place, condition, False)
                place.tell()
                self.block(first, held)
                self.block(second, held)
        place.tell()
        return held

    def fork(self, place, name, arguments):
        parameters = []
        if place.asks(1, self.is_a(name, "task")):
            parameters = self.names[name][1].parameters
            place.asks(3, len(parameters) == len(arguments))
        for number, argument in enumerate(arguments):
            control = number < len(parameters) and not parameters[number][0].startswith("$")
            self.value(place, argument, control)


def check(program):
    """Raises the refusal of a program, if there is one."""
    Check(program)
