"""From the bytes of a program to its tree, by the chapters "Text" and "What is refused, and why" of docs/LANGUAGE.md.

An expression is a tuple:

    ("number", n) ("name", x) ("data", x) ("self",) ("rows", f) ("cell", f, e, g) ("unary", operator, e) ("binary", operator, e, g)

A statement is a tuple of its kind, the line of its first word, and its parts; an atom is a number or a name:

    ("set", line, x, e) ("while", line, e, block) ("if", line, e, block, block) ("lock", line, a, atom) ("unlock", line, a, atom)
    ("fork", line, t, arguments, x or None) ("join", line, e, x or None) ("barrier", line, b) ("settle", line, x, c)
    ("let", line, x, e) ("read", line, r, atom, x) ("write", line, r, atom, e) ("print", line, values) ("when", line, e, block, block)
"""

import re
from dataclasses import dataclass, field

MOST_BYTES = 1_048_576
MOST_LEVELS = 64
GREATEST = 2**63 - 1

RESERVED = frozenset(
    "lock unlock barrier record by from feed task var while if else fork into join read write print when and or not self rows settle".split()
)

TOKEN = re.compile(
    r"""(?P<gap>[ \t\r\n]+|\#[^\n]*)
      | (?P<data>\$[A-Za-z_][A-Za-z0-9_]*)
      | (?P<name>[A-Za-z_][A-Za-z0-9_]*)
      | (?P<number>[0-9]+)
      | (?P<text>"[\x20\x21\x23-\x7e]*")
      | (?P<sign>==|!=|<=|>=|[-+*/%<>=()\[\]{},;])""",
    re.VERBOSE,
)

# What a token may begin with that does not come to its end. The byte after it is told.
STARTED = re.compile(r"""\$|!|"[\x20\x21\x23-\x7e]*|""")

COMPARISONS = ("==", "!=", "<", "<=", ">", ">=")


class Refused(Exception):
    """The program is refused: the line that says so, without `gprs: `."""


@dataclass(frozen=True)
class Token:
    """`kind` is a reserved word, a sign, or one of NAME, DNAME, NUM, TEXT and END."""

    kind: str
    value: object
    byte: int
    line: int


@dataclass
class Locks:
    name: str
    size: int
    line: int


@dataclass
class Record:
    name: str
    size: int
    locks: str
    file: str | None
    line: int


@dataclass
class Feed:
    name: str
    fields: int
    file: str
    line: int


@dataclass
class Barrier:
    name: str
    threads: int
    line: int


@dataclass
class Task:
    """`parameters` and `variables` are names, with a `$` where they are data, and each with its line."""

    name: str
    line: int
    parameters: list = field(default_factory=list)
    variables: list = field(default_factory=list)
    body: list = field(default_factory=list)


@dataclass
class Program:
    heads: list
    tasks: list


def tokens(source):
    """The tokens of a text, with one for its end."""
    if len(source) > MOST_BYTES:
        raise Refused("lex 3")
    text = source.decode("latin-1")
    found, at, line = [], 0, 1
    while at < len(text):
        match = TOKEN.match(text, at)
        if match is None:
            raise Refused(f"lex 1 at byte {STARTED.match(text, at).end()}")
        kind, value = match.lastgroup, match.group()
        if kind == "gap":
            line += value.count("\n")
        elif kind == "data":
            found.append(Token("DNAME", value[1:], at, line))
        elif kind == "name":
            found.append(Token(value if value in RESERVED else "NAME", value, at, line))
        elif kind == "number":
            if int(value) > GREATEST:
                raise Refused(f"lex 2 at byte {at}")
            found.append(Token("NUM", int(value), at, line))
        elif kind == "text":
            found.append(Token("TEXT", value[1:-1], at, line))
        elif kind == "sign":
            found.append(Token(value, value, at, line))
        at = match.end()
    return found + [Token("END", None, len(text), line)]


class Parser:
    """Reads the tokens one after another."""

    def __init__(self, found):
        self.found = found
        self.at = 0
        self.levels = 0

    @property
    def kind(self):
        return self.found[self.at].kind

    @property
    def line(self):
        return self.found[self.at].line

    def refuse(self, rule):
        raise Refused(f"parse {rule} at byte {self.found[self.at].byte}")

    def take(self, kind):
        """Takes a token of this kind, and answers its value."""
        if self.kind != kind:
            self.refuse(1)
        self.at += 1
        return self.found[self.at - 1].value

    def takes(self, kind):
        """Takes a token of this kind, if one is next."""
        if self.kind == kind:
            self.at += 1
            return True
        return False

    def opens(self, kind):
        """Takes a token that opens a level, and answers its value."""
        if self.kind == kind and self.levels == MOST_LEVELS:
            self.refuse(2)
        value = self.take(kind)
        self.levels += 1
        return value

    def closes(self, kind):
        self.take(kind)
        self.levels -= 1

    def some(self, read):
        """One or more, with commas between."""
        values = [read()]
        while self.takes(","):
            values.append(read())
        return values

    def program(self):
        heads, tasks = [], []
        while self.kind in ("lock", "barrier", "record", "feed"):
            heads.append(self.head())
        tasks.append(self.task())
        while self.kind != "END":
            tasks.append(self.task())
        return Program(heads, tasks)

    def head(self):
        line = self.line
        if self.takes("lock"):
            head = Locks(self.take("NAME"), self.size("[", "]"), line)
        elif self.takes("barrier"):
            head = Barrier(self.take("NAME"), self.size("(", ")"), line)
        elif self.takes("record"):
            name, size = self.take("NAME"), self.size("[", "]")
            self.take("by")
            locks = self.take("NAME")
            head = Record(name, size, locks, self.take("TEXT") if self.takes("from") else None, line)
        else:
            self.take("feed")
            name, size = self.take("NAME"), self.size("[", "]")
            self.take("from")
            head = Feed(name, size, self.take("TEXT"), line)
        self.take(";")
        return head

    def size(self, opening, closing):
        self.take(opening)
        size = self.take("NUM")
        self.take(closing)
        return size

    def task(self):
        line = self.line
        self.take("task")
        task = Task(self.take("NAME"), line)
        self.take("(")
        if self.kind != ")":
            task.parameters = self.some(self.parameter)
        self.take(")")
        self.take("{")
        while self.takes("var"):
            task.variables += self.some(self.parameter)
            self.take(";")
        while self.kind != "}":
            task.body.append(self.statement())
        self.take("}")
        return task

    def parameter(self):
        line = self.line
        if self.kind == "DNAME":
            return "$" + self.take("DNAME"), line
        return self.take("NAME"), line

    def block(self, read):
        self.opens("{")
        statements = []
        while self.kind != "}":
            statements.append(read())
        self.closes("}")
        return statements

    def arms(self, read):
        """A block, and that after `else`, which is empty where there is none."""
        first = self.block(read)
        return first, self.block(read) if self.takes("else") else []

    def statement(self):
        line = self.line
        if self.kind == "NAME":
            name = self.take("NAME")
            self.take("=")
            made = "set", line, name, self.expression()
        elif self.takes("while"):
            return "while", line, self.expression(), self.block(self.statement)
        elif self.takes("if"):
            return "if", line, self.expression(), *self.arms(self.statement)
        elif self.kind in ("lock", "unlock"):
            kind = self.take(self.kind)
            made = kind, line, self.take("NAME"), self.index()
        elif self.takes("fork"):
            name = self.take("NAME")
            self.take("(")
            arguments = self.some(self.expression) if self.kind != ")" else []
            self.take(")")
            made = "fork", line, name, arguments, self.take("NAME") if self.takes("into") else None
        elif self.takes("join"):
            made = "join", line, self.expression(), self.take("DNAME") if self.takes("into") else None
        elif self.takes("barrier"):
            made = "barrier", line, self.take("NAME")
        elif self.takes("settle"):
            data = self.take("DNAME")
            self.take("into")
            made = "settle", line, data, self.take("NAME")
        else:
            return self.data_statement()
        self.take(";")
        return made

    def data_statement(self):
        line = self.line
        if self.kind == "DNAME":
            name = self.take("DNAME")
            self.take("=")
            made = "let", line, name, self.expression()
        elif self.takes("read"):
            record, index = self.take("NAME"), self.index()
            self.take("into")
            made = "read", line, record, index, self.take("DNAME")
        elif self.takes("write"):
            record, index = self.take("NAME"), self.index()
            self.take("=")
            made = "write", line, record, index, self.expression()
        elif self.takes("print"):
            made = "print", line, self.some(self.expression)
        else:
            self.take("when")
            return "when", line, self.expression(), *self.arms(self.data_statement)
        self.take(";")
        return made

    def index(self):
        self.take("[")
        atom = self.take("NUM") if self.kind == "NUM" else self.take("NAME")
        self.take("]")
        return atom

    def chain(self, operators, read):
        """Operators of one level, read from left to right."""
        left = read()
        while self.kind in operators:
            operator = self.take(self.kind)
            left = "binary", operator, left, read()
        return left

    def expression(self):
        return self.chain(("or",), self.conjunction)

    def conjunction(self):
        return self.chain(("and",), self.comparison)

    def comparison(self):
        left = self.sum()
        if self.kind in COMPARISONS:
            operator = self.take(self.kind)
            return "binary", operator, left, self.sum()
        return left

    def sum(self):
        return self.chain(("+", "-"), self.product)

    def product(self):
        return self.chain(("*", "/", "%"), self.unary)

    def unary(self):
        if self.kind in ("-", "not"):
            operator = self.kind
            self.opens(operator)
            made = "unary", operator, self.unary()
            self.levels -= 1
            return made
        return self.primary()

    def primary(self):
        if self.kind == "NUM":
            return "number", self.take("NUM")
        if self.kind == "DNAME":
            return "data", self.take("DNAME")
        if self.takes("self"):
            return ("self",)
        if self.takes("rows"):
            self.take("(")
            name = self.take("NAME")
            self.take(")")
            return "rows", name
        if self.kind == "(":
            self.opens("(")
            made = self.expression()
            self.closes(")")
            return made
        if self.kind != "NAME" or self.found[self.at + 1].kind != "[":
            return "name", self.take("NAME")
        name = self.opens("NAME")
        self.take("[")
        row = self.expression()
        self.take(",")
        column = self.expression()
        self.closes("]")
        return "cell", name, row, column


def program(source):
    """The tree of a text."""
    return Parser(tokens(source)).program()
