"""Random programs, with their files and lists of faults, and texts and files that are changed at one place."""

import random

from tree import TOKEN

LEAST = "(0 - 9223372036854775807 - 1)"
LARGE = ["9223372036854775807", LEAST, "4611686018427387904", "3037000500", "4294967296", "9223372036854775806"]
BINARY = ["+", "-", "*", "/", "%", "==", "!=", "<", "<=", ">", ">=", "and", "or"]
NAMES = ["i", "j", "k", "n", "low", "high", "x", "y", "to", "h", "w", "_", "A1", "row_2"]
DATA = ["t", "x", "y", "sum", "lock", "when", "z", "_1", "self"]


class Place:
    """What may be named where a statement stands."""

    def __init__(self, task, held=(), kept=(), rows=(), depth=0, loops=0):
        self.task = task
        self.held = list(held)
        self.kept = frozenset(kept)
        self.rows = dict(rows)
        self.depth = depth
        self.loops = loops

    def inner(self, held=None, kept=(), rows=(), loops=0):
        """The same one level further in."""
        held = self.held if held is None else held
        return Place(self.task, held, self.kept | frozenset(kept), {**self.rows, **dict(rows)}, self.depth + 1, self.loops + loops)

    def free(self):
        """The control variables that may be set: no loop counts by them, and no held lock is named by them."""
        named = {index for _, index in self.held}
        return [name for name in self.task.controls if name not in self.kept and name not in named]


class Work:
    """A task in the making."""

    def __init__(self, name, rank):
        self.name = name
        self.rank = rank
        self.parameters = []
        self.controls = []
        self.data = ["ret"]
        self.meets = None


class Maker:
    """Draws a program. `text` is its text, `files` the bytes of its files by their names."""

    def __init__(self, draw):
        self.draw = draw
        self.files = {}
        self.locks = {f"{self.one('abl')}{n}": draw.randint(1, 5) for n in range(draw.choice([1, 1, 2, 2, 3]))}
        self.records, self.feeds, self.barriers = {}, {}, {}
        self.lines = []
        self.budget = draw.choice([8, 20, 35, 60])
        self.wild = draw.random() < 0.15
        self.heads()
        self.tasks()
        self.text = "\n".join(self.lines) + "\n"
        if draw.random() < 0.2:
            self.text = loosened(draw, self.text)

    def one(self, values):
        return self.draw.choice(list(values))

    def chance(self, part):
        return self.draw.random() < part

    # Heads and their files.

    def heads(self):
        heads = []
        for name, size in self.locks.items():
            heads.append(f"lock {name}[{size}];")
            for _ in range(self.one([0, 1, 1, 1, 2])):
                record = f"r{len(self.records)}"
                self.records[record] = name
                rest = ""
                if self.chance(0.5):
                    rest = f' from "{record}.csv"'
                    rows = [[index, self.number()] for index in range(size) if self.chance(0.7)]
                    self.draw.shuffle(rows)
                    self.files[f"{record}.csv"] = written(self.draw, rows)
                heads.append(f"record {record}[{size}] by {name}{rest};")
        for _ in range(self.one([0, 1, 1, 2])):
            name, width = f"f{len(self.feeds)}", self.draw.randint(1, 3)
            rows = [[self.small() if self.chance(0.8) else self.number() for _ in range(width)] for _ in range(self.draw.randint(0, 7))]
            self.feeds[name] = width, len(rows)
            self.files[f"{name}.csv"] = written(self.draw, rows)
            heads.append(f'feed {name}[{width}] from "{name}.csv";')
        for _ in range(self.one([0, 0, 1, 1, 2])):
            name = f"m{len(self.barriers)}"
            self.barriers[name] = self.one([1, 2, 2, 3, 3, 4, 6])
            heads.append(f"barrier {name}({self.barriers[name]});")
        self.lines += heads

    def small(self):
        return self.draw.randint(-3, 9)

    def number(self):
        return self.one([self.small(), self.draw.randint(-1000, 1000), self.draw.randint(-(2**63), 2**63 - 1), 2**63 - 1, -(2**63)])

    # Tasks.

    def tasks(self):
        self.works = [Work(f"t{n}", n) for n in range(self.one([1, 1, 2, 3]))]
        main = Work("main", len(self.works))
        for work in [*self.works, main]:
            names = self.draw.sample(NAMES, self.draw.randint(3, 6))
            data = self.draw.sample(DATA, self.draw.randint(1, 3))
            if work is not main:
                work.parameters = [f"${name}" if self.chance(0.4) else name for name in self.draw.sample(NAMES, self.one([0, 1, 1, 2, 3]))]
            given = {name for name in work.parameters if not name.startswith("$")}
            work.controls = [*given, *(name for name in names if name not in given)]
            work.controls.sort()
            taken = {name[1:] for name in work.parameters if name.startswith("$")}
            work.data += sorted(taken) + [name for name in data if name not in taken]
            work.variables = [name for name in work.controls if name not in given]
            work.variables += [f"${name}" for name in work.data if name not in taken and name != "ret"]
            self.draw.shuffle(work.variables)
        for work in self.works:
            if self.barriers and self.chance(0.5):
                work.meets = self.one(self.barriers)
        texts = [self.task(work) for work in [*self.works, main]]
        self.draw.shuffle(texts)
        for text in texts:
            self.lines += text

    def task(self, work):
        cut = self.draw.randint(1, len(work.variables))
        lines = [f"task {work.name}({', '.join(work.parameters)}) {{"]
        lines += [f"  var {', '.join(part)};" for part in (work.variables[:cut], work.variables[cut:]) if part]
        place = Place(work)
        body = self.main_body(place) if work.name == "main" else self.statements(place, self.draw.randint(1, 4))
        if work.meets is not None:
            for _ in range(self.one([1, 1, 2])):
                body += [f"barrier {work.meets};", *self.statements(place, self.draw.randint(0, 3))]
        if self.chance(0.5):
            body.append(f"$ret = {self.value(place, True)};")
        return lines + ["  " + line for line in body] + ["}"]

    def main_body(self, place):
        """Forks, work of its own, and joins."""
        body = self.statements(place, self.draw.randint(0, 2))
        forked = 0
        for work in self.draw.sample(self.works, self.draw.randint(1, len(self.works))):
            count = self.barriers[work.meets] if work.meets is not None else self.one([1, 2, 2, 3, 4])
            if self.chance(0.06):
                count += self.one([-1, 1])
            if self.chance(0.5) and place.free():
                counter = self.one(place.free())
                inner = place.inner(kept=[counter], loops=1)
                body += [f"{counter} = 0;", f"while {counter} < {count} {{", f"  {self.fork(inner, work)}", f"  {counter} = {counter} + 1;", "}"]
            else:
                for _ in range(count):
                    body.append(self.fork(place, work))
                    if self.chance(0.2):
                        body += self.statements(place, 1)
            forked += count
        body += self.statements(place, self.draw.randint(0, 4))
        if self.chance(0.8) and place.free():
            counter = self.one(place.free())
            lines = [f"join {counter} into ${self.one(place.task.data)};" if self.chance(0.7) else f"join {counter};"]
            lines += self.statements(place.inner(kept=[counter], loops=1), self.one([0, 0, 1]))
            body += [f"{counter} = 1;", f"while {counter} <= {forked} {{", *("  " + line for line in lines), f"  {counter} = {counter} + 1;", "}"]
        return body + self.statements(place, self.draw.randint(0, 3))

    # Statements, as lists of lines.

    def statements(self, place, count):
        return [line for _ in range(count) for line in self.statement(place)]

    def statement(self, place):
        self.budget -= 1
        if self.budget < 0 or place.depth > 4:
            return self.data_statement(place)
        kinds = ["set"] * 8 + ["data"] * 14 + ["locked"] * (10 if len(place.held) < 2 else 1) + ["if"] * 4 + ["settle"] * 2
        kinds += ["loop"] * (4 if place.loops < 2 else 0) + ["join"] + ["fork"] * (2 if place.task.rank and place.loops < 2 else 0)
        if place.held:
            kinds += ["data"] * 20
        if self.barriers and self.chance(0.05):
            kinds += ["barrier"] * 3
        if self.wild:
            kinds += ["wild"]
        return getattr(self, self.one(kinds) + "_statement")(place)

    def set_statement(self, place):
        if not place.free():
            return self.data_statement(place)
        return [f"{self.one(place.free())} = {self.value(place, False)};"]

    def wild_statement(self, place):
        """What a batch seldom means: loops without an end, a fork of its own task, a join of any thread, an index of any size."""
        kind = self.one(["loop", "fork", "join", "lock", "cell"])
        if kind == "loop":
            return [f"while {self.one(['1', 'self', '1 - self'])} {{", *("  " + line for line in self.statements(place.inner(loops=2), 1)), "}"]
        if kind == "fork":
            return [self.fork(place, place.task)] if place.task.name != "main" else ["fork main();"]
        if kind == "lock" and place.free():
            name, index = self.one(self.locks), self.one(place.free())
            if (name, index) not in place.held:
                return [f"lock {name}[{index}];", f"unlock {name}[{index}];"]
        if kind == "cell" and self.feeds:
            return [f"print {self.one(self.feeds)}[{self.value(place, False)}, 0];"]
        return [f"join {self.value(place, False)};"]

    def settle_statement(self, place):
        if not place.free():
            return self.data_statement(place)
        return [f"settle ${self.one(place.task.data)} into {self.one(place.free())};"]

    def barrier_statement(self, place):
        return [f"barrier {self.one(self.barriers)};"]

    def join_statement(self, place):
        thread = self.one([*place.task.controls, str(self.draw.randint(0, 4))]) if self.chance(0.3) else "self - 1"
        if thread == "self - 1" and place.task.name == "main":
            thread = "1"
        into = f" into ${self.one(place.task.data)}" if self.chance(0.7) else ""
        return [f"join {thread}{into};"]

    def fork_statement(self, place):
        lines = []
        work = self.works[self.draw.randrange(place.task.rank)]
        lines.append(self.fork(place, work))
        if " into " in lines[0] and self.chance(0.7):
            lines += self.statements(place, self.one([0, 1, 2]))
            lines.append(f"join {lines[0].split(' into ')[1][:-1]} into ${self.one(place.task.data)};")
        return lines

    def fork(self, place, work):
        arguments = [self.value(place, name.startswith("$"), 1) for name in work.parameters]
        into = f" into {self.one(place.free())}" if place.free() and self.chance(0.5) else ""
        return f"fork {work.name}({', '.join(arguments)}){into};"

    def if_statement(self, place):
        inner = place.inner()
        lines = [f"if {self.value(place, False)} {{", *("  " + line for line in self.statements(inner, self.draw.randint(0, 3)))]
        if self.chance(0.5):
            lines += ["} else {", *("  " + line for line in self.statements(inner, self.draw.randint(0, 3)))]
        return lines + ["}"]

    def loop_statement(self, place):
        free = place.free()
        if not free:
            return self.data_statement(place)
        counter, feed = self.one(free), self.one(self.feeds) if self.feeds and self.chance(0.6) else None
        step, start = self.one([1, 1, 2]), self.one(["0", "0", "self", "1"])
        inner = place.inner(kept=[counter], rows={feed: counter} if feed else {}, loops=1)
        body = self.statements(inner, self.draw.randint(1, 3)) + [f"{counter} = {counter} + {step};"]
        bound = f"rows({feed})" if feed else str(self.draw.randint(0, 4))
        return [f"{counter} = {start};", f"while {counter} < {bound} {{", *("  " + line for line in body), "}"]

    def locked_statement(self, place):
        """Takes a lock, mostly one after those that are held, works under it, and gives it back."""
        arrays = list(self.locks)
        last = max([arrays.index(name) for name, _ in place.held], default=-1)
        later = [name for name in arrays if arrays.index(name) > last]
        name = self.one(later) if later and self.chance(0.9) else self.one(arrays)
        size, lines, index = self.locks[name], [], self.draw.randrange(self.locks[name])
        if self.chance(0.01):
            index = size
        if self.chance(0.5) and place.free():
            variable = self.one(place.free())
            lines.append(f"{variable} = ({self.value(place, False)} % {size} + {size}) % {size};")
            index = variable
        if (name, index) in place.held:
            return self.data_statement(place)
        lock = name, index
        inner = place.inner(held=[*place.held, lock])
        body = self.statements(inner, self.draw.randint(1, 4))
        lines.append(f"lock {name}[{index}];")
        back = f"unlock {name}[{index}];"
        if self.chance(0.06):
            after = self.statements(place.inner(), 1)
            return [*lines, *body, f"if {self.value(inner, False)} {{", *("  " + line for line in body), f"  {back}", "} else {", f"  {back}",
                    *("  " + line for line in after), "}"]
        return [*lines, *body, back]

    # Data statements.

    def data_statement(self, place, depth=0):
        kinds = ["let"] * 4 + ["print"] * 2 + ["when"] * (2 if depth < 3 else 0)
        touched = self.touched(place)
        if touched:
            kinds += ["read"] * 5 + ["write"] * 7
        kind = self.one(kinds)
        variable = self.one(place.task.data)
        if kind == "let":
            return [f"${variable} = {self.value(place, True)};"]
        if kind == "print":
            return [f"print {', '.join(self.value(place, True) for _ in range(self.one([1, 1, 2, 3])))};"]
        if kind == "read":
            return [f"read {self.one(touched)} into ${variable};"]
        if kind == "write":
            return [f"write {self.one(touched)} = {self.value(place, True)};"]
        lines = [f"when {self.value(place, True)} {{"]
        for _ in range(self.draw.randint(0, 2)):
            lines += ["  " + line for line in self.data_statement(place, depth + 1)]
        if self.chance(0.6):
            lines.append("} else {")
            for _ in range(self.draw.randint(0, 2)):
                lines += ["  " + line for line in self.data_statement(place, depth + 1)]
        return lines + ["}"]

    def touched(self, place):
        """The record cells that may be touched."""
        return [f"{record}[{index}]" for record, by in self.records.items() for name, index in place.held if name == by]

    # Expressions.

    def value(self, place, data, depth=0):
        if depth >= 3 or self.chance(0.45):
            return self.leaf(place, data, depth)
        if self.chance(0.12):
            return f"{self.one(['-', 'not ', '- -', 'not -'])}{self.leaf(place, data, depth)}"
        left, right = self.value(place, data, depth + 1), self.value(place, data, depth + 1)
        made = f"{left} {self.one(BINARY)} {right}"
        return f"({made})" if depth or self.chance(0.1) else made

    def leaf(self, place, data, depth):
        kinds = ["number"] * 5 + ["control"] * 5 + ["self"] + (["data"] * 8 if data else []) + ["cell"] * (3 if self.feeds else 0)
        kind = self.one(kinds)
        if kind == "number":
            return self.one(LARGE) if self.chance(0.12) else str(self.draw.randint(0, 12))
        if kind == "control":
            return self.one(place.task.controls)
        if kind == "data":
            return f"${self.one(place.task.data)}"
        if kind == "self":
            return "self"
        feed = self.one(place.rows) if place.rows and self.chance(0.7) else self.one(self.feeds)
        width, count = self.feeds[feed]
        if self.chance(0.2):
            return f"rows({feed})"
        if self.chance(0.02):
            return f"{feed}[{self.value(place, False, depth + 1)}, {self.draw.randint(0, width)}]"
        column = self.draw.randrange(width)
        if feed in place.rows:
            return f"{feed}[{place.rows[feed]}, {column}]"
        if count == 0:
            return f"rows({feed})"
        if self.chance(0.3):
            return f"{feed}[({self.value(place, False, depth + 1)} % {count} + {count}) % {count}, {column}]"
        return f"{feed}[{self.draw.randrange(count)}, {column}]"


def written(draw, rows):
    """The bytes of a file of rows, mostly in the plain form."""
    end = draw.choice(["\n"] * 6 + ["\r\n", "\r"])
    quoted = draw.random() < 0.1

    def shown(number):
        text = str(number)
        if draw.random() < 0.02:
            text = text.replace("-", "-00") if number < 0 else "00" + text
        return f'"{text}"' if quoted and draw.random() < 0.5 else text

    text = end.join(",".join(shown(number) for number in row) for row in rows)
    if rows and draw.random() < 0.9:
        text += end
    if draw.random() < 0.05:
        text = end + text
    return (b"\xef\xbb\xbf" if draw.random() < 0.04 else b"") + text.encode()


def pieces(text):
    """A text as its tokens and what stands between them."""
    return [match.group() for match in TOKEN.finditer(text)]


def loosened(draw, text):
    """The same tokens with other spaces, lines and comments between."""
    found = []
    for piece in pieces(text):
        if not piece.isspace():
            found.append(piece)
            if draw.random() < 0.03:
                found.append(draw.choice(["\n", "  ", "\t", " # note; { \u00e9\n", "\r\n", "#\n"]))
        elif draw.random() < 0.1:
            found.append(draw.choice([" ", "\n", "\n\n", "\t ", "\r\n", " # a word\n"]))
        else:
            found.append(piece)
    return "".join(found)


def faults(draw, subthreads):
    """A list of faults: mostly of positions that are there, and some of later attempts."""
    rows, named = [], set()
    places = [draw.randrange(subthreads) for _ in range(draw.choice([1, 2, 4, 8]))]
    for _ in range(draw.choice([0, 1, 2, 4, 8, 16, 30])):
        place = draw.choice(places) if draw.random() < 0.5 else draw.randrange(subthreads + 2)
        tried = draw.choice([0, 0, 0, 0, 1, 1, 2, 3])
        if (place, tried) in named:
            continue
        named.add((place, tried))
        delay = draw.choice([0, 1, 2, 3, draw.randint(0, 12), draw.randint(0, 64), 64])
        rows.append([place, tried, delay, draw.choice([1, -1, draw.randint(1, 2**63 - 1), -(2**63), draw.randint(-99, -1)])])
    return written(draw, rows)


def changed_text(draw, text):
    """A program that is changed at one place, in its bytes, its tokens or its lines."""
    kind = draw.choice(["byte", "token", "token", "token", "token", "line", "line", "line", "deep", "head"])
    if kind == "byte":
        at = draw.randrange(len(text))
        byte = draw.choice([b"", b";", b"$", b'"', b"!", b"#", b"{", b"}", b"9", b"x", b" ", b".", b"\x80", b"\x00", b"99999999999999999999"])
        data = text.encode()
        return data[:at] + byte + data[at + draw.choice([0, 1]):]
    if kind == "line":
        lines = text.split("\n")
        at, other = draw.randrange(len(lines)), draw.randrange(len(lines))
        match draw.choice(["drop", "double", "swap", "move"]):
            case "drop":
                del lines[at]
            case "double":
                lines.insert(other, lines[at])
            case "swap":
                lines[at], lines[other] = lines[other], lines[at]
            case "move":
                lines.insert(other, lines.pop(at))
        return "\n".join(lines).encode()
    if kind == "deep":
        return deep_text(draw, text)
    parts = pieces(text)
    tokens = [at for at, piece in enumerate(parts) if not piece.isspace() and not piece.startswith("#")]
    if kind == "head":
        numbers = [at for at in tokens if parts[at].isdigit()]
        if numbers:
            at = draw.choice(numbers[:12])
            parts[at] = draw.choice(["0", "1", "64", "65", "257", "4096", "4097", "65536", "65537", "9223372036854775808", "007"])
        return "".join(parts).encode()
    at, other = draw.choice(tokens), draw.choice(tokens)
    match draw.choice(["drop", "double", "swap", "put", "turn", "odd"]):
        case "drop":
            parts[at] = " "
        case "double":
            parts[at] += " " + parts[at]
        case "swap":
            parts[at], parts[other] = parts[other], parts[at]
        case "put":
            parts[at] = parts[other]
        case "turn":
            parts[at] = parts[at][1:] if parts[at].startswith("$") else "$" + parts[at]
        case "odd":
            parts[at] = draw.choice(["ret", "$ret", "main", "self", "0", "else", "var", "while", "==", "-", "not", "(", "r0", "f0", "m0", "t0", "$q", "q"])
    return "".join(parts).encode()


def deep_text(draw, text):
    """A program in which an expression or a block has about as many levels as may be."""
    lines = text.split("\n")
    at = draw.choice([n for n, line in enumerate(lines) if line.endswith("{") or n == 0])
    count = draw.randint(58, 66)
    match draw.choice(["parentheses", "unary", "blocks", "both"]):
        case "parentheses":
            deep = f"$ret = {'(' * count}1{')' * count};"
        case "unary":
            deep = f"$ret = {draw.choice(['not ', '- ']) * count}1;"
        case "blocks":
            deep = "if 1 { " * count + "} " * count
        case "both":
            half = count // 2
            deep = "when 1 { " * half + f"$ret = {'- (' * (half // 2)}1{')' * (half // 2)};" + "} " * half
    lines.insert(at + 1, deep)
    return "\n".join(lines).encode()


def changed_rows(draw, data):
    """A file of rows that is changed at one place."""
    lines = data.split(b"\n")
    at = draw.randrange(len(lines))
    odd = [b"+5", b" 5", b"", b"-", b"0x5", b"-0", b"007", b"9223372036854775808", b"-9223372036854775809", b"-9223372036854775808", b'"1"', b'"1"2',
           b'1"2', b"\xff", b'"', b"65", b"4294967296", b"-1", b"0", b"1.5", b"\xef\xbb\xbf1", b'"1,2"', b'"\n"']
    match draw.choice(["field", "field", "field", "drop", "double", "more", "less", "empty", "odd"]):
        case "field":
            parts = lines[at].split(b",")
            parts[draw.randrange(len(parts))] = draw.choice(odd)
            lines[at] = b",".join(parts)
        case "drop":
            del lines[at]
        case "double":
            lines.insert(at, lines[at])
        case "more":
            lines[at] += b"," + draw.choice(odd)
        case "less":
            lines[at] = b",".join(lines[at].split(b",")[1:])
        case "empty":
            lines.insert(at, draw.choice([b"", b" ", b"\r", b",", b'""']))
        case "odd":
            whole = b"\n".join(lines)
            at = draw.randrange(len(whole) + 1)
            return whole[:at] + draw.choice([b'"', b"\r", b"\n", b",", b"-", b"5", b" ", b";"]) + whole[at:]
    return b"\n".join(lines)


def changed_lines(draw, data):
    """A trace or a log that is changed at one place, or cut."""
    lines = data.split(b"\n")
    at, other = draw.randrange(len(lines)), draw.randrange(len(lines))
    match draw.choice(["drop", "double", "swap", "cut", "move", "number", "number", "number", "bytes"]):
        case "drop":
            del lines[at]
        case "double":
            lines.insert(at, lines[at])
        case "swap":
            lines[at], lines[other] = lines[other], lines[at]
        case "move":
            lines.insert(min(at + draw.randint(1, 4), len(lines) - 1), lines.pop(at))
        case "cut":
            return b"".join(line + b"\n" for line in lines[:at])
        case "bytes":
            return data[:draw.randrange(len(data) + 1)]
        case "number":
            parts = lines[at].split(b" ")
            numbers = [n for n, part in enumerate(parts) if part.lstrip(b"-").isdigit()]
            if numbers:
                n = draw.choice(numbers)
                parts[n] = draw.choice([b"0", b"1", b"-1", b"-0", b"01", b"4294967296", b"9223372036854775808", str(int(parts[n]) + draw.choice([-1, 1, 2])).encode()])
                lines[at] = b" ".join(parts)
    return b"\n".join(lines)
