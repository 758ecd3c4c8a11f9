"""Files of rows of numbers, by "Files that a batch names" in docs/FORMATS.md, and the logs and traces of the same page."""

import re

MOST_BYTES = 33_554_432
MOST_FEED_CELLS = 1_000_000
MOST_FAULTS = 1_000
LEAST, GREATEST = -(2**63), 2**63 - 1
NUMBER = re.compile(rb"-?[0-9]+")


class RowRefused(Exception):
    """A row is refused, by its kind and its number."""

    def __init__(self, kind, row):
        super().__init__(kind, row)
        self.kind, self.row = kind, row


def fields(data):
    """The rows of a file, as lists of fields: what the crate `csv` takes for a row, without a header row."""
    if len(data) > MOST_BYTES:
        raise RowRefused(6, 0)
    if data.startswith(b"\xef\xbb\xbf"):
        data = data[3:]
    if b'"' not in data:
        return [line.split(b",") for line in data.replace(b"\r", b"\n").split(b"\n") if line]
    return quoted_fields(data)


def quoted_fields(data):
    """The same where there are quotes: a quote at the front of a field opens it, and within that two are one."""
    found, row, this, state = [], None, bytearray(), "row"
    for byte in data:
        char = bytes([byte])
        if state == "quoted":
            if char == b'"':
                state = "quote"
            else:
                this += char
        elif state == "quote" and char == b'"':
            this += char
            state = "quoted"
        elif char in (b"\r", b"\n"):
            if state != "row":
                found.append(row + [bytes(this)])
            row, this, state = None, bytearray(), "row"
        elif char == b",":
            row = (row or []) + [bytes(this)]
            this, state = bytearray(), "field"
        elif char == b'"' and state in ("row", "field"):
            row = row or []
            state = "quoted"
        else:
            row = row or []
            this += char
            state = "inside"
    if state != "row":
        found.append(row + [bytes(this)])
    return found


def number(text):
    """The number of a field, or None."""
    if NUMBER.fullmatch(text) is None:
        return None
    value = int(text)
    return value if LEAST <= value <= GREATEST else None


def numbers(data, ranges, name_of=None, most=None):
    """The rows of a file whose fields have these ranges. `name_of` gives what no two rows have together, `most` is the most rows."""
    found, names = [], set()
    for place, row in enumerate(fields(data), 1):
        if len(row) != len(ranges):
            raise RowRefused(1, place)
        values = [number(text) for text in row]
        if None in values:
            raise RowRefused(2, place)
        if not all(within(value) for within, value in zip(ranges, values)):
            raise RowRefused(3, place)
        if name_of is not None:
            if name_of(values) in names:
                raise RowRefused(4, place)
            names.add(name_of(values))
        if most is not None and place > most:
            raise RowRefused(5, place)
        found.append(values)
    return found


def cells(data, size):
    """The first values of a record."""
    values = [0] * size
    for index, value in numbers(data, [lambda index: 0 <= index < size, lambda _: True], lambda row: row[0]):
        values[index] = value
    return values


def feed(data, width, cells_before):
    """The rows of a feed; all feeds together have a limit."""
    most = (MOST_FEED_CELLS - cells_before) // width
    return numbers(data, [lambda _: True] * width, None, most)


def faults(data):
    """A list of faults."""
    ranges = [lambda n: 0 <= n < 2**32, lambda n: 0 <= n < 2**32, lambda n: 0 <= n <= 64, lambda n: n != 0]
    return numbers(data, ranges, lambda row: tuple(row[:2]), MOST_FAULTS)


WHOLE = r"(?:0|[1-9][0-9]*)"
SIGNED = rf"(?:0|-?[1-9][0-9]*)"
LOG_ROW = re.compile(rf"({SIGNED}) ({SIGNED}) ;((?: {SIGNED})*) ;((?: {SIGNED})*) ;((?: {SIGNED} {SIGNED})*)")
TRACE_ROW = re.compile(
    rf"(issue) ({WHOLE})|(post) ({WHOLE}) ({WHOLE})|(take) ({WHOLE}) ({WHOLE}) (applied|stale)"
    rf"|(restart) ({WHOLE}) ({WHOLE}) ({WHOLE}) redo((?: {WHOLE})*)|(retire) ({WHOLE})"
)


def log_row(line):
    """The position, the bytes and the three groups of a row of a log, or None where it is not of the form."""
    match = LOG_ROW.fullmatch(line.decode("latin-1"))
    if match is None:
        return None
    position, length = int(match[1]), int(match[2])
    groups = [[int(text) for text in match[group].split()] for group in (3, 4, 5)]
    if not all(LEAST <= n <= GREATEST for group in ([position, length], *groups) for n in group):
        return None
    return position, length, *groups


def log(data):
    """The rows of a log up to the first that is not of the form, and the number of that one or None."""
    if len(data) > MOST_BYTES:
        raise RowRefused(6, 0)
    found = []
    for place, line in enumerate(data.split(b"\n")[:-1], 1):
        row = log_row(line)
        if row is None:
            return found, place
        found.append(row)
    return found, None


def trace_row(line):
    """The row of a trace, its word first, or None where it is not of the form."""
    match = TRACE_ROW.fullmatch(line.decode("latin-1"))
    if match is None:
        return None
    word, *parts = [part for part in match.groups() if part is not None]
    if word == "restart":
        row = word, *map(int, parts[:3]), [int(text) for text in parts[3].split()]
        values = [*row[1:4], *row[4]]
    elif word == "take":
        row = word, int(parts[0]), int(parts[1]), parts[2]
        values = row[1:3]
    else:
        row = word, *map(int, parts)
        values = row[1:]
    return row if all(value < 2**32 for value in values) else None


def trace(data):
    """The rows of a trace."""
    if len(data) > MOST_BYTES:
        raise RowRefused(6, 0)
    lines = data.split(b"\n")
    found = []
    for place, line in enumerate(lines[:-1], 1):
        row = trace_row(line)
        if row is None:
            raise RowRefused(9, place)
        found.append(row)
    if lines[-1]:
        raise RowRefused(9, len(lines))
    return found
