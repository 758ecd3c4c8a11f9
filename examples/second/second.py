#!/usr/bin/env python3
"""A second `gprs`, for its words `run`, `one`, `check`, `ckpt`, `log`, `resume` and `audit`: written from docs/LANGUAGE.md,
docs/ORDER.md and docs/FORMATS.md alone. It is slow, runs nothing in parallel, and restarts nothing: which restarts there are it reckons.

    python3 examples/second/second.py run PROGRAM --faults FILE
"""

import re
import sys
from dataclasses import dataclass
from pathlib import Path

sys.path.insert(0, str(Path(__file__).resolve().parents[1]))

import audit
import rows
from batch import Batch
from reckoning import dependents, restarts, rolled_back, text
from rules import check
from tree import Feed, Record, Refused, program

WHOLE_CREWS = ("one", "wave", "board", "steal", "pipe")
OPTIONS = {
    "--faults": "file",
    "--workers": (1, 64),
    "--crew": WHOLE_CREWS,
    "--turns": (1, 10_000_000),
    "--subthreads": (1, 200_000),
    "--every": (1, 100_000),
    "--trace": None,
}
COMMANDS = {
    "run": (1, "--faults --workers --crew --turns --subthreads --trace"),
    "one": (1, "--turns --subthreads"),
    "check": (1, ""),
    "ckpt": (1, "--every --faults --workers --crew --turns --subthreads"),
    "log": (1, "--faults --workers --crew --turns --subthreads"),
    "resume": (2, "--turns --subthreads"),
    "audit": (2, "--faults --turns --subthreads"),
}
CREWS = {"run": WHOLE_CREWS, "ckpt": ("one", "wave", "board", "steal"), "log": ("one", "wave", "board")}


@dataclass(frozen=True)
class Answer:
    """What a call writes and how it ends. Where it writes a trace, this is the judge of a trace in place of the bytes."""

    status: int
    out: bytes = b""
    err: object = b""


class Ends(Exception):
    """The call ends with this status and this line on standard error."""

    def __init__(self, status, line):
        super().__init__(status, line)
        self.answer = Answer(status, b"", f"gprs: {line}\n".encode())


USAGE = Ends(2, "usage: run | one | check | soak")


def words_of(words):
    """The command, the names of files, and the options of a call."""
    if not words or words[0] not in COMMANDS:
        raise USAGE
    command, (count, allowed) = words[0], COMMANDS[words[0]]
    names, options, rest = [], {}, list(words[1:])
    while rest:
        word = rest.pop(0)
        if not is_option(word):
            names.append(word)
            continue
        if word == "--":
            names += rest
            break
        option, equals, value = word.partition("=")
        if option not in allowed.split() or option in options:
            raise USAGE
        if OPTIONS[option] is None:
            if equals:
                raise USAGE
            options[option] = True
            continue
        if not equals:
            if not rest or is_option(rest[0]):
                raise USAGE
            value = rest.pop(0)
        options[option] = option_value(command, option, value)
    if len(names) != count:
        raise USAGE
    return command, names, options


def is_option(word):
    """Whether a word is an option, or the one that ends them."""
    return word.startswith("-") and word != "-"


def option_value(command, option, value):
    kind = OPTIONS[option]
    if kind == "file":
        return value
    if option == "--crew":
        if value not in CREWS[command]:
            raise USAGE
        return value
    if not re.fullmatch("[0-9]+", value) or not kind[0] <= int(value) <= kind[1]:
        raise USAGE
    return int(value)


class Second:
    """Answers calls in a folder. `most_steps` limits a run, which then raises `TooLong`. Runs are kept for later calls."""

    def __init__(self, folder, most_steps=10_000_000):
        self.folder = Path(folder)
        self.most_steps = most_steps
        self.trees, self.kept = {}, {}

    def bytes_of(self, name):
        try:
            return (self.folder / name).read_bytes()
        except (OSError, ValueError):
            raise Ends(7, f"read fault {name}") from None

    def read(self, name, reader, *more):
        """What a reader makes of a file; its refusal is that of the call."""
        data = self.bytes_of(name)
        try:
            return reader(data, *more)
        except rows.RowRefused as refused:
            raise Ends(4, f"input {name} kind {refused.kind} row {refused.row}") from None

    def tree(self, name):
        source = self.bytes_of(name)
        if source not in self.trees:
            try:
                made = program(source)
                check(made)
            except Refused as refused:
                raise Ends(3, str(refused)) from None
            self.trees[source] = made
        return source, self.trees[source]

    def files(self, made):
        """The rows of the files that a program names, in declared order."""
        found, cells = {}, 0
        for head in made.heads:
            if isinstance(head, Record) and head.file is not None:
                found[head.name] = self.read(head.file, rows.cells, head.size)
            elif isinstance(head, Feed):
                found[head.name] = self.read(head.file, rows.feed, head.fields, cells)
                cells += head.fields * len(found[head.name])
        return found

    def batch(self, source, made, files, options, log=()):
        limits = options.get("--turns", 1_000_000), options.get("--subthreads", 100_000)
        key = source, repr(files), *limits, repr(log)
        if key not in self.kept:
            self.kept[key] = Batch(made, files, *limits, self.most_steps, log)
        return self.kept[key]

    def text(self, batch, printed, made, listed):
        lines = text(printed, batch.end_line(), batch.code.records, batch.subthreads, made, listed)
        return "".join(f"{line}\n" for line in lines).encode()

    def status(self, batch):
        return {"finished": 0, "spent": 6}.get(batch.end.how, 5)

    def answer(self, words):
        """What this call comes to."""
        try:
            return self.call(*words_of(words))
        except Ends as ends:
            return ends.answer

    def call(self, command, names, options):
        source, made = self.tree(names[0])
        if command == "check":
            return Answer(0, b"ok\n")
        files = self.files(made)
        listed = self.read(options["--faults"], rows.faults) if "--faults" in options else []
        if command == "resume":
            return self.resume(source, made, files, names[1], options)
        trace = self.read(names[1], rows.trace) if command == "audit" else None
        batch = self.batch(source, made, files, options)
        if command == "audit":
            line, status = audit.verdict(batch.subthreads, listed, trace)
            return Answer(status, f"{line}\n".encode())
        redone = rolled_back(options.get("--every", 64)) if command == "ckpt" else dependents
        out = self.text(batch, batch.printed, restarts(batch.subthreads, listed, redone), listed)
        err = b""
        if command == "log":
            err = "".join(f"{row}\n" for row in batch.log).encode()
        elif "--trace" in options:
            err = TraceOf(batch.subthreads, listed)
        return Answer(self.status(batch), out, err)

    def resume(self, source, made, files, name, options):
        kept, bad = self.read(name, rows.log)
        try:
            batch = self.batch(source, made, files, options, kept)
        except rows.RowRefused as refused:
            raise Ends(4, f"input {name} kind {refused.kind} row {refused.row}") from None
        if bad is not None:
            raise Ends(4, f"input {name} kind 7 row {bad}")
        printed = batch.printed[batch.lengths[len(kept) - 1]:] if kept else batch.printed
        out = self.text(batch, printed, [], [])
        return Answer(self.status(batch), out[len("output\n"):] if kept else out)


class TraceOf:
    """The traces that a run may write."""

    def __init__(self, subthreads, faults):
        self.subthreads = subthreads
        self.faults = faults

    def verdict(self, data):
        """`lawful` for the trace of a whole run, and else what is wrong with it."""
        try:
            return audit.verdict(self.subthreads, self.faults, rows.trace(data))[0]
        except rows.RowRefused as refused:
            return f"no row of a trace: {refused.row}"


def main():
    answer = Second(".").answer(sys.argv[1:])
    sys.stdout.buffer.write(answer.out)
    sys.stdout.flush()
    if isinstance(answer.err, bytes):
        sys.stderr.buffer.write(answer.err)
    return answer.status


if __name__ == "__main__":
    sys.exit(main())
