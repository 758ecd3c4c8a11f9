#!/usr/bin/env python3
"""Compares the built programs with the second reading of the documents, over random programs:

    examples/second/compare.py N SEED [--programs FOLDER] [--cases FOLDER] [--plant KIND]

N programs are drawn from SEED, each with its files and faults, and several calls of each are made by `gprs` and by `gprs_twice`, which are
looked for in FOLDER, else where the repository has them built or released. Status, standard output and standard error are compared byte for
byte with what second.py answers; a trace is judged. A difference is told with the words of its call, and written as small as it can be made
to a folder of its own in the folder of `--cases`. The last line is `N programs, M calls, D differ`, and the status is 1 where D is not 0.
`--plant` makes one rule of the second reading wrong (plants.py), so that differences have to be found.
"""

import argparse
import random
import shutil
import subprocess
import sys
import tempfile
from dataclasses import dataclass, replace
from pathlib import Path

sys.path.insert(0, str(Path(__file__).resolve().parents[1]))

import plants
import programs
from batch import TooLong
from second import CREWS, Answer, Second, TraceOf

TOP = Path(__file__).resolve().parents[2]
MOST_STEPS = 6_000
MOST_SMALLER = 4
MOST_TRIES = 250
SECONDS = 60


@dataclass(frozen=True)
class Case:
    """A call: the program that is called, its words, and the files of the folder in which that is done."""

    program: str
    words: tuple
    files: tuple

    def write(self, folder):
        for name, data in self.files:
            (folder / name).write_bytes(data)


def built(name):
    """Where the repository has a program, or None."""
    places = [TOP / "crates" / name / "out" / name, TOP / "release" / name]
    return next((str(place) for place in places if place.is_file()), None)


def called(path, words, folder):
    """What a program answers to a call."""
    try:
        done = subprocess.run([path, *words], cwd=folder, stdin=subprocess.DEVNULL, capture_output=True, timeout=SECONDS)
    except subprocess.TimeoutExpired:
        return Answer(-1, b"", b"no end after %d seconds\n" % SECONDS)
    return Answer(done.returncode, done.stdout, done.stderr)


def is_same(expected, got):
    """Whether a call answered what it should. A trace has to be that of a whole lawful run."""
    if isinstance(expected.err, TraceOf):
        return (expected.status, expected.out) == (got.status, got.out) and expected.err.verdict(got.err) == "lawful"
    return expected == got


class Comparison:
    """All calls so far."""

    def __init__(self, paths, seed, cases):
        self.paths = paths
        self.seed = seed
        self.cases = Path(cases)
        self.calls = self.differ = 0
        self.kinds = {}

    def look(self, folder, second, program, words, number):
        """Makes a call in the folder, both ways. Answers what the program answered, or None where the call would be too long."""
        if program not in self.paths:
            return None
        try:
            expected = second.answer(words)
        except TooLong:
            return None
        got = called(self.paths[program], words, folder)
        self.calls += 1
        kind = f"{words[0] if words else ''} {expected.status}"
        self.kinds[kind] = self.kinds.get(kind, 0) + 1
        if not is_same(expected, got):
            self.differ += 1
            files = tuple(sorted((path.name, path.read_bytes()) for path in folder.iterdir()))
            self.tell(Case(program, tuple(words), files), number)
        return got

    def tell(self, case, number):
        """Tells a difference, and writes its case."""
        place = self.cases / f"{self.seed}-{number}-{self.differ}"
        if self.differ <= MOST_SMALLER:
            case = self.smaller(case)
        shutil.rmtree(place, ignore_errors=True)
        place.mkdir(parents=True)
        case.write(place)
        answers = self.answers(case, place)
        for name, answer in zip(("second", "program"), answers):
            (place / f"{name}.out").write_bytes(answer.out)
            err = answer.err
            if isinstance(err, TraceOf):
                err = f"a trace, which is judged: {err.verdict(answers[1].err)}\n".encode()
            (place / f"{name}.err").write_bytes(err + f"status {answer.status}\n".encode())
        (place / "words").write_text(" ".join([case.program, *case.words]) + "\n")
        print(f"seed {self.seed}, program {number}: {case.program} {' '.join(case.words)} differs: {place}", flush=True)

    def answers(self, case, folder):
        return Second(folder, MOST_STEPS).answer(case.words), called(self.paths[case.program], case.words, folder)

    def differs(self, case):
        """Whether the two differ over a case."""
        with tempfile.TemporaryDirectory() as name:
            case.write(Path(name))
            try:
                expected, got = self.answers(case, name)
            except TooLong:
                return False
            return not is_same(expected, got)

    def smaller(self, case):
        """A case from which nothing can be left out, as far as the tries go."""
        tries = MOST_TRIES

        def without(cut):
            """Cuts something off, if the two differ still."""
            nonlocal case, tries
            other = cut(case)
            if other is None or other == case or tries == 0:
                return False
            tries -= 1
            if not self.differs(other):
                return False
            case = other
            return True

        before = None
        while case != before and tries:
            before = case
            for name, _ in case.files:
                if name not in case.words:
                    without(lambda this: replace(this, files=tuple(item for item in this.files if item[0] != name)))
            for at in reversed(range(1, len(case.words))):
                if case.words[at].startswith("--"):
                    without(lambda this: without_option(this, at))
            for name, data in sorted(case.files, key=lambda item: -len(item[1])):
                size = data.count(b"\n") + 1
                while size:
                    at = 0
                    while at < len(dict(case.files)[name].split(b"\n")):
                        if not any(without(lambda this: without_lines(this, name, at, size, cut)) for cut in (cut_lines, cut_block, cut_ends)):
                            at += size
                    size //= 2
        return case


def without_option(case, at):
    """A call without one of its options, and its value."""
    count = 1 if "=" in case.words[at] or case.words[at] == "--trace" else 2
    return replace(case, words=case.words[:at] + case.words[at + count:])


def without_lines(case, name, at, size, cut):
    """A case without some of the lines of a file, or None."""
    lines = cut(dict(case.files)[name].split(b"\n"), at, size)
    if lines is None:
        return None
    return replace(case, files=tuple((other, b"\n".join(lines) if other == name else data) for other, data in case.files))


def levels(lines):
    return sum(line.count(b"{") - line.count(b"}") for line in lines)


def cut_lines(lines, at, size):
    """Without so many lines, which open as many blocks as they close."""
    return None if levels(lines[at:at + size]) else lines[:at] + lines[at + size:]


def end_of_block(lines, at, size):
    """The line that ends the block which this line opens, where one line is looked at."""
    if size == 1 and levels([lines[at]]) > 0:
        return next((end for end in range(at, len(lines)) if levels(lines[at:end + 1]) <= 0), None)
    return None


def cut_block(lines, at, size):
    end = end_of_block(lines, at, size)
    return None if end is None else lines[:at] + lines[end + 1:]


def cut_ends(lines, at, size):
    """Without the first and the last line of a block."""
    end = end_of_block(lines, at, size)
    return None if end is None else lines[:at] + lines[at + 1:end] + lines[end + 1:]


def calls_of(comparison, draw, number, folder):
    """Draws a program, and makes calls of it."""
    made = programs.Maker(draw)
    for name, data in made.files.items():
        (folder / name).write_bytes(data)
    text = made.text.encode()
    (folder / "p.gp").write_bytes(text)
    second = Second(folder, MOST_STEPS)

    def look(*words, program="gprs"):
        return comparison.look(folder, second, program, [str(word) for word in words], number)

    def put(name, data):
        (folder / name).write_bytes(data)
        return name

    def some(option, value, part=0.5):
        """An option, in one of its two forms, or none."""
        if draw.random() >= part:
            return []
        return [f"{option}={value}"] if draw.random() < 0.2 else [option, value]

    def crew(command):
        return some("--crew", draw.choice(CREWS[command]), 0.8) + some("--workers", draw.choice([1, 2, 3, 4, 8, 64]), 0.3)

    limits = []
    if draw.random() < 0.25:
        limits = some("--turns", draw.choice([1, 2, 3, 5, 20, 100])) + some("--subthreads", draw.choice([1, 2, 5, 10, 20, 50, 100, 500]))
    if look("one", "p.gp", *limits) is None:
        limits = ["--turns", draw.choice([3, 20, 60]), "--subthreads", draw.choice([30, 100, 250])]
        if look("one", "p.gp", *limits) is None:
            return
    subthreads = len(next(iter(second.kept.values())).subthreads)
    struck = ["--faults", put("faults.csv", programs.faults(draw, subthreads))]

    look("run", "p.gp", *struck, *crew("run"), *limits)
    traced = look("run", "p.gp", *struck, *crew("run"), "--trace", *limits)
    if traced and len(traced.err) < 200_000:
        put("trace.txt", traced.err)
        look("audit", "p.gp", "trace.txt", *struck, *limits)
        for _ in range(2):
            put("trace.txt", programs.changed_lines(draw, traced.err))
            look("audit", "p.gp", "trace.txt", *struck, *limits)
    look("ckpt", "p.gp", *struck, *crew("ckpt"), *some("--every", draw.choice([1, 2, 3, 4, 7, 16, 64, 1000]), 0.9), *limits)
    logged = look("log", "p.gp", *struck, *crew("log"), *limits)
    if logged and len(logged.err) < 200_000:
        put("cut.log", logged.err[:draw.randint(0, len(logged.err))])
        look("resume", "p.gp", "cut.log", *limits)
        put("cut.log", programs.changed_lines(draw, logged.err))
        look("resume", "p.gp", "cut.log", *limits)
    command = draw.choice(["run", "one", "log"])
    look(command, "p.gp", *(struck + crew(command) if command != "one" else []), *limits, program="gprs_twice")

    limits = limits or ["--turns", 50, "--subthreads", 200]
    for _ in range(2):
        put("q.gp", programs.changed_text(draw, made.text))
        answer = look("check", "q.gp")
        if answer and answer.status == 0 and draw.random() < 0.5:
            look("one", "q.gp", *limits)
    if draw.random() < 0.5:
        name = draw.choice([*made.files, "faults.csv"])
        data = (folder / name).read_bytes()
        if draw.random() < 0.04:
            (folder / name).unlink()
        else:
            put(name, programs.changed_rows(draw, data))
        look("run", "p.gp", *struck, *limits)
    if draw.random() < 0.1:
        look(*changed_words(draw, ["run", "p.gp", *struck, *crew("run"), *limits]))


def changed_words(draw, words):
    """Words that are changed at one place."""
    words, at = list(words), draw.randrange(len(words))
    odd = ["--turns", "--trace", "--crew", "one", "--workers=65", "--workers", "0", "--help", "-h", "-", "--", "--every", "x", "", "--turns=0", "--faults", "p.gp", "check"]
    match draw.choice(["drop", "double", "put", "more"]):
        case "drop":
            del words[at]
        case "double":
            words.insert(at, words[at])
        case "put":
            words[at] = draw.choice(odd)
        case "more":
            words.insert(at, draw.choice(odd))
    return words


def main():
    parser = argparse.ArgumentParser(description="Compares the built programs with the second reading of the documents.")
    parser.add_argument("count", metavar="N", type=int)
    parser.add_argument("seed", metavar="SEED", type=int)
    parser.add_argument("--programs", metavar="FOLDER", help="where `gprs` and `gprs_twice` are")
    parser.add_argument("--cases", metavar="FOLDER", default=str(Path(tempfile.gettempdir()) / "gprs_second"), help="where differences are written")
    parser.add_argument("--plant", metavar="KIND", choices=sorted(plants.KINDS), help="a rule that is made wrong")
    parser.add_argument("--from", metavar="NUMBER", dest="first", type=int, default=0, help="the number of the first program")
    parser.add_argument("--kinds", action="store_true", help="tells how many calls of each command ended with each status")
    options = parser.parse_args()
    if options.plant:
        plants.KINDS[options.plant]()
    paths = {}
    for name in ("gprs", "gprs_twice"):
        path = str(Path(options.programs, name).resolve()) if options.programs else built(name)
        if path and Path(path).is_file():
            paths[name] = path
    if "gprs" not in paths:
        sys.exit("compare.py: there is no built gprs; --programs names its folder")
    if "gprs_twice" not in paths:
        print("gprs_twice is not there, and is passed over")
    comparison = Comparison(paths, options.seed, options.cases)
    for number in range(options.first, options.first + options.count):
        with tempfile.TemporaryDirectory() as name:
            calls_of(comparison, random.Random(f"{options.seed} {number}"), number, Path(name))
    for kind, count in sorted(comparison.kinds.items()) if options.kinds else []:
        print(f"{kind}: {count}")
    print(f"{options.count} programs, {comparison.calls} calls, {comparison.differ} differ")
    sys.exit(1 if comparison.differ else 0)


if __name__ == "__main__":
    main()
