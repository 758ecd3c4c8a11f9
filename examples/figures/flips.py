#!/usr/bin/env python3
"""flips.py [--count N] [--seed N] [--memory] [--folder FOLDER] PROGRAM WORD ..: what becomes of runs in which one bit turns.

Starts the program with these words again and again. Each time it is stopped once, at a random moment, one random bit of a register of one of its running
threads is turned: of a general register, the stack pointer, the program counter or the flags (with --memory: of a word of its heap, also of one that is 0),
and it goes on. Prints a row that says how many runs ended in which way:

    same    the right bytes, status 0, and nothing told
    put     the right bytes, status 0, and standard error tells of walks that differed: a difference was found and put right
    told    another status, and a part of the right bytes from their beginning
    crash   a signal
    hang    no end within twenty times the time of a run
    wrong   status 0 with other bytes, or bytes that are no part of the right ones: a silent corruption

Runs whose thread had ended before it could be stopped are not counted: it goes on until N bits were turned. It uses ptrace, on x86-64 alone. A single
bit that turns in a register is how soft errors are modelled in the literature (Reis et al., SWIFT, CGO 2005).
"""
import argparse
import collections
import ctypes
import os
import pathlib
import random
import subprocess
import sys
import time

ATTACH, DETACH, GETREGS, SETREGS = 16, 17, 12, 13
ALL_THREADS = 0x40000000
# the place of each register in what ptrace gives, those that are turned, and of the flags the bits that arithmetic and jumps go by
PLACES = "r15 r14 r13 r12 rbp rbx r11 r10 r9 r8 rax rcx rdx rsi rdi orig_rax rip cs eflags rsp ss fs_base gs_base ds es fs gs".split()
TURNED = [*PLACES[:15], "rsp", "rip", "eflags"]
FLAGS = (0, 2, 4, 6, 7, 10, 11)
ENDS = ("same", "put", "told", "crash", "hang", "wrong")

libc = ctypes.CDLL(None, use_errno=True)
libc.ptrace.restype = ctypes.c_long
libc.ptrace.argtypes = [ctypes.c_long, ctypes.c_long, ctypes.c_void_p, ctypes.c_void_p]


def turn_register(thread, draws):
    """Turns a bit of a register of a thread that is stopped, and answers whether it did."""
    registers = (ctypes.c_ulonglong * len(PLACES))()
    if libc.ptrace(GETREGS, thread, None, ctypes.addressof(registers)) != 0:
        return False
    name = draws.choice(TURNED)
    registers[PLACES.index(name)] ^= 1 << (draws.choice(FLAGS) if name == "eflags" else draws.randrange(64))
    return libc.ptrace(SETREGS, thread, None, ctypes.addressof(registers)) == 0


def turn_memory(thread, draws):
    """Turns a bit of a word in the heap of a thread's process, and answers whether it did."""
    maps = pathlib.Path(f"/proc/{thread}/maps").read_text().split("\n")
    heap = [line.split()[0].split("-") for line in maps if line.endswith("[heap]") or line.split()[1:2] == ["rw-p"] and len(line.split()) == 5]
    low, high = (int(bound, 16) for bound in draws.choice(heap))
    with open(f"/proc/{thread}/mem", "r+b", buffering=0) as memory:
        memory.seek(low + draws.randrange((high - low) // 8) * 8)
        word = int.from_bytes(memory.read(8), "little")
        memory.seek(-8, os.SEEK_CUR)
        memory.write((word ^ 1 << draws.randrange(64)).to_bytes(8, "little"))
    return True


def running(process):
    """The threads of a process that run, or all where none does."""
    threads = [int(each) for each in os.listdir(f"/proc/{process}/task")]
    busy = [each for each in threads if pathlib.Path(f"/proc/{process}/task/{each}/stat").read_text().rsplit(")", 1)[1].split()[0] == "R"]
    return busy or threads


def disturb(process, turn, draws):
    """Stops a thread of the process, turns a bit, lets it go on, and answers whether a bit was turned."""
    try:
        thread = draws.choice(running(process))
        if libc.ptrace(ATTACH, thread, None, None) != 0:
            return False
        os.waitpid(thread, ALL_THREADS)
        is_turned = turn(thread, draws)
        libc.ptrace(DETACH, thread, None, None)
        return is_turned
    except OSError:
        return False


def end_of(status, output, error, right):
    """Which end this is, by the bytes of a run in which nothing was turned."""
    if status < 0:
        return "crash"
    if status == 0 and output == right:
        return "put" if b"differed" in error else "same"
    return "told" if status > 0 and right.startswith(output) else "wrong"


def run_turned(words, folder, right, span, turn, draws):
    """Runs the program once with a bit turned, and answers its end, or None where none was turned."""
    pipes = {"stdin": subprocess.DEVNULL, "stdout": subprocess.PIPE, "stderr": subprocess.PIPE}
    with subprocess.Popen(words, cwd=folder, **pipes) as run:
        time.sleep(draws.uniform(0.02, 0.95) * span)
        is_turned = disturb(run.pid, turn, draws)
        try:
            output, error = run.communicate(timeout=20 * span + 5)
        except subprocess.TimeoutExpired:
            run.kill()
            run.communicate()
            return "hang"
        return end_of(run.returncode, output, error, right) if is_turned else None


def main():
    words = argparse.ArgumentParser(description=__doc__, formatter_class=argparse.RawDescriptionHelpFormatter)
    words.add_argument("--count", type=int, default=1000)
    words.add_argument("--seed", type=int, default=1)
    words.add_argument("--memory", action="store_true")
    words.add_argument("--folder", default=".")
    words.add_argument("program", nargs=argparse.REMAINDER)
    asked = words.parse_args()
    command = [os.path.abspath(asked.program[0]), *asked.program[1:]]
    begun = time.time()
    right = subprocess.run(command, cwd=asked.folder, capture_output=True, check=True).stdout
    span = time.time() - begun
    draws = random.Random(asked.seed)
    turn = turn_memory if asked.memory else turn_register
    ends, missed = collections.Counter(), 0
    while ends.total() < asked.count:
        end = run_turned(command, asked.folder, right, span, turn, draws)
        ends.update([end] if end else [])
        missed = 0 if end else missed + 1
        if missed == 100:
            sys.exit(f"{sys.argv[0]}: no bit could be turned: ptrace is not allowed here, or the runs are too short")
    counts = " | ".join(str(ends[end]) for end in ENDS)
    name = " ".join([os.path.basename(command[0]), *command[1:]])
    print(f"| {name}{', heap' if asked.memory else ''} | {counts} |")


sys.exit(main())
