#!/usr/bin/env python3
"""Measures how many system calls the emulator carries out in a second.

Eleven guest programs, each one loop, are built and run: getpid(2); write(2) of 1 and of 4096 bytes to standard output, which is
the null device; write(2) of as many bytes to a file, and lseek(2) back to its beginning; write(2) of them into a pipe, and read(2)
of them; fstat64(2) of a file, and stat64(2) of its path; open(2) of it, and close(2); and mmap2(2) of one page, a store to it and
munmap(2). Each program exits with 0 where no call failed, in just the turns that are counted, and not in one less; what a short
form of it writes has to have the right length.

A rate is that of the best run, by the processor's seconds that the run took, user and system, the instructions of the
loop among them.
"""
import argparse
import os
import pathlib
import subprocess
import sys
import tempfile

sys.dont_write_bytecode = True

from guest_program import (  # noqa: E402
    A0,
    A1,
    A2,
    COUNTER,
    DATA,
    FAILED,
    MMAP2_SETUP,
    PAGE,
    S2,
    S3,
    T0,
    V0,
    V1,
    ZERO,
    Program,
    addiu,
    addu,
    bne,
    call,
    load_constant,
    mmap2,
    sw,
)
from processes import processor_name, run  # noqa: E402
from words import a_count, an_executable, default_emulator  # noqa: E402

# asm/unistd.h of MIPS Linux, o32.
READ_CALL, WRITE_CALL, OPEN_CALL, CLOSE_CALL, LSEEK_CALL, GETPID_CALL, PIPE_CALL = 4003, 4004, 4005, 4006, 4019, 4020, 4042
MUNMAP_CALL, STAT64_CALL, FSTAT64_CALL = 4091, 4213, 4215

# asm/fcntl.h of MIPS Linux: O_CREAT and O_RDWR.
MADE_TO_READ_AND_WRITE = 0x102
OWN_MODE = 0o600

# The path of the file that is written, at DATA, and where its status goes.
FILE_PATH = b"/file\0"
STATUS_PLACE = DATA + 64

STANDARD_OUTPUT = 1
BUDGET_STATUS = 124
FEW_ROUNDS = 100

# The pipe's ends, in registers that a call keeps.
READING_END, WRITING_END = S2, S3


def go_round(words):
    """The words of a round: these, and the branch back to the first of them."""
    return lambda _start, _function: [
        *words,
        addiu(COUNTER, COUNTER, -1),
        bne(COUNTER, ZERO, -len(words) - 2),
        addiu(T0, T0, 1),
    ]


class Loop:
    """A program of a loop, how many calls a round of it makes, and how many bytes a round writes to standard output."""

    def __init__(self, name, setup, round_words, calls=1, written=0, data=b""):
        self.program = Program(name, setup, go_round(round_words), FAILED, data=data)
        self.calls = calls
        self.written = written


def write_loop(count):
    setup = [addiu(A0, ZERO, STANDARD_OUTPUT), *load_constant(A1, DATA), addiu(A2, ZERO, count)]
    return Loop(f"write of {count}", setup, call(WRITE_CALL), written=count)


OPENED = [
    *load_constant(A0, DATA),
    addiu(A1, ZERO, MADE_TO_READ_AND_WRITE),
    addiu(A2, ZERO, OWN_MODE),
    *call(OPEN_CALL),
]


def file_loop(count):
    setup = [*OPENED, addu(A0, V0, ZERO)]
    written = [*load_constant(A1, DATA), addiu(A2, ZERO, count), *call(WRITE_CALL)]
    back = [addu(A1, ZERO, ZERO), addu(A2, ZERO, ZERO), *call(LSEEK_CALL)]
    return Loop(f"write of {count} and lseek, file", setup, written + back, calls=2, data=FILE_PATH)


def status_loop():
    setup = [*OPENED, addu(A0, V0, ZERO), *load_constant(A1, STATUS_PLACE)]
    return Loop("fstat64", setup, call(FSTAT64_CALL), data=FILE_PATH)


def path_status_loop():
    setup = [*OPENED, *load_constant(A0, DATA), *load_constant(A1, STATUS_PLACE)]
    return Loop("stat64", setup, call(STAT64_CALL), data=FILE_PATH)


def open_loop():
    closed = [addu(A0, V0, ZERO), *call(CLOSE_CALL)]
    return Loop("open and close", [], [*OPENED, *closed], calls=2, data=FILE_PATH)


def pipe_loop(count):
    setup = [
        *call(PIPE_CALL),
        addu(READING_END, V0, ZERO),
        addu(WRITING_END, V1, ZERO),
        *load_constant(A1, DATA),
        addiu(A2, ZERO, count),
    ]
    into = [addu(A0, WRITING_END, ZERO), *call(WRITE_CALL)]
    out_of = [addu(A0, READING_END, ZERO), *call(READ_CALL)]
    return Loop(f"write and read of {count}, pipe", setup, into + out_of, calls=2)


def mapping_loop():
    setup = [*MMAP2_SETUP, addiu(A1, ZERO, PAGE)]
    unmapped = [addu(A0, V0, ZERO), *call(MUNMAP_CALL)]
    return Loop("mmap2, store, munmap", setup, [*mmap2(), sw(V0, 0, V0), *unmapped], calls=2)


LOOPS = [
    Loop("getpid", [], call(GETPID_CALL)),
    write_loop(1),
    write_loop(4096),
    file_loop(1),
    file_loop(4096),
    pipe_loop(1),
    pipe_loop(4096),
    status_loop(),
    path_status_loop(),
    open_loop(),
    mapping_loop(),
]


def written_by(emulator, path, turns):
    """How the run ends, and how many bytes it writes to standard output."""
    command = [str(emulator), "run", "--budget", str(turns), str(path)]
    done = subprocess.run(command, stdin=subprocess.DEVNULL, capture_output=True)
    return done.returncode, len(done.stdout)


def check(emulator, loop, path):
    """A short form of the program ends in just the turns that are counted, and writes what it has to."""
    program = loop.program
    path.write_bytes(program.executable(FEW_ROUNDS))
    turns = program.instructions(FEW_ROUNDS)
    for budget, status in [(turns, 0), (turns - 1, BUDGET_STATUS)]:
        found = written_by(emulator, path, budget)
        if found != (status, FEW_ROUNDS * loop.written):
            sys.exit(f"{program.name}: with {budget} turns it ends with {found[0]} and writes {found[1]} bytes")


def measure(emulator, loop, path, calls, times):
    """Prints the rate of the best run."""
    check(emulator, loop, path)
    program = loop.program
    rounds = -(-calls // loop.calls)
    path.write_bytes(program.executable(rounds))
    used = []
    for _ in range(times):
        done = run([emulator, "run", "--budget", program.instructions(rounds), path])
        if done.status != 0:
            sys.exit(f"{program.name}: status {done.status}")
        used.append(done.used)
    rate = rounds * loop.calls / min(used)
    print(
        f"{program.name:30} {rate:12,.0f} calls a processor's second, {1e6 / rate:6.3f} microseconds a call,"
        f" {program.per_round() / loop.calls:4.1f} turns a call",
        flush=True,
    )


def read_words():
    parser = argparse.ArgumentParser(description=__doc__.split("\n\n")[0])
    parser.add_argument(
        "emulator", nargs="?", type=an_executable, help="the program o32run (the one at the top of the repository)"
    )
    parser.add_argument("--calls", type=a_count, default=1_000_000, help="how many calls a run makes (10^6)")
    parser.add_argument("--times", type=a_count, default=3, help="how often each loop is run (3)")
    words = parser.parse_args()
    words.emulator = words.emulator or default_emulator(parser)
    return words


def main():
    words = read_words()
    print(f"{processor_name()}, {os.cpu_count()} processors, load {os.getloadavg()[0]:.1f}")
    with tempfile.TemporaryDirectory() as folder:
        for loop in LOOPS:
            measure(words.emulator, loop, pathlib.Path(folder) / "guest", words.calls, words.times)
    print(f"load at the end {os.getloadavg()[0]:.1f}")


if __name__ == "__main__":
    main()
