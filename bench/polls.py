#!/usr/bin/env python3
"""Measures what poll(2) and select(2) cost by how much they look at: 16 to 1,024 entries or descriptors, each time twice as many.

Three guest programs are built and run, each one loop of a call that answers at once: poll(2) of so many entries that ask
whether standard output can be written, of which each is told; poll(2) of so many that ask whether an empty pipe can be read,
of which none is told, with a time of 0; and select(2) of so many descriptors, of which its set has standard input. Each run
looks at the same number of entries or descriptors in all. A call takes the processor's seconds of the best run, user and
system, by its calls, the loop's few other instructions among it: at most 2.1 times as long for twice as many, or the status
is 1. With --valgrind the host's instructions are counted, whatever else the machine does: those by which a run with twice as
many calls is longer.

Before it measures, the script looks that short forms of the programs write just the traces that are worked out here, line by
line (docs/RULES.md, "The trace").
"""
import argparse
import os
import pathlib
import shutil
import struct
import subprocess
import sys
import tempfile

sys.dont_write_bytecode = True

from calls import PIPE_CALL, go_round  # noqa: E402
from guest_program import (  # noqa: E402
    A0,
    A1,
    A2,
    A3,
    DATA,
    FAILED,
    PAGE,
    SP,
    ZERO,
    Program,
    addiu,
    addu,
    call,
    load_constant,
    sw,
)
from processes import processor_name, run  # noqa: E402
from signals import call_line  # noqa: E402
from words import a_count, an_executable, default_emulator  # noqa: E402

# asm/unistd.h of MIPS Linux, o32.
SELECT_CALL, POLL_CALL = 4142, 4188

# asm/poll.h of MIPS Linux.
POLLIN, POLLOUT = 1, 4

STANDARD_OUTPUT = 1

# What pipe(2) gives where the three streams alone are open: its end to read, and the one behind it.
READING_END = 3

COUNTS = [16, 32, 64, 128, 256, 512, 1024]
LIMIT = 2.1
FEW_ROUNDS = 3

# How many calls are made while valgrind counts, and then twice as many.
COUNTED_CALLS = 100


class Loop:
    """A program that goes round a call: the trace before that, the call's number and arguments, and what it gives."""

    def __init__(self, name, before, lines, setup, number, arguments, gives, data):
        self.lines = lines
        self.call = number, arguments, gives
        self.first = len(before + setup) + 2
        self.program = Program(name, before + setup, go_round(call(number)), FAILED, data=data, data_size=3 * PAGE)

    def trace(self, rounds):
        """The trace of so many rounds, of which the second instruction is the SYSCALL."""
        number, arguments, gives = self.call
        lines = list(self.lines)
        for place in range(rounds):
            lines.append(call_line(self.first + place * self.program.per_round() + 2, number, *arguments, gives=gives))
        return [*lines, f"{self.program.instructions(rounds)} exit 0"]


def poll_setup(count):
    return [*load_constant(A0, DATA), addiu(A1, ZERO, count), addu(A2, ZERO, ZERO)]


def told_loop(count):
    """poll(2) of entries of standard output, each of which is told."""
    data = struct.pack(">iHH", STANDARD_OUTPUT, POLLOUT, 0) * count
    return Loop("poll, each told", [], [], poll_setup(count), POLL_CALL, (DATA, count, 0, 0), count, data)


def untold_loop(count):
    """poll(2) of entries of an empty pipe, of which none is told."""
    data = struct.pack(">iHH", READING_END, POLLIN, 0) * count
    lines = [call_line(2, PIPE_CALL, 0, 0, 0, 0, gives=READING_END)]
    return Loop("poll, none told", call(PIPE_CALL), lines, poll_setup(count), POLL_CALL, (DATA, count, 0, 0), 0, data)


def select_loop(count):
    """select(2) of descriptors, of which standard input is in the set that is read. There is no time."""
    setup = [addiu(SP, SP, -32), sw(ZERO, 16, SP), addiu(A0, ZERO, count), *load_constant(A1, DATA)]
    setup += [addu(A2, ZERO, ZERO), addu(A3, ZERO, ZERO)]
    return Loop("select", [], [], setup, SELECT_CALL, (count, DATA, 0, 0), 1, struct.pack(">I", 1))


LOOPS = [told_loop, untold_loop, select_loop]


def check(emulator, loop, folder):
    """A short form of the program ends with 0 and writes its trace, no line more and none less."""
    path, trace = folder / "guest", folder / "trace"
    path.write_bytes(loop.program.executable(FEW_ROUNDS))
    done = run([emulator, "run", "--trace", trace, path])
    if done.status != 0:
        sys.exit(f"{loop.program.name}: status {done.status}")
    told, wanted = trace.read_text().splitlines(), loop.trace(FEW_ROUNDS)
    if told != wanted:
        sys.exit(f"{loop.program.name}: the trace is {told}, and not {wanted}")


def seconds(emulator, program, calls, times, folder):
    """The processor's seconds of a call in the best run."""
    path = folder / "guest"
    path.write_bytes(program.executable(calls))
    used = []
    for _ in range(times):
        done = run([emulator, "run", "--budget", program.instructions(calls), path])
        if done.status != 0:
            sys.exit(f"{program.name}: status {done.status}")
        used.append(done.used)
    return min(used) / calls


def counted(emulator, program, calls, folder):
    """The host's instructions of a run with so many calls, by valgrind."""
    path, counts = folder / "guest", folder / "counts"
    path.write_bytes(program.executable(calls))
    command = ["valgrind", "--tool=callgrind", f"--callgrind-out-file={counts}", emulator, "run", path]
    done = subprocess.run([str(word) for word in command], stdin=subprocess.DEVNULL, capture_output=True)
    totals = [line for line in counts.read_text().splitlines() if line.startswith("totals:")] if counts.exists() else []
    if done.returncode != 0 or len(totals) != 1:
        sys.exit(f"{program.name}: status {done.returncode} under valgrind")
    return int(totals[0].split()[1])


def instructions(emulator, program, folder):
    """The host's instructions of a call."""
    few, many = (counted(emulator, program, calls, folder) for calls in (COUNTED_CALLS, 2 * COUNTED_CALLS))
    return (many - few) / COUNTED_CALLS


def measure(words, make_loop, folder):
    """Prints what a call costs by each count; whether it is nowhere more than it may be."""
    reached, last = True, None
    for count in COUNTS:
        loop = make_loop(count)
        check(words.emulator, loop, folder)
        if words.valgrind:
            cost = instructions(words.emulator, loop.program, folder)
            told = f"{cost:12,.0f} instructions of the host a call"
        else:
            cost = seconds(words.emulator, loop.program, -(-words.looks // count), words.times, folder)
            told = f"{1e6 * cost:10.3f} microseconds a call"
        ratio = "" if last is None else f", {cost / last:.2f} times as much as for half as many"
        reached = reached and (last is None or cost / last <= LIMIT)
        print(f"{loop.program.name:16} {count:5,} {told}{ratio}", flush=True)
        last = cost
    return reached


def read_words():
    parser = argparse.ArgumentParser(description=__doc__.split("\n\n")[0])
    parser.add_argument(
        "emulator", nargs="?", type=an_executable, help="the program o32run (the one at the top of the repository)"
    )
    parser.add_argument("--looks", type=a_count, default=4_000_000, help="how many entries a run looks at in all (4 * 10^6)")
    parser.add_argument("--times", type=a_count, default=5, help="how often each loop is run (5)")
    parser.add_argument("--valgrind", action="store_true", help="count the host's instructions, in place of the time")
    words = parser.parse_args()
    if words.valgrind and not shutil.which("valgrind"):
        parser.error("there is no valgrind")
    words.emulator = words.emulator or default_emulator(parser)
    return words


def main():
    words = read_words()
    print(f"{processor_name()}, {os.cpu_count()} processors, load {os.getloadavg()[0]:.1f}")
    with tempfile.TemporaryDirectory() as folder:
        reached = [measure(words, make_loop, pathlib.Path(folder)) for make_loop in LOOPS]
    print(f"load at the end {os.getloadavg()[0]:.1f}")
    if not all(reached):
        sys.exit(f"a call costs more than {LIMIT} times as much for twice as many")


if __name__ == "__main__":
    main()
