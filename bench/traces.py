#!/usr/bin/env python3
"""Measures what a trace costs: a loop of getpid(2), whose every call is a line of the trace, with `--trace` and without.

The guest program is run without a trace, with one, and with one for twice as many calls, in turns. The processor's seconds
of the best runs, user and system, are compared: at most 4 times as long with a trace, and at most 2.2 times as long with a
trace for twice as many calls, or the status is 1. The traces are written to a temporary folder.

Before it measures, the script looks that a short form of the program writes the trace that is worked out here, byte for
byte (docs/RULES.md, "The trace").
"""
import argparse
import os
import pathlib
import sys
import tempfile

sys.dont_write_bytecode = True

from calls import GETPID_CALL, Loop  # noqa: E402
from guest_program import call  # noqa: E402
from processes import processor_name, run  # noqa: E402
from words import a_count, an_executable, default_emulator  # noqa: E402

PROGRAM = Loop("getpid", [], call(GETPID_CALL)).program

# Two instructions set the counter, and six are a round, of which the second is the SYSCALL. Three end the program. All
# registers but the stack pointer are 0 at the start, and getpid(2) gives 100.
SHORT_ROUNDS = 3
SHORT_TRACE = b"""\
4 call 4020 00000000 00000000 00000000 00000000 = 00000064 0
10 call 4020 00000000 00000000 00000000 00000000 = 00000064 0
16 call 4020 00000000 00000000 00000000 00000000 = 00000064 0
23 exit 0
"""

# How many times as long a run may take with a trace, and with a trace for twice as many calls.
MOST_WITH_TRACE = 4.0
MOST_FOR_TWICE = 2.2


def check(emulator, folder):
    path, trace = folder / "guest", folder / "trace"
    path.write_bytes(PROGRAM.executable(SHORT_ROUNDS))
    done = run([emulator, "run", "--trace", trace, path])
    if done.status != 0:
        sys.exit(f"{PROGRAM.name}: {SHORT_ROUNDS} rounds end with {done.status}")
    if trace.read_bytes() != SHORT_TRACE:
        sys.exit(f"{PROGRAM.name}: the trace of {SHORT_ROUNDS} rounds is {trace.read_bytes()!r}, and not {SHORT_TRACE!r}")


class Kind:
    """A kind of run: its name, the program that makes it, how many calls, and whether a trace is written; what it took."""

    def __init__(self, name, emulator, calls, traced):
        self.name = name
        self.emulator = emulator
        self.calls = calls
        self.traced = traced
        self.size = 0
        self.used = []

    def run(self, folder):
        path, trace = folder / "guest", folder / "trace"
        path.write_bytes(PROGRAM.executable(self.calls))
        trace.unlink(missing_ok=True)
        words = ["--trace", trace] if self.traced else []
        done = run([self.emulator, "run", "--budget", PROGRAM.instructions(self.calls), *words, path])
        if done.status != 0:
            sys.exit(f"{PROGRAM.name}, {self.name}: status {done.status}")
        self.used.append(done.used)
        self.size = trace.stat().st_size if self.traced else 0

    def least(self):
        return min(self.used)

    def line(self):
        written = f", {self.size:,} bytes" if self.traced else ""
        return (
            f"  {self.name:24}{self.calls:12,} calls {self.least():8.3f} processor's seconds,"
            f" {1e6 * self.least() / self.calls:6.3f} microseconds a call{written}"
        )


def measure(emulator, before, calls, times, folder):
    """Prints what the runs take; whether the trace costs no more than it may."""
    without = Kind("without a trace", emulator, calls, traced=False)
    earlier = Kind("before, without a trace", before, calls, traced=False)
    traced = Kind("with a trace", emulator, calls, traced=True)
    twice = Kind("with a trace", emulator, 2 * calls, traced=True)
    kinds = [without, *([earlier] if before else []), traced, twice]
    for _ in range(times):
        for kind in kinds:
            kind.run(folder)
    print(f"{PROGRAM.name}, {times} runs of each kind, the best of them")
    for kind in kinds:
        print(kind.line())
    cost = traced.least() / without.least()
    growth = twice.least() / traced.least()
    print(f"{cost:.2f} times as long with a trace (at most {MOST_WITH_TRACE})")
    print(f"{growth:.2f} times as long for twice as many lines (at most {MOST_FOR_TWICE})")
    if before:
        print(f"{without.least() / earlier.least():.2f} of the time before, without a trace")
    return cost <= MOST_WITH_TRACE and growth <= MOST_FOR_TWICE


def read_words():
    parser = argparse.ArgumentParser(description=__doc__.split("\n\n")[0])
    parser.add_argument(
        "emulator", nargs="?", type=an_executable, help="the program o32run (the one at the top of the repository)"
    )
    parser.add_argument("--before", type=an_executable, help="an earlier build, for the time of the run without a trace")
    parser.add_argument("--calls", type=a_count, default=10_000_000, help="how many calls a run makes (10^7)")
    parser.add_argument("--times", type=a_count, default=3, help="how often each kind of run is made (3)")
    words = parser.parse_args()
    words.emulator = words.emulator or default_emulator(parser)
    return words


def main():
    words = read_words()
    print(f"{processor_name()}, {os.cpu_count()} processors, load {os.getloadavg()[0]:.1f}")
    with tempfile.TemporaryDirectory() as name:
        folder = pathlib.Path(name)
        check(words.emulator, folder)
        reached = measure(words.emulator, words.before, words.calls, words.times, folder)
    print(f"load at the end {os.getloadavg()[0]:.1f}")
    if not reached:
        sys.exit("a trace costs more than it may")


if __name__ == "__main__":
    main()
