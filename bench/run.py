#!/usr/bin/env python3
"""Measures how many turns the emulator carries out in a second, beside a plain interpreter in C, the yardstick.

Four guest programs, each one loop of at most 10^8 instructions, are built and run, by the emulator and by the
yardstick in turns. Both must end alike: with the same status in just the turns that are counted, and not in one less.
Then the time of a short run is measured, beside that of an empty program in C, and the memory of pages that are never
touched. Where qemu-mips is installed it runs the loops too.

A rate is given twice: by the seconds that passed, and by the processor's seconds that the run took, which other work on
the machine disturbs less. Ratios are those of the best processor's seconds.
"""
import argparse
import os
import pathlib
import shutil
import subprocess
import sys
import tempfile

sys.dont_write_bytecode = True

import memory  # noqa: E402
from guest_program import PROGRAMS  # noqa: E402
from processes import processor_name, run  # noqa: E402
from words import a_count, an_executable, default_emulator  # noqa: E402

HERE = pathlib.Path(__file__).resolve().parent
HELLO = HERE.parent / "examples" / "hello"
HELLO_STATUS = 7
HELLO_RUNS = 20
BUDGET_STATUS = 124
# The least part of the yardstick's rate that each loop has to reach.
LEAST_RATIO = 0.75


def build_yardstick(compiler, folder):
    path = pathlib.Path(folder) / "yardstick"
    command = [compiler, "-O2", "-std=c11", "-Wall", "-Wextra", "-o", str(path), str(HERE / "yardstick.c")]
    if subprocess.run(command).returncode != 0:
        sys.exit("the yardstick was not built")
    return path


class Runner:
    """A program that runs guests: its name and its words before and behind the budget."""

    def __init__(self, name, *before, takes_budget=True):
        self.name = name
        self.before = before
        self.takes_budget = takes_budget

    def run(self, path, budget):
        words = ["--budget", budget] if self.takes_budget else []
        return run([*self.before, *words, path])


def check_alike(runners, program, folder):
    """A short form of the program ends with the same status by each, in just the turns that are counted."""
    rounds = program.rounds(1_000_000)
    turns = program.instructions(rounds)
    path = folder / "short"
    path.write_bytes(program.executable(rounds))
    statuses = {runner.run(path, turns).status for runner in runners}
    if len(statuses) != 1 or BUDGET_STATUS in statuses or min(statuses) < 0:
        sys.exit(f"{program.name}: they do not end alike in {turns} turns: {sorted(statuses)}")
    for runner in runners:
        status = runner.run(path, turns - 1).status
        if status != BUDGET_STATUS:
            sys.exit(f"{program.name}: {runner.name} ends with {status} in {turns - 1} turns")


def measure_loop(runners, program, folder, turns, times):
    """Prints a line for each run; the best rates by the processor's seconds, in the order of the runners."""
    rounds = program.rounds(turns)
    instructions = program.instructions(rounds)
    path = folder / "guest"
    path.write_bytes(program.executable(rounds))
    path.chmod(0o755)
    print(f"{program.name}: {instructions:,} instructions, {program.per_round():,} in a round")
    best = [0.0] * len(runners)
    statuses = set()
    for number in range(times):
        for place, runner in enumerate(runners):
            done = runner.run(path, instructions)
            statuses.add(done.status)
            if len(statuses) != 1:
                sys.exit(f"{program.name}: {runner.name} ends with {done.status}")
            rate = instructions / done.used / 1e6
            best[place] = max(best[place], rate)
            passed = instructions / done.passed / 1e6
            print(
                f"  {runner.name:10} run {number + 1}: {passed:8.1f} million a second passed,"
                f" {rate:8.1f} a processor's second",
                flush=True,
            )
    return best


def measure_loops(emulator, compiler, turns, times):
    """Prints the rates and the ratios; whether each loop reaches its part of the yardstick."""
    rows = []
    with tempfile.TemporaryDirectory() as name:
        folder = pathlib.Path(name)
        runners = [Runner("o32run", emulator, "run"), Runner("yardstick", build_yardstick(compiler, folder))]
        others = []
        qemu = shutil.which("qemu-mips")
        if qemu:
            others = [Runner("qemu-mips", qemu, takes_budget=False)]
        for program in PROGRAMS:
            check_alike(runners, program, folder)
            rows.append((program.name, measure_loop(runners + others, program, folder, turns, times)))
    names = [runner.name for runner in runners + others]
    print(f"{'best, millions a second':26}" + "".join(f"{name:>12}" for name in names) + f"{'ratio':>8}")
    for name, rates in rows:
        print(f"{name:26}" + "".join(f"{rate:12.1f}" for rate in rates) + f"{rates[0] / rates[1]:8.2f}")
    return all(rates[0] >= LEAST_RATIO * rates[1] for _, rates in rows)


def build_empty(compiler, folder):
    """A program in C that does nothing, linked dynamically."""
    path = folder / "empty"
    command = [compiler, "-O2", "-x", "c", "-", "-o", str(path)]
    if subprocess.run(command, input=b"int main(void) { return 0; }\n").returncode != 0:
        sys.exit("the empty program was not built")
    return path


def least_times(programs, times):
    """The least processor's seconds of so many runs of each program, all programs in turns."""
    least = {}
    for _ in range(times):
        for name, command, status in programs:
            used = 0.0
            for _ in range(HELLO_RUNS):
                done = run(command)
                if done.status != status:
                    sys.exit(f"{HELLO.name}: {name} ends with {done.status}")
                used += done.used
            least[name] = min(least.get(name, used), used)
    return least


def measure_hello(emulator, before, compiler, times):
    """Prints the processor's time of a short run, beside an empty program's; whether it is at most half of an earlier
    build's, where one is given."""
    builds = [("o32run", emulator)] + ([("before", before)] if before else [])
    programs = [(name, [program, "run", HELLO], HELLO_STATUS) for name, program in builds]
    print(f"run of {HELLO.name}, {HELLO_RUNS} runs at a time: milliseconds of the processor for each, user and system")
    with tempfile.TemporaryDirectory() as name:
        programs.append(("empty", [build_empty(compiler, pathlib.Path(name))], 0))
        least = least_times(programs, times)
    for name, used in least.items():
        print(f"  {name:10} {1000 * used / HELLO_RUNS:6.2f}")
    print(f"  {least['o32run'] / least['empty']:.2f} times an empty program in C, linked dynamically")
    if not before:
        return True
    ratio = least["o32run"] / least["before"]
    print(f"  {ratio:.2f} of the time before")
    return ratio <= 0.5


def read_words():
    parser = argparse.ArgumentParser(description=__doc__.split("\n\n")[0])
    parser.add_argument(
        "emulator", nargs="?", type=an_executable, help="the program o32run (the one at the top of the repository)"
    )
    parser.add_argument("--before", type=an_executable, help="an earlier build, for the time of the short run")
    parser.add_argument("--turns", type=a_count, default=100_000_000, help="the most turns of a loop (10^8)")
    parser.add_argument("--times", type=a_count, default=3, help="how often each loop is run (3)")
    parser.add_argument("--compiler", default="clang", help="what builds the yardstick (clang)")
    words = parser.parse_args()
    if not shutil.which(words.compiler):
        parser.error(f"there is no {words.compiler}, which builds the yardstick")
    words.emulator = words.emulator or default_emulator(parser)
    return words


def main():
    words = read_words()
    print(f"{processor_name()}, {os.cpu_count()} processors, load {os.getloadavg()[0]:.1f}")
    reached = [
        measure_loops(words.emulator, words.compiler, words.turns, words.times),
        measure_hello(words.emulator, words.before, words.compiler, words.times),
        memory.measure(words.emulator),
    ]
    print(f"load at the end {os.getloadavg()[0]:.1f}")
    if not all(reached):
        sys.exit("not all is reached that was set")


if __name__ == "__main__":
    main()
