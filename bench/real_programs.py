#!/usr/bin/env python3
"""Times programs that people know, which examples/guests/build.sh built, beside qemu-mips where that is installed.

    real_programs.py [--times N] [--only NAME] DIR [PROGRAM]

DIR is the folder of build.sh. Each program runs so many times, by the emulator and by qemu-mips in turns, with the same
10 MB of text on standard input, and must end with 0 and write the same by both; of speedtest1, whose output has times in it,
only that it ends with 0 is compared. The best times are printed, in the processor's seconds, which other work on the machine
disturbs less, and in seconds that passed, and the quotient of the best processor's seconds.
"""
import argparse
import hashlib
import os
import pathlib
import shutil
import sys
import tempfile

sys.dont_write_bytecode = True

from processes import processor_name, run  # noqa: E402
from words import a_count, an_executable, default_emulator  # noqa: E402

BUDGET = 10**12
TEXT_BYTES = 10_000_000
LOOP = "local sum = 0 for i = 1, 5000000 do sum = sum + i % 7 * 3 end print(sum)"


class Work:
    """What a program is to do: its name in the table, its words, and whether its output tells times."""

    def __init__(self, name, *words, tells_times=False):
        self.name, self.words, self.tells_times = name, words, tells_times


WORKS = [
    Work("Lua, a loop of 5,000,000 rounds", "lua", "-e", LOOP),
    Work("SQLite, speedtest1 of size 5", "speedtest1", "--vfs", "unix-none", "--size", "5", "test.db", tells_times=True),
    Work("bzip2 of 10 MB", "bzip2", "-c"),
    Work("gzip (minigzip) of 10 MB", "minigzip"),
    Work("sha256sum (busybox) of 10 MB", "busybox", "sha256sum"),
    Work("sort (busybox) of 10 MB", "busybox", "sort"),
]


class Chance:
    """Numbers by a linear congruence, the same on every machine."""

    def __init__(self):
        self.state = 1

    def below(self, limit):
        self.state = (self.state * 1103515245 + 12345) % 2**31
        return (self.state >> 8) % limit


def text():
    """Lines of words, the first of the vocabulary more often than the last."""
    chance = Chance()
    vocabulary = ["".join(chr(97 + chance.below(26)) for _ in range(2 + chance.below(9))) for _ in range(2000)]
    lines, size = [], 0
    while size < TEXT_BYTES:
        count = 4 + chance.below(9)
        line = " ".join(vocabulary[min(chance.below(2000), chance.below(2000))] for _ in range(count))
        lines.append(line)
        size += len(line) + 1
    return ("\n".join(lines)[: TEXT_BYTES - 1] + "\n").encode()


def one_run(runner, guests, work, folder):
    """What one run took, and a checksum of what it wrote."""
    written = folder / "written"
    with tempfile.TemporaryDirectory(dir=folder) as empty, open(folder / "text", "rb") as source:
        with open(written, "wb") as target:
            words = [guests / work.words[0], *work.words[1:]]
            over = run([*runner, *words], source=source, target=target, folder=empty)
    if over.status != 0:
        sys.exit(f"{work.name}: {runner[0]} ends with {over.status}")
    return over, None if work.tells_times else hashlib.sha256(written.read_bytes()).hexdigest()


def measure(runners, guests, work, folder, times):
    """The best of the processor's seconds and of the seconds that passed, for each runner."""
    best, sums = [(float("inf"), float("inf"))] * len(runners), set()
    for _ in range(times):
        for index, runner in enumerate(runners):
            over, checksum = one_run(runner, guests, work, folder)
            best[index] = min(best[index][0], over.used), min(best[index][1], over.passed)
            sums.add(checksum)
    if len(sums) != 1:
        sys.exit(f"{work.name}: not the same is written")
    return best


def read_words():
    parser = argparse.ArgumentParser(usage="real_programs.py [--times N] [--only NAME] DIR [PROGRAM]")
    parser.add_argument("guests", metavar="DIR", type=pathlib.Path, help="the folder of examples/guests/build.sh")
    parser.add_argument("program", metavar="PROGRAM", nargs="?", type=an_executable, help="another build of the emulator")
    parser.add_argument("--times", type=a_count, default=3, help="runs of each program (3)")
    parser.add_argument("--only", metavar="NAME", help="the program of this name alone, such as bzip2")
    words = parser.parse_args()
    words.guests = (words.guests / "guests").resolve()
    words.works = [work for work in WORKS if words.only in (None, work.words[0])]
    if not words.works:
        parser.error(f"no program {words.only}; there are {' '.join(work.words[0] for work in WORKS)}")
    for work in words.works:
        if not (words.guests / work.words[0]).is_file():
            parser.error(f"{words.guests / work.words[0]} is not there: examples/guests/build.sh {words.guests.parent} {work.words[0]}")
    words.program = words.program or default_emulator(parser)
    return words


def main():
    words = read_words()
    runners = [(words.program, "run", "--budget", str(BUDGET))]
    if shutil.which("qemu-mips"):
        runners.append((shutil.which("qemu-mips"),))
    print(f"{processor_name()}, load {os.getloadavg()[0]:.2f}, best of {words.times}")
    print("processor's seconds (seconds that passed): o32run; qemu-mips; quotient")
    with tempfile.TemporaryDirectory() as folder:
        folder = pathlib.Path(folder)
        (folder / "text").write_bytes(text())
        for work in words.works:
            best = measure(runners, words.guests, work, folder, words.times)
            taken = "; ".join(f"{used:.2f} ({passed:.2f})" for used, passed in best)
            quotient = f"; {best[0][0] / best[1][0]:.1f}" if len(best) > 1 and best[1][0] else ""
            print(f"{work.name}: {taken}{quotient}", flush=True)


if __name__ == "__main__":
    main()
