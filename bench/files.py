#!/usr/bin/env python3
"""Measures what the content of a regular file costs.

usage: files.py [--valgrind] [PROGRAM]

The program crates/files_bench is built, or the one that is named is taken, and run for each kind of work and three counts, of
which each is twice the one before, three times each. The best time of each is given, in the processor's seconds. Where a file is
made first, the time for that is taken away. At most 2.1 times as long for twice as much to do, or the status is 1. Last, 640 MiB
are loaded by blocks, as an image is, beside a plain copy of as many bytes.

With --valgrind the host's instructions are counted in place of the time, whatever else the machine does, and no image is loaded.
"""
import argparse
import os
import pathlib
import subprocess
import sys
import tempfile

sys.path.insert(0, str(pathlib.Path(__file__).resolve().parent))

from growth import best, built_program  # noqa: E402
from processes import processor_name  # noqa: E402

BLOCK = 4096
DENSE_BLOCKS = 16_384
SPARSE_PLACES = 104_857
STRIDE = 5
IMAGE_BLOCKS = 163_840
LIMIT = 2.1


def told(size, blocks):
    return f"{size} bytes in {blocks} blocks\n"


def whole(count):
    return told(count * BLOCK, count)


def of_bytes(count):
    return told(count, -(-count // BLOCK))


def dense(_count):
    return whole(DENSE_BLOCKS)


def sparse(_count):
    return told(((SPARSE_PLACES - 1) * STRIDE + 1) * BLOCK, SPARSE_PLACES)


def holes(count):
    """The blocks that the program's row of numbers hits."""
    number, places = 1, set()
    for _ in range(count):
        number = (number * 1_664_525 + 1_013_904_223) % 2**32
        places.add(number * SPARSE_PLACES >> 32)
    return told((max(places) * STRIDE + 1) * BLOCK, len(places))


# What is done, in words and in the program's word, the counts, what the program prints, and whether a file is made first.
WORKS = [
    ("pieces of 4 KiB appended", "append", [16_384, 32_768, 65_536], whole, False),
    ("bytes appended one by one", "bytes", [1_000_000, 2_000_000, 4_000_000], of_bytes, False),
    ("blocks written from the last to the first", "backwards", [16_384, 32_768, 65_536], whole, False),
    ("blocks rewritten at random in a dense file of 64 MiB", "dense", [200_000, 400_000, 800_000], dense, True),
    ("blocks rewritten at random in 2^31 bytes with 104,857 extents", "sparse", [200_000, 400_000, 800_000], sparse, True),
    ("blocks written at random, most of them new extents", "holes", [20_000, 40_000, 80_000], holes, False),
    ("blocks of a dense file of 64 MiB read", "read", [200_000, 400_000, 800_000], dense, True),
]


def instructions(command, printed):
    """The host's instructions of one run, which has to print this, by valgrind."""
    with tempfile.TemporaryDirectory() as folder:
        counts = pathlib.Path(folder) / "counts"
        words = ["valgrind", "--tool=callgrind", f"--callgrind-out-file={counts}", *(str(word) for word in command)]
        done = subprocess.run(words, stdin=subprocess.DEVNULL, capture_output=True, text=True)
        totals = [line for line in counts.read_text().splitlines() if line.startswith("totals:")] if counts.exists() else []
    if done.returncode != 0 or done.stdout != printed or len(totals) != 1:
        sys.exit(f"{' '.join(words)}: status {done.returncode}, {done.stdout!r}")
    return int(totals[0].split()[1])


def seconds_in_words(taken, count):
    return f"{taken:.4f} seconds, {taken / count * 1e6:.3f} microseconds each"


def instructions_in_words(taken, count):
    return f"{taken / count:.0f} instructions each"


def measure(program, taken_by, in_words, title, word, counts, printed, made_first):
    """Prints what each count takes, and tells whether one takes more than LIMIT times as much as half as many."""
    print(f"{title}:")
    before = taken_by([program, word, 0], printed(0)) if made_first else 0
    last, grows = None, False
    for count in counts:
        taken = taken_by([program, word, count], printed(count)) - before
        ratio = "" if last is None else f", {taken / last:.2f} times as much as for half as many"
        grows = grows or (last is not None and taken / last > LIMIT)
        print(f"{count:11,} {in_words(taken, count)}{ratio}", flush=True)
        last = taken
    return grows


def main():
    parser = argparse.ArgumentParser(description=__doc__, formatter_class=argparse.RawDescriptionHelpFormatter)
    parser.add_argument("program", nargs="?")
    parser.add_argument("--valgrind", action="store_true")
    words = parser.parse_args()
    program = words.program or built_program("files_bench", ["--", "append", "1000"])
    print(f"{processor_name()}, {os.cpu_count()} processors, load {os.getloadavg()[0]:.1f}")
    taken_by, in_words = (instructions, instructions_in_words) if words.valgrind else (best, seconds_in_words)
    grows = [measure(program, taken_by, in_words, *work) for work in WORKS]
    if not words.valgrind:
        loaded = best([program, "load", IMAGE_BLOCKS], whole(IMAGE_BLOCKS))
        copied = best([program, "copy", IMAGE_BLOCKS], told(0, 0))
        print(f"640 MiB loaded by blocks: {loaded:.4f} seconds; copied: {copied:.4f}; {loaded / copied:.2f} times as long")
    print(f"load at the end {os.getloadavg()[0]:.1f}")
    return 1 if any(grows) else 0


if __name__ == "__main__":
    sys.exit(main())
