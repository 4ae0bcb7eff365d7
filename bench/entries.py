#!/usr/bin/env python3
"""Measures how long it takes to list one directory by getdents64, in pieces of 4 KiB.

usage: entries.py

The program crates/entries_bench is built and run for 32,768, 65,536 and 131,072 names, which are listed 20 times and not
at all, three times each. The time of one listing is a twentieth of what the best times of the two differ by, in the
processor's seconds. At most 2.2 times as long for twice as many names, or the status is 1.
"""
import pathlib
import sys

sys.path.insert(0, str(pathlib.Path(__file__).resolve().parent))

from growth import Kind, best, built_program, compare  # noqa: E402

COUNTS = [32_768, 65_536, 131_072]
LISTINGS = 20
LIMIT = 2.2


def program():
    return built_program("entries_bench", ["--", "1000", "2"])


def taken(program, count):
    listed = best([program, count, LISTINGS], f"{count} names listed\n")
    without = best([program, count, 0], "0 names listed\n")
    return (listed - without) / LISTINGS


sys.exit(compare(__doc__, program, [Kind("names", COUNTS, LIMIT, taken)]))
