#!/usr/bin/env python3
"""Measures how long it takes to make names in one directory and to take them away in the order of its listing.

usage: names.py

The program crates/names_bench is built and run for 16,384, 32,768 and 65,536 names, three times each. The best time of
each count is given, by the processor's seconds that a run took, and how much longer it takes for twice as many names:
at most 2.3 times as long, or the status is 1.
"""
import pathlib
import sys

sys.path.insert(0, str(pathlib.Path(__file__).resolve().parent))

from growth import Kind, best, built_program, compare  # noqa: E402

COUNTS = [16_384, 32_768, 65_536]
LIMIT = 2.3


def program():
    return built_program("names_bench", [])


def taken(program, count):
    return best([program, count], f"{count} names made and removed\n")


sys.exit(compare(__doc__, program, [Kind("names", COUNTS, LIMIT, taken)]))
