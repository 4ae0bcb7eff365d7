#!/usr/bin/env python3
"""Measures how much memory the pages of a segment and of a mapping take that are never touched.

Three guest programs count down and exit; the first has one page of data, the second as many as a program may have, and the
third maps as many. The second and the third run may each take less than 16 MiB more than the first.
"""
import argparse
import pathlib
import sys
import tempfile

sys.dont_write_bytecode = True

from guest_program import untouched, untouched_mapping  # noqa: E402
from processes import peak_memory  # noqa: E402
from words import an_executable, default_emulator  # noqa: E402

# A program has at most 120,000 pages, one of which holds the words.
PAGES = 119_999
LIMIT = 16 * 1024 * 1024
TURNS = 20_000_000


def peak_of(emulator, program, folder):
    path = pathlib.Path(folder) / "guest"
    path.write_bytes(program.executable(program.rounds(TURNS)))
    status, peak = peak_memory([emulator, "run", path])
    if status != 0:
        sys.exit(f"{program.name}: status {status}")
    print(f"  {program.name}: at most {peak / 2**20:.1f} MiB resident", flush=True)
    return peak


def measure(emulator):
    """Prints the peaks; whether the pages stay below their limit."""
    print("memory of pages that are never touched")
    with tempfile.TemporaryDirectory() as folder:
        one = peak_of(emulator, untouched(1), folder)
        added = [peak_of(emulator, program, folder) - one for program in [untouched(PAGES), untouched_mapping(PAGES)]]
    for more in added:
        print(f"  they add {more / 2**20:.1f} MiB, and may add less than {LIMIT / 2**20:.0f}")
    return max(added) < LIMIT


def main():
    parser = argparse.ArgumentParser(description=__doc__.split("\n\n")[0])
    parser.add_argument(
        "emulator", nargs="?", type=an_executable, help="the program o32run (the one at the top of the repository)"
    )
    words = parser.parse_args()
    sys.exit(0 if measure(words.emulator or default_emulator(parser)) else 1)


if __name__ == "__main__":
    main()
