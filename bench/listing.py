#!/usr/bin/env python3
"""Measures how long a program takes to list one directory by getdents64, in pieces of 32 KiB.

usage: listing.py

The guest program listing.c is built by clang and lld, and run by the program o32run of this repository over images whose root has
32,768, 65,536 and 131,072 names of one file. It lists the root 20 times and not at all, three times each. The time of one
listing is a twentieth of what the best times of the two differ by, in the processor's seconds. At most 2.2 times as long for twice
as many names, or the status is 1.
"""
import pathlib
import struct
import subprocess
import sys
import tempfile

sys.dont_write_bytecode = True
here = pathlib.Path(__file__).resolve().parent
sys.path.insert(0, str(here))

from growth import Kind, best, compare  # noqa: E402

COUNTS = [32_768, 65_536, 131_072]
LISTINGS = 20
LIMIT = 2.2

# As examples/build_programs.sh has them.
BUILD = (
    "clang --target=mips-linux-gnu -mips32r2 -mabi=32 -msoft-float -mno-abicalls -fno-pic -G 0 -ffreestanding -fno-ident -O2"
    " -Wall -Wextra -Werror -nostdlib -static -fuse-ld=lld -Wl,--build-id=none -s -o"
).split()


def image(count):
    """An image whose root, node 1, has so many names of the empty file 2 (docs/RULES.md, "The file image")."""
    names = [f"name{place}".encode() for place in range(count)]
    entries = b"".join(
        struct.pack(">IB", 3 + place, len(name)) + name + struct.pack(">Q", 2) for place, name in enumerate(names)
    )
    root = struct.pack(">QBHqI", 1, 2, 0o755, 0, count) + entries
    file = struct.pack(">QBHqQI", 2, 1, 0o644, 0, 0, 0)
    return b"O32IMG1\n" + struct.pack(">I", 2) + root + file


def main(folder):
    guest = folder / "listing"

    def program():
        built = here.parent / "crates" / "o32run" / "out" / "o32run"
        if not built.exists():
            sys.exit("the emulator is not built: ./o32run builds it")
        subprocess.run([*BUILD, guest, here / "listing.c"], check=True)
        return built

    def taken(program, count):
        (folder / "image").write_bytes(image(count))
        command = [program, "run", "--image", folder / "image", guest]
        listed = best([*command, LISTINGS], f"{LISTINGS * (count + 2)}\n")
        without = best([*command, 0], "0\n")
        return (listed - without) / LISTINGS

    return compare(__doc__, program, [Kind("names", COUNTS, LIMIT, taken)])


with tempfile.TemporaryDirectory() as name:
    status = main(pathlib.Path(name))
sys.exit(status)
