#!/usr/bin/env python3
"""Builds the example program `hello` from its nine instruction words.

It is a big-endian MIPS ELF-32 executable of one segment at 0x00400000: nine words, and `Hi` and a newline at
0x00400100. It writes these three bytes to descriptor 1 (write is call 4004) and exits with the status, 7 if none is
given (exit is call 4001). Run by hand; not part of what is proved.
"""
import argparse
import struct

BASE = 0x00400000
TEXT_AT = 0x100
SEGMENT_OFFSET = 0x1000


def words(status):
    return [
        0x24020FA4,  # addiu $v0, $zero, 4004
        0x24040001,  # addiu $a0, $zero, 1
        0x3C050040,  # lui   $a1, 0x0040
        0x34A50100,  # ori   $a1, $a1, 0x0100
        0x24060003,  # addiu $a2, $zero, 3
        0x0000000C,  # syscall
        0x24020FA1,  # addiu $v0, $zero, 4001
        0x24040000 | status,  # addiu $a0, $zero, status
        0x0000000C,  # syscall
    ]


def executable(status):
    code = b"".join(struct.pack(">I", word) for word in words(status))
    segment = code.ljust(TEXT_AT, b"\0") + b"Hi\n"
    ident = b"\x7fELF" + bytes([1, 2, 1]) + bytes(9)
    # type EXEC, machine MIPS, version 1, entry, headers at 52, no sections, flags, 52 and 32 bytes, one header
    header = struct.pack(">HHIIIIIHHHHHH", 2, 8, 1, BASE, 52, 0, 0x1000, 52, 32, 1, 0, 0, 0)
    load = struct.pack(">IIIIIIII", 1, SEGMENT_OFFSET, BASE, BASE, len(segment), len(segment), 5, 0x1000)
    return (ident + header + load).ljust(SEGMENT_OFFSET, b"\0") + segment


def exit_status(text):
    status = int(text)
    if not 0 <= status <= 255:
        raise ValueError(text)
    return status


def main():
    parser = argparse.ArgumentParser(description="Builds the example program that writes `Hi` and exits with a status.")
    parser.add_argument("file", metavar="FILE", help="the file to write the program to")
    parser.add_argument(
        "status", metavar="STATUS", nargs="?", type=exit_status, default=7, help="its exit status, 0 to 255 (default: 7)"
    )
    asked = parser.parse_args()
    try:
        with open(asked.file, "wb") as file:
            file.write(executable(asked.status))
    except OSError as error:
        parser.error(f"{asked.file}: {error.strerror}")


if __name__ == "__main__":
    main()
