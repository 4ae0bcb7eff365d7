"""Tries `where` of tools/o32trace.py, and its readers of journals and symbols: parts of .ci/tools_test.

What is wanted was worked out from docs/RULES.md, 'The journal', and the layout of ELF-32, over a program and journals by hand.
"""
import shutil
import struct
import subprocess

from trace_tries import LIMIT, TOP, told

ENTRY = 0x00400000
FUNCTION, OBJECT, NO_TYPE = 2, 1, 0
LOCAL, GLOBAL, WEAK = 0, 1, 2
IN_CODE, IN_DATA = 1, 2
# Each symbol: name, address, size, kind, binding and section.
SYMBOLS = [
    ("", 0, 0, NO_TYPE, LOCAL, 0),
    ("main", 0x400100, 0x80, FUNCTION, GLOBAL, IN_CODE),
    ("inside", 0x400120, 0, NO_TYPE, LOCAL, IN_CODE),
    ("helper", 0x400180, 0x40, FUNCTION, LOCAL, IN_CODE),
    ("__write", 0x400200, 0x20, FUNCTION, LOCAL, IN_CODE),
    ("a_write", 0x400200, 0x20, FUNCTION, WEAK, IN_CODE),
    ("write", 0x400200, 0x20, FUNCTION, GLOBAL, IN_CODE),
    ("last", 0x400300, 0, FUNCTION, GLOBAL, IN_CODE),
    ("_start", 0x400000, 0, NO_TYPE, GLOBAL, IN_CODE),
    ("$label", 0x4001D0, 0, NO_TYPE, LOCAL, IN_CODE),
    ("table", 0x400080, 0x40, OBJECT, GLOBAL, IN_CODE),
    ("data", 0x4000C0, 0, NO_TYPE, GLOBAL, IN_DATA),
    ("undefined", 0x400090, 0x20, FUNCTION, GLOBAL, 0),
]
KILLED, BUDGET, BLOCKED = 2, 3, 4
BEFORE, CALL, IDLE, END = 1, 2, 3, 4


def executable(symbols):
    """A program without segments, which has these symbols."""
    names, table = b"\0", b""
    for name, address, size, kind, binding, section in symbols:
        table += struct.pack(">IIIBBH", len(names) if name else 0, address, size, binding << 4 | kind, 0, section)
        names += name.encode() + b"\0" if name else b""
    place = 52
    sections = [bytes(40), struct.pack(">10I", 0, 1, 6, ENTRY, 0, 0, 0, 0, 4, 0), struct.pack(">10I", 0, 1, 3, 0x410000, 0, 0, 0, 0, 4, 0)]
    sections.append(struct.pack(">10I", 0, 2, 0, 0, place, len(table), 4, 1, 4, 16))
    sections.append(struct.pack(">10I", 0, 3, 0, 0, place + len(table), len(names), 0, 0, 1, 0))
    header = struct.pack(">HHIIIIIHHHHHH", 2, 8, 1, ENTRY, 0, place + len(table) + len(names), 0x1000, 52, 32, 0, 40, len(sections), 0)
    return b"\x7fELF\x01\x02\x01" + bytes(9) + header + table + names + b"".join(sections)


def record(turn, kind, pc, words=(0, 0, 0, 0, 0), effects=()):
    return struct.pack(">QB6II", turn, kind, pc, *words, len(effects)) + b"".join(effects)


def end(turn, finish, value=0):
    return struct.pack(">QBBB", turn, END, finish, value)


def register(number, value):
    return struct.pack(">BBI", 1, number, value)


def journal_of(*records):
    return b"O32JRN1\n" + struct.pack(">III", 1, 0, 1) + b"p" + bytes(16) + b"".join(records)


# The records of a run, and what is shown of each.
EFFECTS = [
    struct.pack(">BIII", 2, 0x7FFEFF00, 4, 5), struct.pack(">BIIB", 3, 0x500, 2, 7), struct.pack(">BII", 4, 0x500, 1), struct.pack(">BIIB", 5, 0x501, 1, 1),
    struct.pack(">BBI", 6, 2, 3) + b"err", register(2, 3), register(34, 0x400180),
]
RUN = [
    (record(4, CALL, 0x400110, (4020, 1, 2, 3, 4)), "4 getpid() at 0x400110, main+0x10"),
    (record(6, CALL, 0x400208, (4004, 1, 0x410000, 3, 0), EFFECTS[4:6]), "6 write(1, 0x410000, 3) at 0x400208, write+0x8"),
    (record(9, BEFORE, 0x400124, effects=EFFECTS), "9 changed by the kernel at 0x400124, main+0x24, goes on at 0x400180, helper"),
    (record(9, CALL, 0x4001C0, (4029, 0, 0, 0, 0)), "9 pause() at 0x4001c0"),
    (record(10, IDLE, 0x400004), "10 waits or is stopped at 0x400004, _start+0x4"),
    (record(12, BEFORE, 0x400304, effects=[register(2, 4)]), "12 changed by the kernel at 0x400304, last+0x4"),
    (record(12, CALL, 0x3FFFFC, (4999, 1, 2, 3, 4)), "12 call_4999(0x1, 0x2, 0x3, 0x4) at 0x3ffffc"),
]
KILLED_LINE = "20 +++ killed by SIGSEGV +++"


def shown(*lines):
    return 0, "".join(f"{line}\n" for line in lines), ""


def try_places(tries, box):
    """Every kind of record, with the function that it stands in."""
    (box / "symbols").write_bytes(executable(SYMBOLS))
    (box / "stripped").write_bytes(executable([])[:52])
    records, program, path = [text for text, _ in RUN] + [end(20, KILLED, 11)], box / "symbols", box / "journal"
    path.write_bytes(journal_of(*records))
    lines = [line for _, line in RUN]
    tries.one("the last place of a run, and its end", told("where", program, path), shown(lines[-1], KILLED_LINE))
    for turn, wanted in ((4, lines[0]), (5, lines[0]), (6, lines[1]), (8, lines[1]), (9, lines[3]), (10, lines[4]), (11, lines[4]), (19, lines[6])):
        tries.one(f"the place of turn {turn}", told("where", program, path, turn), shown(wanted))
    tries.one("the last turn", told("where", program, path, 20), shown(lines[6], KILLED_LINE))
    tries.one("a turn before the first record", told("where", program, path, 3), shown("0 begins at 0x400000, _start"))
    for number, (_, line) in enumerate(RUN):
        path.write_bytes(journal_of(*[text for text, _ in RUN[: number + 1]], end(20, BUDGET)))
        tries.one(line, told("where", program, path), shown(line, "20 +++ the turns of the budget are done +++"))
    path.write_bytes(journal_of(end(0, BLOCKED)))
    blocked = "0 +++ blocked: nothing can come that would let it go on +++"
    tries.one("a run without a record", told("where", program, path), shown("0 begins at 0x400000, _start", blocked))
    path.write_bytes(journal_of(*records))
    for name, content in (("stripped", (box / "stripped").read_bytes()), ("with wrong tables", executable(SYMBOLS)[:-60])):
        (box / "stripped").write_bytes(content)
        tries.one(f"a program {name} has addresses alone", told("where", box / "stripped", path), shown(lines[-1], KILLED_LINE))
        tries.one(f"a program {name}, in an earlier turn", told("where", box / "stripped", path, 6), shown("6 write(1, 0x410000, 3) at 0x400208"))


def try_lines_of_sources(tries, box):
    """A tool for lines is asked for each address."""
    tool, program, path = box / "lines", box / "symbols", box / "journal"
    program.write_bytes(executable(SYMBOLS))
    path.write_bytes(journal_of(*[text for text, _ in RUN[:3]], end(20, KILLED, 15)))
    tool.write_text('#!/bin/sh\n[ "$#$1$2" = 4-i-e ] || exit 1\ncase $4 in\n0x400124) echo "/src/a.c:12 (discriminator 3)" ;;\n0x400180) echo /src/b.h:3; echo /src/b.c:4 ;;\n*) echo "??:0" ;;\nesac\n')
    tool.chmod(0o755)
    moved = "9 changed by the kernel at 0x400124, main+0x24 (/src/a.c:12), goes on at 0x400180, helper (/src/b.h:3, inlined at /src/b.c:4)"
    killed = "20 +++ killed by SIGTERM +++"
    tries.one("a line of the source", told("where", "--addr2line", tool, program, path), shown(moved, killed))
    path.write_bytes(journal_of(*[text for text, _ in RUN[:2]], end(20, KILLED, 15)))
    tries.one("a place without a line", told("where", "--addr2line", tool, program, path), shown(RUN[1][1], killed))
    path.write_bytes(journal_of(*[text for text, _ in RUN[:3]], end(20, KILLED, 15)))
    tool.write_text("#!/bin/sh\nexit 1\n")
    plain = RUN[2][1]
    tries.one("a tool that knows no line", told("where", "--addr2line", tool, program, path), shown(plain, killed))
    status, text, wrong = told("where", "--addr2line", box / "no tool", program, path)
    tries.one("a tool that is not there", (status, text, wrong), (2, "", f"o32trace: {box / 'no tool'}: No such file or directory\n"))


def try_damaged_journals(tries, box):
    """A journal that is damaged: what stands before the damage, and its place."""
    program, path = box / "symbols", box / "journal"
    program.write_bytes(executable(SYMBOLS))
    front, first, second = len(journal_of()), *(len(text) for text, _ in RUN[:2])
    whole = journal_of(*[text for text, _ in RUN[:2]], end(20, KILLED, 11))
    rows = [
        ("nothing", b"", "", 0, "it ends early"),
        ("no journal", b"some text", "", 0, "no journal"),
        ("half a front", whole[: front - 1], "", front - 1, "it ends early"),
        ("a front alone", whole[:front], "0 begins at 0x400000, _start\n", front, "it ends early"),
        ("half a record", whole[: front + 20], "0 begins at 0x400000, _start\n", front + 20, "it ends early"),
        ("one record and a half", whole[: front + first + 9], f"{RUN[0][1]}\n", front + first + 9, "it ends early"),
        ("no end", whole[:-11], f"{RUN[1][1]}\n", front + first + second, "it ends early"),
        ("half an end", whole[:-1], f"{RUN[1][1]}\n", len(whole) - 1, "it ends early"),
        ("a turn that falls", journal_of(RUN[1][0], RUN[0][0]), f"{RUN[1][1]}\n", front + second, "no turn that may follow: 4"),
        ("a wrong kind", journal_of(RUN[0][0], struct.pack(">QB", 6, 9)), f"{RUN[0][1]}\n", front + first + 8, "no kind that may follow: 9"),
        ("bytes behind the end", whole + b"x", f"{RUN[1][1]}\n{KILLED_LINE}\n", len(whole), "bytes behind the end"),
    ]
    for name, content, text, at, why in rows:
        path.write_bytes(content)
        tries.one(f"where: {name}", told("where", program, path), (2, text, f"o32trace: {path}: byte {at}: {why}\n"))
    path.write_bytes(whole)
    refusals = [
        ((program, path, 21), f"{path}: the run has no turn 21: it ended with turn 20"),
        ((program, path, 0), "'0' is no turn"),
        ((program, path, "1x"), "'1x' is no turn"),
        ((program, path, 10**12 + 1), f"'{10**12 + 1}' is no turn"),
        ((path, path), f"{path}: no big-endian executable of 32 bits"),
        ((box / "none", path), f"[Errno 2] No such file or directory: '{box / 'none'}'"),
        ((program,), "use: o32trace.py where [--addr2line TOOL] PROGRAM JOURNAL [TURN]"),
        ((program, path, 1, 2), "use: o32trace.py where [--addr2line TOOL] PROGRAM JOURNAL [TURN]"),
    ]
    for words, why in refusals:
        tries.one(f"where is refused: {why}", told("where", *words), (2, "", f"o32trace: {why}\n"))
    # A write of 3 MB is passed over in pieces.
    path.write_bytes(journal_of(record(1, CALL, 0x400110, (4003, 0, 1, 2, 3), [struct.pack(">BII", 2, 0x410000, 3000000) + bytes(3000000)]), end(1, 1, 5)))
    tries.one("a long write", told("where", program, path), shown("1 read(0, 0x1, 2) at 0x400110, main+0x10", "1 +++ exited with 5 +++"))


def try_example(tries, box):
    """An example as it is kept has no symbols; built with them, its functions are shown."""
    path = box / "journal"
    path.write_bytes(journal_of(record(6, CALL, 0x400014, (4004, 1, 0x400100, 3, 0)), record(9, CALL, 0x400020, (4001, 7, 0, 0, 0)), end(9, 1, 7)))
    hello = TOP / "examples" / "hello"
    tries.one("where hello wrote", told("where", hello, path, 8), shown("6 write(1, 0x400100, 3) at 0x400014"))
    tries.one("where hello ended", told("where", hello, path), shown("9 exit(7) at 0x400020", "9 +++ exited with 7 +++"))
    if not all(map(shutil.which, ("clang", "ld.lld", "llvm-nm", "llvm-addr2line"))):
        print("tools_test: no example is built with symbols: clang, lld, llvm-nm or llvm-addr2line is not at hand")
        return
    words = "--target=mips-linux-gnu -mips32r2 -mabi=32 -msoft-float -mno-abicalls -fno-pic -G 0 -ffreestanding -O1 -g -nostdlib -static -fuse-ld=lld"
    built = box / "signals"
    made = subprocess.run(["clang", *words.split(), "-o", built, TOP / "examples" / "signals.c"], capture_output=True, timeout=LIMIT, check=False)
    tries.one("an example is built with symbols", (made.returncode, made.stderr), (0, b""))
    listed = subprocess.run(["llvm-nm", built], capture_output=True, text=True, timeout=LIMIT, check=True).stdout.splitlines()
    places = {line.split()[-1]: int(line.split()[0], 16) for line in listed}
    source = (TOP / "examples" / "signals.c").read_text(encoding="utf-8").splitlines()
    line = next(number for number, text in enumerate(source, 1) if "main(" in text)
    path.write_bytes(journal_of(record(3, BEFORE, places["main"], effects=[register(34, places["on_end"] + 4)]), end(5, KILLED, 15)))
    text = f"3 changed by the kernel at {places['main']:#x}, main, goes on at {places['on_end'] + 4:#x}, on_end+0x4"
    tries.one("its functions", told("where", built, path), shown(text, "5 +++ killed by SIGTERM +++"))
    status, text, _ = told("where", "--addr2line", "llvm-addr2line", built, path)
    tries.one("its lines", (status, ", main (" in text, f"signals.c:{line}), goes on at" in text or f"signals.c:{line + 1}), goes on at" in text), (0, True, True))


PARTS = [try_places, try_lines_of_sources, try_damaged_journals, try_example]
