#!/usr/bin/env python3
"""Tries journals and their replay over a program that is built: a part of .ci/launcher_test. The last line counts.

usage: journal_tries.py O32RUN

What is wanted was worked out from docs/RULES.md, 'The journal': places of a damaged journal by tools/journal.py, which reads that
form anew, and differences by hand from the words of the guests below.
"""
import io
import os
import pathlib
import struct
import subprocess
import sys
import tempfile

sys.dont_write_bytecode = True
TOP = pathlib.Path(__file__).resolve().parent.parent
sys.path[:0] = [str(TOP / "tools"), str(TOP / "examples")]

import build_hello  # noqa: E402
import journal  # noqa: E402
from journal import BEFORE, BUDGET, CALL, END, EXITED, IDLE, KILLED, MAP, OUTPUT, PROTECT, REGISTER, UNMAP, WRITE  # noqa: E402

# No step takes longer, in seconds, and places below this are tried one by one.
LIMIT, TRIED = 120, 200
CODE, DATA = 0x00400000, 0x00410000
HELLO = build_hello.words(7)


class Tries:
    passed = failed = 0

    def one(self, name, found, wanted):
        if found == wanted:
            self.passed += 1
        else:
            self.failed += 1
            print(f"FAILED {name}\n  wanted: {wanted!r:.300}\n  found:  {found!r:.300}")


def told(*words, stdin=b""):
    """The status of the emulator, and what it writes to both streams."""
    ran = subprocess.run([sys.argv[1], *map(str, words)], capture_output=True, timeout=LIMIT, input=stdin)
    return ran.returncode, ran.stdout.decode("latin-1"), ran.stderr.decode("latin-1")


def diverges(turn, wanted, found, sent=""):
    return 120, sent, f"o32run: diverged at turn {turn} wanted {wanted} found {found}\n"


def refused(why, sent=""):
    return 125, sent, f"o32run: {why}\n"


# Guests


def executable(*segments):
    """A program of segments, each its address, its bytes and its protection."""
    ident = b"\x7fELF" + bytes([1, 2, 1]) + bytes(9)
    header = struct.pack(">HHIIIIIHHHHHH", 2, 8, 1, CODE, 52, 0, 0x1000, 52, 32, len(segments), 0, 0, 0)
    table, body = b"", b""
    for address, content, protection in segments:
        content += bytes(-len(content) % 4096)
        table += struct.pack(">IIIIIIII", 1, 4096 + len(body), address, address, len(content), len(content), protection, 4096)
        body += content
    return (ident + header + table).ljust(4096, b"\0") + body


def words_of(*words):
    return b"".join(struct.pack(">I", word) for word in words)


def guest(name, *words):
    pathlib.Path(name).write_bytes(executable((CODE, words_of(*words), 5)))
    return name


def number(register, value):
    """LUI and ORI of a value."""
    return [0x3C000000 | register << 16 | value >> 16, 0x34000000 | register << 21 | register << 16 | value & 0xFFFF]


def call(number_of_call, *arguments):
    """A system call of ten instructions: its four arguments, its number, SYSCALL."""
    given = [*arguments, 0, 0, 0, 0][:4]
    return [word for place, value in enumerate(given) for word in number(4 + place, value)] + [0x24020000 | number_of_call, 0x0000000C]


# Journals by hand


def journal_of(records, arguments=("guest",), environment=()):
    text = journal.MAGIC + struct.pack(">II", len(arguments), len(environment))
    for it in (*arguments, *environment):
        text += struct.pack(">I", len(it.encode())) + it.encode()
    return text + bytes(16) + b"".join(records)


def record(turn, kind, words, *effects):
    return struct.pack(">QB6II", turn, kind, *words, len(effects)) + b"".join(effects)


def end(turn, finish, value=0):
    return struct.pack(">QBBB", turn, END, finish, value)


def register(number_of_register, value):
    return struct.pack(">BBI", REGISTER, number_of_register, value)


def write(address, content):
    return struct.pack(">BII", WRITE, address, len(content)) + content


def output(stream, content):
    return struct.pack(">BBI", OUTPUT, stream, len(content)) + content


def pages(tag, first, count, *protection):
    return struct.pack(">BII", tag, first, count) + bytes(protection)


# The records of hello: the words pc, $v0, $a0, $a1, $a2, $a3 at its two SYSCALLs.
WROTE = (CODE + 0x14, 4004, 1, CODE + 0x100, 3, 0)
LEAVES = (CODE + 0x20, 4001, 7, CODE + 0x100, 3, 0)
SENT, THREE = output(1, b"Hi\n"), register(2, 3)
LEFT = [record(9, CALL, LEAVES), end(9, EXITED, 7)]


def replayed(program, *records, **front):
    """What a replay of records by hand comes to."""
    pathlib.Path("by_hand").write_bytes(journal_of(records, **front))
    return told("replay", program, "by_hand")


def seen(path):
    """The turns, kinds and words of the records of a journal, and how it ends."""
    _, found, _ = journal.read_journal(path)
    return [(it.turn, it.kind, tuple(it.words)) for it in found[:-1]], (found[-1].turn, found[-1].finish, found[-1].value)


def place_of(text):
    """Where a journal is bad, or None."""
    found = journal.Journal(io.BytesIO(text))
    for _ in found.records():
        pass
    return found.bad and found.bad.at


def try_hello(tries):
    """The journal of a program that writes and exits, and what a changed one comes to."""
    tries.one("hello with a journal", told("run", "--journal", "journal", "hello"), (7, "Hi\n", ""))
    tries.one("its records", seen("journal"), ([(6, CALL, WROTE), (9, CALL, LEAVES)], (9, EXITED, 7)))
    tries.one("it is replayed", told("replay", "hello", "journal"), (7, "Hi\n", ""))
    text = pathlib.Path("journal").read_bytes()
    front, records, size = journal.read_journal("journal")
    tries.one("its front", (front.arguments, front.environment, front.random, front.bad), (["hello"], [], bytes(16), None))
    tries.one("it has one output", text.count(b"Hi\n"), 1)
    pathlib.Path("changed").write_bytes(text.replace(b"Hi\n", b"Ji\n"))
    tries.one("the output of a replay is the journal's", told("replay", "hello", "changed"), (7, "Ji\n", ""))
    pathlib.Path("changed").write_bytes(text[:-1])
    tries.one("a journal without its last byte", told("replay", "hello", "changed"), refused(f"journal at {size - 1}"))
    pathlib.Path("changed").write_bytes(text[: records[0].at] + text[records[1].at :])
    tries.one("a journal without a record", told("replay", "hello", "changed"), diverges(6, 0, 1))
    pathlib.Path("changed").write_bytes(text[: records[2].at])
    tries.one("a journal without its end", told("replay", "hello", "changed"), refused(f"journal at {records[2].at}"))
    pathlib.Path("term").write_text("at 5000 kill 15\n")
    tries.one("a signal from outside", told("run", "--schedule", "term", "--journal", "killed", "hello"), (143, "", ""))
    tries.one("its records", seen("killed"), ([], (6, KILLED, 15)))
    tries.one("it is replayed, too", told("replay", "hello", "killed"), (143, "", ""))
    tries.one("a journal by hand", replayed("hello", record(6, CALL, WROTE, SENT, THREE), *LEFT), (7, "Hi\n", ""))


def try_fronts(tries):
    """What stands in front of the records."""
    pathlib.Path("chance").write_text("random 0102030405060708090a0b0c0d0e0f101112\n")
    words = ("--env", "A=b", "--env", "C=", "hello", "x", "y z", "\u00e9", "")
    tries.one("a run with words", told("run", "--schedule", "chance", "--journal", "worded", *words)[0], 7)
    front = journal.read_journal("worded")[0]
    tries.one("the words", (front.arguments, front.environment), (["hello", "x", "y z", "\u00e9", ""], ["A=b", "C="]))
    tries.one("the bytes of chance", front.random, bytes(range(1, 17)))
    tries.one("words of a journal that are too long", replayed("hello", end(9, EXITED), arguments=("w" * 131072,)), refused("arguments too long"))
    # Four words of the arguments and the environment, 34 of the pairs, two texts with their NULs: 131,072 bytes are allowed.
    for more, wanted in ((0, (124, "", "")), (1, refused("arguments too long"))):
        name = "w" * ((131072 - 4 * 38 - 2) // 2 + more)
        tries.one(f"words that take all room and {more}", replayed("hello", end(1, BUDGET), arguments=(name,)), wanted)
    tries.one("the stack of the journal's words", told("run", "--journal", "worded", "stack", "a", "b"), (3, "", ""))
    tries.one("is the replay's", told("replay", "stack", "worded"), (3, "", ""))


def try_ends(tries):
    """The ends of a run, and the replay of each."""
    for name, words, wanted, last in (
        ("an exit", ["hello"], (7, "Hi\n", ""), (9, EXITED, 7)),
        ("the end of a budget", ["--budget", 5, "hello"], (124, "", ""), (5, BUDGET, 0)),
        ("the end of a budget in the turn of a call", ["--budget", 6, "hello"], (124, "Hi\n", ""), (6, BUDGET, 0)),
        ("a fault", ["reads_at_0"], (139, "", ""), (2, KILLED, 11)),
        ("a call that waits for nothing", ["waits"], (123, "", ""), (7, journal.BLOCKED, 0)),
        ("a sleep", ["sleeps"], (5, "", ""), (21, EXITED, 5)),
        ("a fault that has a handler", ["handles"], (9, "", ""), None),
    ):
        tries.one(f"{name} with a journal", told("run", "--journal", "journal", *words), wanted)
        _, end_of = seen("journal")
        tries.one(f"{name}: its end", end_of, last or end_of)
        tries.one(f"{name} is replayed", told("replay", words[-1], "journal"), wanted)
    told("run", "--journal", "journal", "sleeps")
    records, _ = seen("journal")
    tries.one("a sleep has an idle turn behind its call, and its end before the next instruction",
              [(it[0], it[1], it[2][0]) for it in records[:3]], [(10, CALL, CODE + 36), (11, IDLE, CODE + 40), (12, BEFORE, CODE + 40)])
    text, (_, idle, *_) = pathlib.Path("journal").read_bytes(), journal.read_journal("journal")[1]
    pathlib.Path("changed").write_bytes(text[: idle.at + 12] + bytes([text[idle.at + 12] ^ 4]) + text[idle.at + 13 :])
    tries.one("an idle turn is compared", told("replay", "sleeps", "changed"), diverges(11, CODE + 40 ^ 4, CODE + 40))
    with open("/dev/full", "wb") as full:
        ran = subprocess.run([sys.argv[1], "run", "--journal", "journal", "hello"], stdout=full, stderr=subprocess.PIPE, timeout=LIMIT)
        tries.one("a run whose output fails", (ran.returncode, ran.stderr), (119, b""))
        size = os.path.getsize("journal")
        tries.one("its journal is a first part", told("replay", "hello", "journal"), refused(f"journal at {size}"))
        part = pathlib.Path("journal").read_bytes()
        told("run", "--journal", "journal", "hello")
        whole, (_, records, _) = pathlib.Path("journal").read_bytes(), journal.read_journal("journal")
        tries.one("of the turns that are finished, and no more than one other", (whole.startswith(part), records[0].at <= size <= records[1].at), (True, True))
        ran = subprocess.run([sys.argv[1], "replay", "hello", "journal"], stdout=full, stderr=subprocess.PIPE, timeout=LIMIT)
        tries.one("a replay whose output fails", (ran.returncode, ran.stderr), (119, b""))


def try_c_program(tries):
    """What the start of a C program calls, with a directory of three names, and its journal with a changed word."""
    calls = [
        (4283, 0x418000), (4252, DATA + 0x800), (4054, 1, 0x40087468, DATA + 0x810), (4045,), (4045, 0x413000), (4210, 0, 0x2000, 3, 0x802),
        (4288, 0xFFFFFF9C, DATA, 0x12000), (4215, 3, DATA + 0x820), (4219, 3, 0x6FFFE000, 0x2000), (4219, 3, 0x6FFFE000, 0x2000),
        (4146, 1, DATA + 0x100, 2), (4001,),
    ]
    # addiu $sp, $sp, -32; addiu $t0, $zero, -1; sw $t0, 16($sp); sw $zero, 20($sp)
    code = words_of(0x27BDFFE0, 0x2408FFFF, 0xAFA80010, 0xAFA00014, *(word for it in calls for word in call(*it)))
    vector = words_of(DATA + 0x200, 2, DATA + 0x202, 6)
    data = (b"/d\0".ljust(0x100, b"\0") + vector).ljust(0x200, b"\0") + b"3 files\n"
    pathlib.Path("begins").write_bytes(executable((CODE, code, 5), (DATA, data, 6)))
    os.makedirs("tree/d")
    for name in ("a", "bb", "ccc"):
        pathlib.Path(f"tree/d/{name}").touch()
    subprocess.run([sys.executable, TOP / "examples/tree_image.py", "pack", "tree", "image"], check=True, timeout=LIMIT)
    words = ("--image", "image", "--journal", "journal", "begins")
    tries.one("the start of a C program", told("run", *words), (0, "3 files\n", ""))
    records, last = seen("journal")
    tries.one("its records stand at its calls", [it[0] for it in records], list(range(14, 125, 10)))
    tries.one("its end", last, (124, EXITED, 0))
    tries.one("it is replayed without the image", told("replay", "begins", "journal"), (0, "3 files\n", ""))
    text = pathlib.Path("journal").read_bytes()
    at = next(it.at for it in journal.read_journal("journal")[1] if it.turn == 54)
    pathlib.Path("changed").write_bytes(text[: at + 17] + bytes(4) + text[at + 21 :])
    tries.one("with another word of a call", told("replay", "begins", "changed"), diverges(54, 0, 0x413000))


def try_differences(tries):
    """Each way in which a machine and its journal may differ, by hand."""
    rows = [
        ("the pc", (WROTE[0] + 4, *WROTE[1:]), 6, WROTE[0] + 4, WROTE[0]),
        ("$v0, before $a1", (WROTE[0], 4005, 1, 0, 3, 0), 6, 4005, 4004),
        ("$a0", (*WROTE[:2], 2, *WROTE[3:]), 6, 2, 1),
        ("$a1", (*WROTE[:3], 5, *WROTE[4:]), 6, 5, CODE + 0x100),
        ("$a2", (*WROTE[:4], 2**32 - 1, 0), 6, 2**32 - 1, 3),
        ("$a3", (*WROTE[:5], 1), 6, 1, 0),
    ]
    for name, words, *wanted in rows:
        tries.one(f"{name} differs", replayed("hello", record(6, CALL, words, SENT, THREE), *LEFT), diverges(*wanted))
    begun = (CODE, 0, 0, 0, 0, 0)
    third = (CODE + 12, 4004, 1, CODE, 0, 0)
    rows = [
        ("a call without its record", [*LEFT], (6, 0, 1)),
        ("a call in the last turn without its record", [end(6, BUDGET)], (6, 0, 1)),
        ("a record of a call without one", [record(2, CALL, begun), *LEFT], (2, 1, 0)),
        ("an idle turn in place of an instruction", [record(1, IDLE, begun), record(6, CALL, WROTE, SENT, THREE), *LEFT], (6, 1, 0)),
        ("a record before an instruction, whose words differ", [record(4, BEFORE, begun), *LEFT], (4, CODE, CODE + 12)),
    ]
    for name, records, wanted in rows:
        tries.one(name, replayed("hello", *records), diverges(*wanted))
    jumps = record(4, BEFORE, third, register(34, CODE + 0x20), register(4, 5), register(2, 4001))
    after = (CODE + 0x20, 4001, 5, CODE, 0, 0)
    tries.one("a record before an instruction moves the program", replayed("hello", jumps, record(4, CALL, after), end(4, EXITED, 5)), (5, "", ""))
    tries.one("a replay exits as its journal says", replayed("hello", jumps, record(4, CALL, after), end(4, EXITED, 6)), (6, "", ""))
    told_killed = replayed("hello", record(6, BEFORE, WROTE, output(1, b"out"), output(2, b"err")), end(6, KILLED, 15))
    tries.one("a record in the turn in which a signal kills", told_killed, (143, "out", "err"))
    tries.one("a run of no turn", replayed("hello", end(0, BUDGET)), (124, "", ""))
    tries.one("a signal above 127", replayed("hello", end(1, KILLED, 128)), (255, "", ""))
    fault = [
        ("a fault, and a signal that kills in the next turn", [end(2, KILLED, 11)], (139, "", "")),
        ("a fault in the last turn", [end(1, BUDGET)], (124, "", "")),
        ("a fault in each turn up to the last", [end(2, BUDGET)], (124, "", "")),
        ("a fault with nothing behind it", [end(3, KILLED, 11)], diverges(1, 0, 2)),
        ("a record of a call where there is a fault", [record(1, CALL, begun), end(3, BUDGET)], diverges(1, 1, 0)),
    ]
    for name, records, wanted in fault:
        tries.one(name, replayed("reads_at_0", *records), wanted)


def try_effects(tries):
    """The effects of a record, in their order, up to the first difference."""
    free, absent, top = 0x500, 0x20000000, 0x7FFF0000
    rows = [
        ("a write to an absent page", [write(absent, b"abc")], (6, absent, absent)),
        ("a write that passes the stack's end", [write(top - 2, b"abcd")], (6, top - 2, top)),
        ("a write to what may not be written", [write(CODE + 0x100, b"x")], (6, CODE + 0x100, CODE + 0x100)),
        ("a write beyond user space", [write(0xFFFFFFF0, b"x")], (6, 0xFFFFFFF0, 0xFFFFFFF0)),
        ("a protect that meets an absent page", [pages(PROTECT, CODE >> 12, 2, 7)], (6, CODE, CODE + 4096)),
        ("a protect of an absent page", [pages(PROTECT, free, 1, 7)], (6, free << 12, free << 12)),
        # A page of code, 2,048 of the stack and that of the returns are mapped before.
        ("a map past the limit of pages", [pages(MAP, 0x10000, 131072 - 2049, 3)], (6, 131072, 131073)),
        ("a write where a page was taken away", [pages(MAP, free, 1, 7), pages(UNMAP, free, 1), write(free << 12, b"x")], (6, free << 12, free << 12)),
        ("a write where a protection was taken", [pages(MAP, free, 2, 7), pages(PROTECT, free + 1, 1, 1), write((free + 1 << 12) - 1, b"xy")],
         (6, (free + 1 << 12) - 1, free + 1 << 12)),
        ("code that was taken away", [pages(UNMAP, CODE >> 12, 1)], (7, 0, 2)),
    ]
    for name, effects, wanted in rows:
        found = replayed("hello", record(6, CALL, WROTE, output(1, b"one"), *effects, output(2, b"two")), *LEFT)
        sent = "two" if wanted[0] == 7 else ""
        tries.one(name, found, (120, "one", f"{sent}{diverges(*wanted)[2]}"))
    good = [
        pages(PROTECT, free, 0, 7), pages(UNMAP, free, 5), pages(MAP, free, 1, 3), write(free << 12, b"x" * 4096), write(absent, b""),
        pages(MAP, 0x10000, 0, 7), pages(UNMAP, 524279, 1), output(1, b""), pages(PROTECT, CODE >> 12, 1, 7),
        # addiu $v0, $zero, 4001; addiu $a0, $zero, 8; and these two once more
        write(CODE + 0x18, words_of(0x24020FA1, 0x24040008)), register(32, 5), register(33, 6), register(35, 7), THREE,
    ]
    leaves = [record(9, CALL, (*LEAVES[:2], 8, *LEAVES[3:])), end(9, EXITED, 8)]
    tries.one("effects that are in order", replayed("hello", record(6, CALL, WROTE, SENT, *good), *leaves), (8, "Hi\n", ""))


def try_others(tries):
    """The journal of another program."""
    told("run", "--journal", "journal", "hello")
    for name, wanted in (("exits_5", (3, 0, 1)), ("exits_as_hello", (6, 4004, 4001)), ("hello_8", (9, 7, 8)), ("reads_at_0", (1, 0, 2))):
        sent = "Hi\n" if wanted[0] == 9 else ""
        tries.one(f"the journal of hello on {name}", told("replay", name, "journal"), diverges(*wanted, sent))
    told("run", "--journal", "journal", "exits_5")
    tries.one("the journal of exits_5 on hello", told("replay", "hello", "journal"), diverges(3, 1, 0))


def try_damage(tries):
    """A journal that is cut, and one with a wrong byte, is bad where a reader of the form finds it."""
    told("run", "--journal", "journal", "--env", "A=b", "hello", "x", "a word that is a good deal longer than those")
    text = pathlib.Path("journal").read_bytes()
    tries.one("a journal that is long enough", len(text) >= TRIED, True)
    for at in range(TRIED):
        pathlib.Path("cut").write_bytes(text[:at])
        tries.one(f"a journal of {at} bytes", (place_of(text[:at]), told("replay", "hello", "cut")), (at, refused(f"journal at {at}")))
    for at in range(len(text)):
        changed = text[:at] + bytes([text[at] ^ 0x81]) + text[at + 1 :]
        pathlib.Path("cut").write_bytes(changed)
        place, found = place_of(changed), told("replay", "hello", "cut")
        if place is None:
            tries.one(f"a journal with another byte {at} is in order", "journal at" in found[2], False)
        else:
            tries.one(f"a journal with a wrong byte {at}", found, refused(f"journal at {place}"))
    begun, more = (CODE, 0, 0, 0, 0, 0), end(9, EXITED, 7)
    forms = [
        ("no argument", journal.MAGIC + bytes(8), 8),
        ("a text with a NUL", journal_of([more], arguments=("a", "b\0")), 25),
        ("a text that is not UTF-8", journal_of([more], arguments=("a",)).replace(b"a", b"\xff"), 20),
        ("a turn above 10^12", [end(10**12 + 1, BUDGET)], 0),
        ("a turn that falls", [record(2, IDLE, begun), end(1, BUDGET)], 37),
        ("a record of turn 0", [record(0, BEFORE, begun), more], 0),
        ("kind 0", [record(1, 0, begun), more], 8),
        ("kind 5", [record(1, 5, begun), more], 8),
        ("a kind twice in a turn", [record(1, BEFORE, begun), record(1, BEFORE, begun), more], 45),
        ("an idle turn behind a call", [record(1, CALL, begun), record(1, IDLE, begun), more], 45),
        ("effects of an idle turn", [record(1, IDLE, begun, THREE), more], 33),
        ("tag 0", [record(1, CALL, begun, b"\0"), more], 37),
        ("tag 7", [record(1, CALL, begun, b"\7"), more], 37),
        ("register 0", [record(1, CALL, begun, register(0, 0)), more], 38),
        ("register 36", [record(1, CALL, begun, register(36, 0)), more], 38),
        ("a first page of 524280", [record(1, CALL, begun, pages(UNMAP, 524280, 0)), more], 38),
        ("pages up to 524281", [record(1, CALL, begun, pages(MAP, 524279, 2, 7)), more], 42),
        ("protection 8", [record(1, CALL, begun, pages(PROTECT, 1024, 1, 8)), more], 46),
        ("stream 3", [record(1, CALL, begun, output(3, b"")), more], 38),
        ("finish 0", [end(9, 0)], 9),
        ("finish 5", [end(9, 5)], 9),
        ("a value of the end of a budget", [end(9, BUDGET, 1)], 10),
        ("a signal that kills in the turn of a call", [record(1, CALL, begun), end(1, KILLED, 9)], 46),
        ("bytes behind the end", [more, b"x"], 11),
        ("a write longer than the file", [record(1, CALL, begun, struct.pack(">BII", WRITE, 0, 2**32 - 1)), more], 57),
    ]
    for name, given, at in forms:
        whole = given if isinstance(given, bytes) else journal_of(given)
        at += 0 if isinstance(given, bytes) else len(journal_of([]))
        pathlib.Path("cut").write_bytes(whole)
        tries.one(f"{name} is bad", (place_of(whole), told("replay", "hello", "cut")), (at, refused(f"journal at {at}")))


def try_words(tries):
    """The words of a replay and of a journal's file, and the order of what is looked at."""
    told("run", "--journal", "journal", "hello")
    pathlib.Path("text").write_text("some text, longer than the header of an executable of 32 bits\n")
    usage = [
        (["replay"], 1), (["replay", "hello"], 2), (["replay", "hello", "journal", "x"], 3), (["replay", "", "journal"], 1),
        (["replay", "hello", ""], 2), (["run", "--journal"], 2), (["run", "--journal", "", "hello"], 2),
        (["run", "--journal", "a", "--journal", "b", "hello"], 3), (["run", "--journal", "hello", "hello"], 3),
        (["run", "--trace", "a", "--journal", "a", "hello"], 4), (["run", "--journal", "a", "--save", "a", "hello"], 4),
        (["run", "--journal", "a", "--native", "a", "hello"], 4), (["run", "--image", "a", "--journal", "a", "hello"], 4),
        (["run", "--journal", "a", "--schedule", "a", "hello"], 4),
    ]
    for words, at in usage:
        tries.one(" ".join(words), told(*words), refused(f"usage at word {at}"))
    with open("long", "wb") as file:
        file.truncate(2**28 + 1)
    for words, why in (
        (["none", "none"], "file 1 missing"), (["-x", "journal"], "file 1 missing"), (["hello", "none"], "file 4 missing"),
        (["text", "none"], "elf rule 2"), (["hello", "text"], "journal at 0"), (["hello", "hello"], "journal at 0"), (["hello", "long"], "file 4 too long"),
    ):
        tries.one(f"replay {' '.join(words)}", told("replay", *words), refused(why))
    tries.one("a journal that is a folder", told("replay", "hello", "tree"), (122, "", ""))
    tries.one("a replay takes no input", told("replay", "hello", "journal", stdin=b"input"), (7, "Hi\n", ""))


def try_files(tries):
    """The files of a run with a journal, in their order."""
    tries.one("a journal in a folder that is not there", told("run", "--journal", "none/j", "--trace", "t", "--save", "s", "hello"), (119, "", ""))
    tries.one("the trace was made before it, and nothing was saved", (os.path.getsize("t"), os.path.exists("s")), (0, False))
    tries.one("a trace in a folder that is not there", told("run", "--journal", "j", "--trace", "none/t", "hello"), (119, "", ""))
    tries.one("the journal would be made behind it", os.path.exists("j"), False)
    tries.one("a native log in a folder that is not there", told("run", "--journal", "j", "--native", "none/n", "hello"), (119, "", ""))
    tries.one("and behind the native log", os.path.exists("j"), False)
    tries.one("a journal on a full device", told("run", "--journal", "/dev/full", "--trace", "t", "hello"), (119, "", ""))
    tries.one("no turn is traced then, as none is finished", os.path.getsize("t"), 0)
    found = told("run", "--trace", "/dev/full", "--journal", "part", "hello")
    told("run", "--journal", "journal", "hello")
    whole, (_, records, _) = pathlib.Path("journal").read_bytes(), journal.read_journal("journal")
    part = pathlib.Path("part").read_bytes()
    tries.one("a trace on a full device", (found, whole.startswith(part), records[0].at <= len(part) <= records[1].at), ((119, "Hi\n", ""), True, True))
    pathlib.Path("kept").write_text("kept")
    tries.one("a refused run", told("run", "--journal", "kept", "none"), refused("file 1 missing"))
    tries.one("leaves the file of its journal", pathlib.Path("kept").read_text(), "kept")
    told("run", "--journal", "kept", "--trace", "t", "--native", "n", "--save", "s", "hello")
    told("run", "--journal", "alone", "hello")
    tries.one("a journal beside other texts is the same", pathlib.Path("kept").read_bytes() == pathlib.Path("alone").read_bytes(), True)
    before = {name: pathlib.Path(name).read_bytes() for name in ("hello", "kept")}
    told("replay", "hello", "kept")
    tries.one("a replay leaves both files", {name: pathlib.Path(name).read_bytes() for name in before} == before, True)


def make_guests():
    pathlib.Path("hello").write_bytes(build_hello.executable(7))
    pathlib.Path("hello_8").write_bytes(build_hello.executable(8))
    guest("exits_5", 0x24020FA1, 0x24040005, 0x0000000C)
    # The instructions of hello, with another call in place of write(2), up to its SYSCALL.
    guest("exits_as_hello", 0x24020FA1, *HELLO[1:])
    guest("reads_at_0", 0x8C080000)
    # pipe(); read($v0, $sp, 1)
    guest("waits", 0x24020FCA, 0x0000000C, 0x00402021, 0x03A02821, 0x24060001, 0x24020FA3, 0x0000000C)
    # lw $a0, 0($sp), which is the number of arguments; exit
    guest("stack", 0x8FA40000, 0x24020FA1, 0x0000000C)
    # nanosleep of one second, whose words are of the code; exit(5)
    sleeps = [*call(4166, CODE + 4 * 21), *call(4001, 5), 0, 1, 0]
    guest("sleeps", *sleeps)
    # rt_sigaction of SIGSEGV with the action behind the code; a read at 0; the handler leaves with 9
    handler = CODE + 4 * 11
    handles = [*call(4194, 11, CODE + 4 * 21, 0, 16), 0x8C080000, *call(4001, 9), 0, handler, 0, 0, 0, 0]
    guest("handles", *handles)


PARTS = [try_hello, try_fronts, try_ends, try_c_program, try_differences, try_effects, try_others, try_damage, try_words, try_files]


def main():
    sys.argv[1] = os.path.realpath(sys.argv[1])
    tries, box = Tries(), tempfile.TemporaryDirectory()
    with box as folder:
        os.chdir(folder)
        make_guests()
        for part in PARTS:
            part(tries)
        os.chdir("/")
    print(f"{tries.passed} passed, {tries.failed} failed")
    return 1 if tries.failed else 0


if __name__ == "__main__":
    sys.exit(main())
