#!/usr/bin/env python3
"""Measures how much longer the emulator takes for twice as much of what it keeps.

usage: growth.py

Guest programs are run on the program that ./o32run builds, each for three counts of which each is twice the one before:
they map pages one by one, each where the emulator chooses, and leave them mapped; they copy a descriptor so many times and
close the copies, 400 times over; they make files in the root directory, each with a name of its own, and leave them there;
and they queue a real-time signal to themselves so many times and take them one by one, 200 times over. The time of each
count is the least of the processor's seconds of a few runs, less that of a run that does it once. At most 2.1 times as long
for twice as much, or the status is 1.
"""
import argparse
import os
import pathlib
import resource
import struct
import subprocess
import sys
import tempfile
from collections.abc import Callable
from typing import NamedTuple

sys.dont_write_bytecode = True

from calls import go_round  # noqa: E402
from guest_program import (  # noqa: E402
    A0,
    A1,
    A2,
    A3,
    COUNTER,
    DATA,
    FAILED,
    S2,
    S3,
    T0,
    T1,
    V0,
    ZERO,
    Program,
    addiu,
    addu,
    bne,
    call,
    load_constant,
    mappings_of_a_page,
    ori,
    sb,
    sll,
    srl,
)
from processes import processor_name  # noqa: E402
from words import default_emulator  # noqa: E402

REPETITIONS = 3

# The kinds of guests: how many runs of each count, and the most that twice as much may take.
GUEST_REPETITIONS = 9
LIMIT = 2.1

# asm/unistd.h of MIPS Linux, o32.
OPEN_CALL, CLOSE_CALL, DUP_CALL = 4005, 4006, 4041
RT_SIGPROCMASK_CALL, RT_SIGTIMEDWAIT_CALL, RT_SIGQUEUEINFO_CALL = 4195, 4197, 4198

# asm/fcntl.h of MIPS Linux: O_WRONLY and O_CREAT.
WRITE_AND_CREATE = 0x101

# asm/signal.h of MIPS Linux: SIG_BLOCK, the size of a set of signals, and a real-time signal; si_code of a queued signal
# (SI_QUEUE); what getpid(2) gives (docs/RULES.md, "System calls").
BLOCK = 1
SET_SIZE = 16
SIGNAL = 40
QUEUED = -1
OWN_PROCESS = 100

# What the program that queues signals has at DATA: the set with that signal alone, no time, and the struct siginfo.
SET = DATA
NO_TIME = DATA + 0x10
INFO = DATA + 0x20
SIGNAL_DATA = struct.pack(">4I", 0, 1 << (SIGNAL - 33), 0, 0).ljust(INFO - DATA, b"\0") + struct.pack(">3i", SIGNAL, QUEUED, 0)

NOP = sll(ZERO, ZERO, 0)


def repeat(words):
    """These words, which keep S2, as many times as it says; S2 is 0 afterwards."""
    return [*words, addiu(S2, S2, -1), bne(S2, ZERO, -len(words) - 2), NOP]


def descriptors(count):
    """Each round makes so many copies of standard input, the first of which is 3, and closes them."""
    made = repeat([addu(A0, ZERO, ZERO), *call(DUP_CALL)])
    closed = repeat([addu(A0, S3, ZERO), *call(CLOSE_CALL), addiu(S3, S3, 1)])
    number = load_constant(S2, count)
    return Program("descriptors", [], go_round([*number, *made, *number, addiu(S3, ZERO, 3), *closed]), FAILED)


def nodes():
    """Each round makes a file whose name is the round's number in three bytes from 0x80 on, 7 bits of it in each."""
    byte = [[ori(T1, T0, 0x80), sb(T1, place, S2), srl(T0, T0, 7)] for place in (1, 2, 3)]
    opened = [addu(A0, S2, ZERO), addiu(A1, ZERO, WRITE_AND_CREATE), addiu(A2, ZERO, 0o600), *call(OPEN_CALL)]
    closed = [addu(A0, V0, ZERO), *call(CLOSE_CALL)]
    words = [addu(T0, COUNTER, ZERO), *sum(byte, []), *opened, *closed]
    return Program("nodes", load_constant(S2, DATA), go_round(words), FAILED, data=b"/")


def signals(count):
    """Each round queues the signal, which is blocked, so many times, and takes it as often by rt_sigtimedwait(2)."""
    blocked = [addiu(A0, ZERO, BLOCK), *load_constant(A1, SET), addu(A2, ZERO, ZERO), addiu(A3, ZERO, SET_SIZE)]
    queued = [addiu(A0, ZERO, OWN_PROCESS), addiu(A1, ZERO, SIGNAL), *load_constant(A2, INFO), *call(RT_SIGQUEUEINFO_CALL)]
    asked = [*load_constant(A0, SET), addu(A1, ZERO, ZERO), *load_constant(A2, NO_TIME), addiu(A3, ZERO, SET_SIZE)]
    number = load_constant(S2, count)
    words = [*number, *repeat(queued), *number, *repeat([*asked, *call(RT_SIGTIMEDWAIT_CALL)])]
    return Program("signals", [*blocked, *call(RT_SIGPROCMASK_CALL)], go_round(words), FAILED, data=SIGNAL_DATA)




def built_program(crate, words):
    """The program of a crate, built anew where its sources changed, and run once with these words."""
    folder = pathlib.Path(__file__).resolve().parent.parent / "crates" / crate
    done = subprocess.run(["rt", "run", *words], cwd=folder, stdin=subprocess.DEVNULL, capture_output=True, text=True)
    program = folder / "out" / crate
    if done.returncode != 0 or not program.exists():
        sys.exit(f"{done.stdout}{done.stderr}{crate} was not built")
    return program


def seconds(command, printed):
    """The processor's seconds of one run, which has to print this."""
    before = resource.getrusage(resource.RUSAGE_CHILDREN)
    words = [str(word) for word in command]
    done = subprocess.run(words, stdin=subprocess.DEVNULL, capture_output=True, text=True)
    after = resource.getrusage(resource.RUSAGE_CHILDREN)
    if done.returncode != 0 or done.stdout != printed:
        sys.exit(f"{' '.join(words)}: status {done.returncode}, {done.stdout!r}, {done.stderr!r}")
    return after.ru_utime + after.ru_stime - before.ru_utime - before.ru_stime


def best(command, printed, repetitions=REPETITIONS):
    """The least of the seconds of a few runs."""
    return min(seconds(command, printed) for _ in range(repetitions))


class Kind(NamedTuple):
    """Things that a program has more and more of: their name, the counts, each twice the one before, how many times as long twice as
    many may take, and the seconds that a program takes for a count."""

    things: str
    counts: list
    limit: float
    taken: Callable


def measure(program, kind):
    """Prints what each count takes, and how much longer that is than for the one before: whether none takes longer than it may."""
    last, within = None, True
    for count in kind.counts:
        time = kind.taken(program, count)
        if time <= 0:
            sys.exit(f"{count} {kind.things}: too short to be measured")
        ratio = "" if last is None else f", {time / last:.2f} times as long as for half as many"
        within = within and (last is None or time / last <= kind.limit)
        print(f"{count:7,} {kind.things}: {time:.4f} seconds{ratio}", flush=True)
        last = time
    return within


def compare(document, program_of, kinds):
    """Prints what each count of each kind takes. The status: 1 where one takes longer than it may. `program_of` builds the program."""
    if len(sys.argv) > 1:
        print(document.strip())
        return 0 if sys.argv[1:] == ["--help"] else 2
    program = program_of()
    print(f"{processor_name()}, {os.cpu_count()} processors, load {os.getloadavg()[0]:.1f}")
    within = [measure(program, kind) for kind in kinds]
    print(f"load at the end {os.getloadavg()[0]:.1f}")
    return 0 if all(within) else 1


def seconds_of_guest(emulator, program, rounds):
    with tempfile.TemporaryDirectory() as folder:
        guest = pathlib.Path(folder) / "guest"
        guest.write_bytes(program.executable(rounds))
        return best([emulator, "run", guest], "", GUEST_REPETITIONS)


def kind_of_guests(things, counts, made):
    """The kind whose program and rounds are made for a count."""

    def taken(emulator, count):
        program, rounds = made(count)
        return seconds_of_guest(emulator, program, rounds) - seconds_of_guest(emulator, program, 1)

    return Kind(things, counts, LIMIT, taken)


KINDS = [
    kind_of_guests("mappings", [8_000, 16_000, 32_000], lambda count: (mappings_of_a_page(), count)),
    kind_of_guests("descriptors", [250, 500, 1_000], lambda count: (descriptors(count), 400)),
    kind_of_guests("nodes", [8_000, 16_000, 32_000], lambda count: (nodes(), count)),
    kind_of_guests("pending signals", [250, 500, 1_000], lambda count: (signals(count), 200)),
]


def main():
    return compare(__doc__, lambda: default_emulator(argparse.ArgumentParser(prog="growth.py")), KINDS)


if __name__ == "__main__":
    sys.exit(main())
