#!/usr/bin/env python3
"""Measures what the delivery of a signal costs, with the return from its handler.

Two guest programs are built and run, whose handler is empty: `jr $ra; nop`. In one an interval timer of 1 microsecond is
due in every turn. SIGALRM is blocked while its handler runs, so it is delivered again in the turn behind the return, and
the program itself goes no further: each delivery takes four turns, the handler's two instructions and the two on the page
at 0x7FFF4000, the second of which is sigreturn(2). The same program without a timer is run for as many turns, which its
loop takes, and a delivery costs what the processor's seconds differ by. The other program sends SIGUSR1 to itself by
kill(2), once in each round of its loop; a call costs the whole run there, the loop's few other instructions among it.

Before it measures, the script looks that short forms of the programs write just the traces that are worked out here, line
by line (docs/RULES.md, "The trace"). Where one does not, the status is 1.
"""
import argparse
import itertools
import os
import pathlib
import struct
import sys
import tempfile

sys.dont_write_bytecode = True

from calls import BUDGET_STATUS, FEW_ROUNDS, GETPID_CALL, go_round  # noqa: E402
from guest_program import (  # noqa: E402
    A0,
    A1,
    A2,
    A3,
    DATA,
    FAILED,
    RA,
    V0,
    ZERO,
    Program,
    addiu,
    addu,
    call,
    jr,
    load_constant,
    sll,
)
from processes import processor_name, run  # noqa: E402
from words import a_count, an_executable, default_emulator  # noqa: E402

# asm/unistd.h of MIPS Linux, o32.
KILL_CALL, SETITIMER_CALL, RT_SIGACTION_CALL = 4037, 4104, 4194

# asm/signal.h of MIPS Linux, and the size of a set of signals.
SIGALRM, SIGUSR1 = 14, 16
SET_SIZE = 16

# What getpid(2) gives (docs/RULES.md, "System calls").
OWN_PROCESS = 100

# struct sigaction of o32 stands at DATA, and struct itimerval behind it: the period and the first time, each in seconds and
# microseconds.
ACTION = DATA
SETTING = DATA + 0x20
EVERY_MICROSECOND = (0, 1, 0, 1)
NO_TIMER = (0, 0, 0, 0)

NOP = sll(ZERO, ZERO, 0)
HANDLER = [jr(RA), NOP]

# How many instructions lead from the handler to sigreturn(2), which is the second of them.
RETURNING = 2

DELIVERY_TURNS = len(HANDLER) + RETURNING

# What a delivery is to take at most, in microseconds.
AIM = 2.0


def set_handler(signal):
    return [
        addiu(A0, ZERO, signal),
        *load_constant(A1, ACTION),
        addu(A2, ZERO, ZERO),
        addiu(A3, ZERO, SET_SIZE),
        *call(RT_SIGACTION_CALL),
    ]


# setitimer(2) of timer 0, ITIMER_REAL.
SET_TIMER = [addu(A0, ZERO, ZERO), *load_constant(A1, SETTING), addu(A2, ZERO, ZERO), *call(SETITIMER_CALL)]

# kill(2) keeps the registers of its arguments, and so do a handler and its return.
OWN_SIGNAL = [*call(GETPID_CALL), addu(A0, V0, ZERO), addiu(A1, ZERO, SIGUSR1)]

# The turns of these SYSCALLs, each of which stands before the last word of its call.
TURN_OF_ACTION = len(set_handler(SIGALRM)) - 1
TURN_OF_TIMER = len(set_handler(SIGALRM) + SET_TIMER) - 1
TURN_OF_GETPID = len(set_handler(SIGUSR1) + call(GETPID_CALL)) - 1


class HandlingProgram(Program):
    """A program whose function is the empty handler, which is entered once in each round."""

    def __init__(self, name, setup, round_words, setting=NO_TIMER):
        super().__init__(name, setup, go_round(round_words), FAILED, function=HANDLER, repeated=RETURNING)
        action = struct.pack(">6I", 0, self.function_address(), 0, 0, 0, 0)
        self.data = action.ljust(SETTING - ACTION, b"\0") + struct.pack(">4I", *setting)


TIMED = HandlingProgram("interval timer", set_handler(SIGALRM) + SET_TIMER, [], setting=EVERY_MICROSECOND)
UNTIMED = HandlingProgram("no timer", set_handler(SIGALRM) + SET_TIMER, [])
KILLING = HandlingProgram("kill", set_handler(SIGUSR1) + OWN_SIGNAL, call(KILL_CALL))


def timer_turns(deliveries):
    """How many turns so many deliveries take, from the first turn of the program on."""
    return TURN_OF_TIMER + DELIVERY_TURNS * deliveries


def call_line(turn, number, *arguments, gives=0):
    words = " ".join(f"{word:08x}" for word in arguments)
    return f"{turn} call {number} {words} = {gives:08x} 0"


def action_line(signal):
    return call_line(TURN_OF_ACTION, RT_SIGACTION_CALL, signal, ACTION, 0, SET_SIZE)


def untimed_lines(turns):
    """The trace of the program with or without a timer, but for its signals."""
    setting = call_line(TURN_OF_TIMER, SETITIMER_CALL, 0, SETTING, 0, 0)
    return [action_line(SIGALRM), setting, f"{turns} budget"]


def timed_lines(deliveries):
    """The timer is due in each turn behind the one that set it, and the fourth turn of a delivery is that of its return."""
    turns = timer_turns(deliveries)
    *before, budget = untimed_lines(turns)
    lines = []
    for first in range(TURN_OF_TIMER + 1, turns + 1, DELIVERY_TURNS):
        last = first + DELIVERY_TURNS - 1
        lines += [f"{first} post {SIGALRM}", f"{first} signal {SIGALRM} handler"]
        lines += [f"{turn} post {SIGALRM}" for turn in range(first + 1, last + 1)]
        lines.append(f"{last} return")
    return [*before, *lines, budget]


def killing_lines(rounds):
    """The signal is delivered in the turn behind that of the call, which is the second of a round."""
    lines = [action_line(SIGUSR1), call_line(TURN_OF_GETPID, GETPID_CALL, SIGUSR1, ACTION, 0, 0, gives=OWN_PROCESS)]
    setup_turns = len(KILLING.setup) + 2
    for number in range(rounds):
        turn = setup_turns + number * KILLING.per_round() + 2
        lines.append(call_line(turn, KILL_CALL, OWN_PROCESS, SIGUSR1, 0, 0))
        lines += [f"{turn + 1} signal {SIGUSR1} handler", f"{turn + DELIVERY_TURNS} return"]
    return [*lines, f"{KILLING.instructions(rounds)} exit 0"]


def counts(lines, signal):
    """How many deliveries of a signal to a handler a trace tells, and how many returns."""
    events = [line.partition(" ")[2] for line in lines]
    return events.count(f"signal {signal} handler"), events.count("return")


def check(emulator, program, rounds, turns, signal, status, lines, folder):
    """A short form of the program ends with this status and writes this trace, no line more and none less."""
    path, trace = folder / "guest", folder / "trace"
    path.write_bytes(program.executable(rounds))
    done = run([emulator, "run", "--budget", turns, "--trace", trace, path])
    if done.status != status:
        sys.exit(f"{program.name}: with {turns} turns it ends with {done.status}, and not with {status}")
    told = trace.read_text().splitlines()
    found, wanted = counts(told, signal), counts(lines, signal)
    if found != wanted:
        sys.exit(
            f"{program.name}: the trace has {found[0]} deliveries and {found[1]} returns, and not {wanted[0]} and {wanted[1]}"
        )
    for number, (found, wanted) in enumerate(itertools.zip_longest(told, lines, fillvalue="none"), 1):
        if found != wanted:
            sys.exit(f"{program.name}: line {number} of the trace is {found!r}, and not {wanted!r}")


def check_all(emulator, folder):
    turns = timer_turns(FEW_ROUNDS)
    check(emulator, TIMED, turns, turns, SIGALRM, BUDGET_STATUS, timed_lines(FEW_ROUNDS), folder)
    check(emulator, UNTIMED, turns, turns, SIGALRM, BUDGET_STATUS, untimed_lines(turns), folder)
    turns = KILLING.instructions(FEW_ROUNDS)
    check(emulator, KILLING, FEW_ROUNDS, turns, SIGUSR1, 0, killing_lines(FEW_ROUNDS), folder)


def used(emulator, program, rounds, turns, status, folder):
    """The processor's seconds of a run, which has to end with this status."""
    path = folder / "guest"
    path.write_bytes(program.executable(rounds))
    done = run([emulator, "run", "--budget", turns, path])
    if done.status != status:
        sys.exit(f"{program.name}: status {done.status}")
    return done.used


def measure_timer(emulator, deliveries, times, folder):
    """Prints what a delivery costs. No run comes to the end of its loop, which has as many rounds as there are turns."""
    turns = timer_turns(deliveries)
    timed, untimed = [], []
    for _ in range(times):
        timed.append(used(emulator, TIMED, turns, turns, BUDGET_STATUS, folder))
        untimed.append(used(emulator, UNTIMED, turns, turns, BUDGET_STATUS, folder))
    cost = 1e6 * (min(timed) - min(untimed)) / deliveries
    print(
        f"interval timer, {deliveries:,} deliveries in {turns:,} turns: {min(timed):.3f} processor's seconds, and"
        f" {min(untimed):.3f} without a timer"
    )
    print(f"  {cost:.3f} microseconds for a delivery with its return (the aim is {AIM})", flush=True)


def measure_kill(emulator, calls, times, folder):
    turns = KILLING.instructions(calls)
    least = min(used(emulator, KILLING, calls, turns, 0, folder) for _ in range(times))
    print(f"kill of itself, {calls:,} calls in {turns:,} turns: {least:.3f} processor's seconds")
    print(f"  {1e6 * least / calls:.3f} microseconds for a call with its delivery and return", flush=True)


def read_words():
    parser = argparse.ArgumentParser(description=__doc__.split("\n\n")[0])
    parser.add_argument(
        "emulator", nargs="?", type=an_executable, help="the program o32run (the one at the top of the repository)"
    )
    parser.add_argument("--deliveries", type=a_count, default=1_000_000, help="how many signals a run delivers (10^6)")
    parser.add_argument("--times", type=a_count, default=3, help="how often each program is run (3)")
    words = parser.parse_args()
    words.emulator = words.emulator or default_emulator(parser)
    return words


def main():
    words = read_words()
    print(f"{processor_name()}, {os.cpu_count()} processors, load {os.getloadavg()[0]:.1f}")
    with tempfile.TemporaryDirectory() as name:
        folder = pathlib.Path(name)
        check_all(words.emulator, folder)
        measure_timer(words.emulator, words.deliveries, words.times, folder)
        measure_kill(words.emulator, words.deliveries, words.times, folder)
    print(f"load at the end {os.getloadavg()[0]:.1f}")


if __name__ == "__main__":
    main()
