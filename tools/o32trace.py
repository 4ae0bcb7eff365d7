#!/usr/bin/env python3
"""Reads the traces that `o32run run --trace F` writes, and shows them as strace does; and finds places in journals.

This is a tool beside the product: plain Python, run by hand and by the gate's tests, and not proved.

    o32trace.py decode [--calls LIST] [--failed] [--fd N] [--native LOG] TRACE
    o32trace.py missing TRACE
    o32trace.py summary TRACE
    o32trace.py diff [--ignore-turns] [--ignore-addresses] A B
    o32trace.py where [--addr2line TOOL] PROGRAM JOURNAL [TURN]

`decode` writes a line for each of the trace, with the number of its turn: calls with names, flags and errors, signals as
`--- SIGALRM (handler) ---`, ends as `+++ exited with 7 +++`. A trace has four words of a call's arguments; where it has more,
`...` stands for the rest. What an address leads to isn't in a trace, and so a descriptor has no name. With --native LOG, the
native log of the same run, paths and the bytes of reads and writes are shown, and behind a descriptor what it was opened by, as
`read(3</etc/passwd>, "root:x:0:0", 4096) = 10`. LIST is names of calls
and groups, parted by commas, such as `open,%signal`; the groups are %file, %desc, %memory, %signal, %time, %process, %wait,
%network, %ipc and %system. --failed leaves the calls that gave an error, --fd N those that take or give the descriptor N.
Lines on signals are in %signal, and the exit in %process; other lines that are no calls are shown without a filter alone.

`missing` lists the calls that are not there, which answered ENOSYS, and the requests, commands and flags of others that are
not there: how often, and in which turn at first.

`summary` counts calls and errors by names, as `strace -c` does, and the turns up to the end of each call from that of the
call before. What the program did before it exited counts to `exit`, and before another end to that.

`diff` shows the first event that differs between two traces, with five before it in each. --ignore-turns leaves the numbers
of turns out. --ignore-addresses compares of the words that a call takes those that are no addresses, and of an address
whether it is 0. The status is 0 where the traces are the same, 1 where they differ.

`where` shows the last record of the journal that `o32run run --journal F` wrote of PROGRAM, with the function of the program
that it stands in, and how the run ended; with TURN the last one up to that turn. A record stands at each call, as
`6 write(1, 0x400100, 3) at 0x400014, main+0x14`; where the kernel changed registers or memory before an instruction, as for a
handler; and where the program waits or is stopped. Between two records the journal has no places: a fault that kills stands
behind the last record. Functions are those of the program's symbols; a stripped program has addresses alone. With TOOL, such as
addr2line or llvm-addr2line, lines of the source are shown, where the program was built with -g. A journal that is damaged gives
what stands in front of the damage.

A line that is none of a trace is passed over. Where there is one, or where the trace ends before its run does, the first
place is told on standard error, by line (from 1) and byte (from 0), and the status is 2. So it is after any other trouble.

The lines of a trace are described in docs/RULES.md, "The trace", and journals in "The journal". The names are in calls.txt,
flags.txt, errors.txt and signals.txt beside this script; native_log.py, journal.py and symbols.py are parts of it.
"""
import collections
import functools
import os
import pathlib
import re
import sys

import journal
import native_log
import symbols

HERE = pathlib.Path(__file__).resolve().parent
# A line of a trace is shorter than this.
LONGEST = 200
WORDS = 4
BEFORE = 5
# So many texts of a table are kept.
KEPT = 1024
# A number without a name is written in hexadecimal from here on.
LARGE = 4096
LAST_TURN, LAST_WORD = 10**12, 2**32 - 1
LAST_SIGNAL, FIRST_REAL_TIME = 128, 32
WORKING_DIRECTORY = -100
POINTERS = ("path", "in", "out", "pointer", "address")
DESCRIPTORS = ("descriptor", "at")
ENDS = ("exit", "killed", "budget", "blocked")
# What the third argument of fcntl(2) is, and what the call gives, by the command; both are numbers for another.
COMMAND_ARGUMENTS = {
    "F_DUPFD": "number", "F_DUPFD_CLOEXEC": "number", "F_SETFD": "descriptor-flags", "F_SETFL": "open-flags",
    "F_GETFD": "pad", "F_GETFL": "pad",
}
COMMAND_RESULTS = {
    "F_DUPFD": "descriptor", "F_DUPFD_CLOEXEC": "descriptor", "F_GETFD": "descriptor-flags", "F_GETFL": "open-flags",
}


class Trouble(Exception):
    """What can't be done, in a line."""


# The tables

Argument = collections.namedtuple("Argument", "kind error")
Call = collections.namedtuple("Call", "number name groups state gives arguments note")
# The rows are (number, name, whether it is there). Those of a set are bits, but for those within the mask.
Table = collections.namedtuple("Table", "is_set mask rows")
# The texts are functions, by the kind of a number.
Names = collections.namedtuple("Names", "calls flags errors signals texts")


def rows_of(path):
    """The lines of a table, with their numbers, without remarks and empty lines."""
    with open(path, encoding="utf-8") as text:
        for number, line in enumerate(text, start=1):
            if line.strip() and not line.startswith("#"):
                yield number, line.strip()


def read_table(path, take):
    """Gives each line of a table to a function, and names the line that it can't take."""
    for number, line in rows_of(path):
        try:
            take(line)
        except (ValueError, IndexError, KeyError) as error:
            raise Trouble(f"{path}: line {number} is none of the table") from error


def argument_of(word):
    kind, _, error = word.partition("!")
    return Argument(kind, error or None)


def call_of(line):
    row, _, note = line.partition("#")
    number, name, groups, state, gives, arguments = row.split()
    listed = {"-": "", "?": ",".join(["hex"] * WORDS)}.get(arguments, arguments)
    arguments = tuple(argument_of(word) for word in listed.split(",") if word)
    return Call(int(number), name, tuple(groups.split(",")), state, gives, arguments, note.strip())


def read_calls(path):
    calls = {}

    def take(line):
        call = call_of(line)
        calls[call.number] = call

    read_table(path, take)
    return calls


def read_flags(path):
    tables = {}

    def take(line):
        words = line.split()
        if words[0] in ("set", "values"):
            tables[words[1]] = Table(words[0] == "set", int(words[2], 16) if words[0] == "set" else 0, [])
        else:
            table = tables[list(tables)[-1]]
            table.rows.append((int(words[0], 0), words[1], words[2:] != ["missing"]))

    read_table(path, take)
    return tables


def read_numbered(path):
    """A table of numbers with names, and with texts behind these or none."""
    found = {}

    def take(line):
        number, name, *text = line.split(None, 2)
        found[int(number)] = (name, *text)

    read_table(path, take)
    return found


def read_names(folder=HERE):
    flags, signals = read_flags(folder / "flags.txt"), read_numbered(folder / "signals.txt")
    texts = PLAIN | {"signal": functools.partial(signal_name, signals)}
    texts |= {kind: functools.lru_cache(KEPT)(functools.partial(flags_text, table)) for kind, table in flags.items()}
    return Names(read_calls(folder / "calls.txt"), flags, read_numbered(folder / "errors.txt"), signals, texts)


# The lines of a trace

# An event: its turn, its kind and its numbers, of a signal that is delivered also how; and its line, as it stands.
Event = collections.namedtuple("Event", "turn kind words line")
NUMBER, WORD, SIGN = "(0|[1-9][0-9]{0,12})", "([0-9a-f]{8})", "([01])"
HEXADECIMAL, DECIMAL = 16, 10


def form(kind, text="", least=0, most=2**64):
    """A form of a line: its kind, its expression and the base of each number, from its letters: `d` for a decimal number, `w`
    for a word, `f` for 0 or 1, `h` for how a signal is delivered; and from where to where its first number goes."""
    parts = {"d": NUMBER, "w": WORD, "f": SIGN, "h": "(handler|ignored|stop)"}
    bases = [HEXADECIMAL if letter == "w" else DECIMAL for letter in text if letter in "dwf"]
    expression = "".join(parts.get(letter, letter) for letter in f" {text}" if text)
    return kind, re.compile(expression.encode("ascii")), bases, least, most


FORMS = {
    kind.encode("ascii"): form(kind, *rest)
    for kind, *rest in (
        ("call", "d w w w w = w f", 0, LAST_WORD),
        ("wait", "d w w w w", 0, LAST_WORD),
        ("done", "w f"),
        ("restart", "d", 0, LAST_WORD),
        ("post", "d", 1, LAST_SIGNAL),
        ("drop", "d", 1, LAST_SIGNAL),
        ("cont",),
        ("fault", "d d w", 1, LAST_SIGNAL),
        ("signal", "d h", 1, LAST_SIGNAL),
        ("return",),
        ("exit", "d", 0, 255),
        ("killed", "d", 1, LAST_SIGNAL),
        ("budget",),
        ("blocked",),
    )
}
BEGIN = re.compile(b"([1-9][0-9]{0,12}) ([a-z]+)")


def event_of(line):
    """The event of a line without its newline; None where it is none of a trace."""
    begin = BEGIN.match(line)
    turn, name = begin.groups() if begin else (b"", b"")
    kind, expression, bases, least, most = FORMS.get(name, (None, BEGIN, (), 0, 0))
    found = begin and kind and expression.fullmatch(line, begin.end())
    if not found:
        return None
    turn, words = int(turn), [int(text, base) for text, base in zip(found.groups(), bases)]
    if turn > LAST_TURN or (words and not least <= words[0] <= most):
        return None
    if kind == "signal":
        words.append(found.group(2).decode("ascii"))
    return Event(turn, kind, words, line)


class Trace:
    """A trace that is read, event by event. Behind the last one it has told what is wrong with it, if anything is."""

    def __init__(self, path):
        self.path = path
        self.line = 0  # the number of the line of the last event
        self.first = None  # the first place that is wrong, and why
        self.wrong = 0  # how many are

    def find_wrong(self, line, byte, why):
        self.first = self.first or f"{self.path}: line {line} at byte {byte}: {why}"
        self.wrong += 1

    def events(self):
        with open(self.path, "rb") as source:
            yield from self.events_of(source)

    def events_of(self, source):
        byte, turn, number, last = 0, 0, 0, None  # the byte is right up to the first place that is wrong
        while line := source.readline(LONGEST):
            number += 1
            if not line.endswith(b"\n"):
                self.find_wrong(number, byte, "no line of a trace" if len(line) == LONGEST else "the line has no end")
                pass_line(source, line)
            elif (event := event_of(line[:-1])) is None:
                self.find_wrong(number, byte, "no line of a trace")
            else:
                if last in ENDS:
                    self.find_wrong(number, byte, "a line behind the end of a run")
                elif event.turn < turn - (event.kind == "blocked"):
                    self.find_wrong(number, byte, "a turn before that of an earlier line")
                turn, self.line, last = event.turn, number, event.kind
                yield event
            byte += len(line)
        if last not in ENDS and not self.wrong:
            self.find_wrong(number + 1, byte, "the trace ends before its run does")

    def trouble(self):
        """What was wrong, in a line."""
        more = f", and {self.wrong - 1} more" if self.wrong > 1 else ""
        return f"{self.first}{more}" if self.first else None


def pass_line(source, piece):
    """Passes over what is left of a line of which this is a piece."""
    while piece and not piece.endswith(b"\n"):
        piece = source.readline(LONGEST)


def with_waits(events):
    """Each event with the wait that it goes on with or ends, where there is one."""
    wait = None
    for event in events:
        yield event, wait
        if event.kind == "wait":
            wait = event
        elif event.kind in ("done", "restart"):
            wait = None


# Numbers as texts


def signed(word):
    return word - 2**32 if word >= 2**31 else word


def pointer_text(word):
    return hex(word) if word else "NULL"


def at_text(word):
    return "AT_FDCWD" if signed(word) == WORKING_DIRECTORY else str(signed(word))


def mode_text(word):
    return f"0{word:o}".rjust(3, "0")


def signal_name(signals, number):
    if FIRST_REAL_TIME <= number <= LAST_SIGNAL:
        return f"SIGRT_{number - FIRST_REAL_TIME}" if number > FIRST_REAL_TIME else "SIGRTMIN"
    return signals.get(number, (str(signed(number)),))[0]


def value_text(table, word):
    """The name of a number, where it has one."""
    return next((name for number, name, _ in table.rows if number == word), None)


def parts_of(table, word):
    """The rows of a set that a number is made of, and the bits that are left over."""
    parts, rest = [], word
    for row in table.rows:
        number = row[0]
        within = bool(table.mask) and not number & ~table.mask
        if (word & table.mask == number) if within else (number and rest & number == number):
            parts.append(row)
            rest &= ~(table.mask if within else number)
    if not parts and not rest:
        parts = [row for row in table.rows if row[0] == 0]
    return parts, rest


def set_text(parts, rest):
    return "|".join([name for _, name, _ in parts] + [hex(rest)] * bool(rest)) or "0"


def flags_text(table, word):
    if table.is_set:
        return set_text(*parts_of(table, word))
    return value_text(table, word) or (str(signed(word)) if abs(signed(word)) < LARGE else hex(word))


def missing_text(table, word):
    """What of a number is not there, by names; empty where all of it is."""
    if not table.is_set:
        there = any(number == word and is_there for number, _, is_there in table.rows)
        return "" if there else flags_text(table, word)
    parts, rest = parts_of(table, word)
    lacks = [row for row in parts if not row[2]]
    return set_text(lacks, rest) if lacks or rest else ""


PLAIN = {
    "number": lambda word: str(signed(word)),
    "descriptor": lambda word: str(signed(word)),
    "nothing": str,
    "size": str,
    "hex": hex,
    "mode": mode_text,
    "at": at_text,
    "wide": lambda word: str(word - 2**64 if word >= 2**63 else word),
    **{kind: pointer_text for kind in POINTERS},
}


# Calls


def unknown_call(number):
    return Call(number, f"call_{number}", (), "missing", "number", (Argument("hex", None),) * WORDS, "")


def call_numbered(names, number):
    return names.calls.get(number) or unknown_call(number)


def command_of(names, call, words):
    """The name of the command of fcntl(2)."""
    place = [argument.kind for argument in call.arguments].index("fcntl-command")
    return value_text(names.flags["fcntl-command"], words[place])


def makes_file(names, call, words):
    """Whether the flags of open(2) use its mode."""
    place = [argument.kind for argument in call.arguments].index("open-flags")
    return not {"O_CREAT", "O_TMPFILE"}.isdisjoint(names.texts["open-flags"](words[place]).split("|"))


def kind_in(names, call, kind, words):
    """What an argument that depends on another is in this call."""
    if kind == "by-command":
        return COMMAND_ARGUMENTS.get(command_of(names, call, words), "hex")
    return "mode" if makes_file(names, call, words) else "pad"


def arguments_of(names, call, words):
    """The arguments that a trace has of a call, each its kind and its number."""
    found = []
    for place, ((kind, _), word) in enumerate(zip(call.arguments, words)):
        kind = kind_in(names, call, kind, words) if kind in ("by-command", "creation-mode") else kind
        if kind == "high" and place + 1 < WORDS:
            found.append(("wide", word << 32 | words[place + 1]))
        elif kind not in ("high", "low", "pad"):
            found.append((kind, word))
    return found


def call_text(names, call, words):
    texts = [names.texts[kind](word) for kind, word in arguments_of(names, call, words)]
    if len(call.arguments) > WORDS:
        texts.append("...")
    return f"{call.name}({', '.join(texts)})"


def gives_in(names, call, words):
    """What a call gives, with these words."""
    if call.gives == "by-command":
        return COMMAND_RESULTS.get(command_of(names, call, words), "number")
    return call.gives


def result_text(names, gives, value, failed):
    if failed:
        return "-1 " + " ".join(error_texts(names, value))
    if gives in names.flags:
        return f"{hex(value)} (flags {names.texts[gives](value)})"
    return names.texts[gives](value)


def error_texts(names, number):
    name, text = names.errors.get(number, (f"error {number}", None))
    return [name, f"({text})"] if text else [f"({name})"]


# Lines as texts


def shown_call(names, event, _):
    number, *words, value, failed = event.words
    call = call_numbered(names, number)
    return f"{call_text(names, call, words)} = {result_text(names, gives_in(names, call, words), value, failed)}"


def shown_wait(names, event, _):
    return f"{call_text(names, call_numbered(names, event.words[0]), event.words[1:])} <waits>"


def shown_done(names, event, wait):
    name, gives = "a call", "number"
    if wait:
        call = call_numbered(names, wait.words[0])
        name, gives = call.name, gives_in(names, call, wait.words[1:])
    return f"<... {name} resumed> = {result_text(names, gives, *event.words)}"


def shown_restart(names, event, wait):
    name = call_numbered(names, event.words[0]).name
    waited = call_numbered(names, wait.words[0]).name if wait else name
    return f"<... {waited} to be carried out again{f' by {name}' if name != waited else ''}>"


def shown_fault(names, event, _):
    signal, code, address = event.words
    name = signal_name(names.signals, signal)
    table = names.flags.get(f"{name}-code")
    why = table and value_text(table, code) or f"code {code}"
    return f"--- {name} (fault: {why} at {address:#x}) ---"


def shown_signal(names, event, _):
    return f"--- {signal_name(names.signals, event.words[0])} ({event.words[1]}) ---"


SHOWN = {
    "call": shown_call,
    "wait": shown_wait,
    "done": shown_done,
    "restart": shown_restart,
    "fault": shown_fault,
    "signal": shown_signal,
    "post": lambda names, event, _: f"--- {signal_name(names.signals, event.words[0])} (posted) ---",
    "drop": lambda names, event, _: f"--- {signal_name(names.signals, event.words[0])} (dropped: 1024 are queued) ---",
    "cont": lambda names, event, _: "--- the stopped process goes on ---",
    "return": lambda names, event, _: "--- return from a handler ---",
    "exit": lambda names, event, _: f"+++ exited with {event.words[0]} +++",
    "killed": lambda names, event, _: f"+++ killed by {signal_name(names.signals, event.words[0])} +++",
    "budget": lambda names, event, _: "+++ the turns of the budget are done +++",
    "blocked": lambda names, event, _: "+++ blocked: nothing can come that would let it go on +++",
}


def shown(names, event, wait):
    """An event as strace would show it, behind the number of its turn."""
    return f"{event.turn} {SHOWN[event.kind](names, event, wait)}"


# Which lines are shown


def listed(names, text):
    """The names and the groups of a list; refuses those that there are not."""
    found = set(text.split(","))
    groups = {f"%{group}" for call in names.calls.values() for group in call.groups if group != "-"}
    known = groups | {call.name for call in names.calls.values()}
    for word in sorted(found - known):
        raise Trouble(f"no call or group {word!r}")
    return found


def calls_in(names, event, wait):
    """The names of the calls that an event may be of, and its groups."""
    ours = {"exit": ("exit", "exit_group"), "return": ("sigreturn", "rt_sigreturn")}.get(event.kind, ())
    if event.kind in ("call", "wait") or wait and event.kind in ("done", "restart"):
        call = call_numbered(names, (wait if event.kind in ("done", "restart") else event).words[0])
        return {call.name, *(f"%{group}" for group in call.groups)}
    group = {"exit": "%process", "budget": "", "blocked": "", "done": "", "restart": ""}.get(event.kind, "%signal")
    return {*ours, group}


def has_failed(event):
    return event.kind in ("call", "done") and event.words[-1] == 1


def has_descriptor(names, event, wait, descriptor):
    """Whether the call of an event takes or gives a descriptor."""
    made = wait if event.kind in ("done", "restart") else event
    if made is None or made.kind not in ("call", "wait"):
        return False
    call, words = call_numbered(names, made.words[0]), made.words[1 : 1 + WORDS]
    taken = [word for kind, word in arguments_of(names, call, words) if kind in DESCRIPTORS]
    if event.kind in ("call", "done") and not event.words[-1] and gives_in(names, call, words) == "descriptor":
        taken.append(event.words[-2])
    return descriptor in taken


def is_wanted(names, event, wait, calls, failed, descriptor):
    return (
        (calls is None or not calls.isdisjoint(calls_in(names, event, wait)))
        and (not failed or has_failed(event))
        and (descriptor is None or has_descriptor(names, event, wait, descriptor))
    )


# The commands. Each gives its status, and writes to standard output.


def finished(*traces):
    """The status of what was read to its end: what is wrong with the traces is told."""
    wrong = [trace.trouble() for trace in traces if trace.trouble()]
    sys.stdout.flush()
    for line in wrong:
        print(f"o32trace: {line}", file=sys.stderr)
    return 2 if wrong else 0


def decode(path, calls=None, failed=False, fd=None, native=None):
    names, trace = read_names(), Trace(path)
    wanted = None if calls is None else listed(names, calls)
    descriptor = None if fd is None else a_number(fd)
    if native is not None:
        return decode_beside(names, trace, native, lambda names, event, wait: is_wanted(names, event, wait, wanted, failed, descriptor))
    for event, wait in with_waits(trace.events()):
        if is_wanted(names, event, wait, wanted, failed, descriptor):
            print(shown(names, event, wait))
    return finished(trace)


def decode_beside(names, trace, native, wants):
    """Shows what is wanted of a trace beside the native log of its run."""
    with native_log.NativeLog(native) as log:
        known = native_log.Known(log)
        names = names._replace(texts=known.texts(names.texts))
        for event, wait in with_waits(trace.events()):
            show_beside(names, known, event, wait, wants)
        return finished(trace, log)


def show_beside(names, known, event, wait, wants):
    """Shows an event, where it is wanted, with what is known of it, and takes up what it leaves."""
    name, arguments, paths = "", [], []
    if event.kind in ("call", "wait"):
        call, words = call_numbered(names, event.words[0]), event.words[1 : 1 + WORDS]
        name, arguments = call.name, arguments_of(names, call, words)
        paths = known.begin(event.turn, name, arguments)
    went_well = event.kind == "call" and not event.words[-1]
    if went_well:
        gives = gives_in(names, call, words) == "descriptor"
        known.made(event.turn, name, arguments, paths, event.words[-2] if gives else None)
    if wants(names, event, wait):
        print(shown(names, event, wait))
    if went_well:
        known.leave(name, arguments, paths)


def a_number(text):
    if not re.fullmatch("[0-9]{1,4}", text):
        raise Trouble(f"{text!r} is no descriptor")
    return int(text)


def lacks_of(names, event):
    """What a call asked for that is not there, each with a remark."""
    number, *words, value, failed = event.words
    if not failed:
        return
    call, error = call_numbered(names, number), names.errors.get(value, ("",))[0]
    if error == "ENOSYS":
        yield f"{call.name} ({number})", f"{error}{', ' if call.note else ''}{call.note}"
    for argument, word in zip(call.arguments, words):
        lack = missing_text(names.flags[argument.kind], word) if argument.error and argument.error == error else ""
        if lack:
            yield f"{call.name} {lack}", error


def missing(path):
    names, trace = read_names(), Trace(path)
    counts = {}  # what is missing, and a remark -> how often, and the first turn
    for event in trace.events():
        for lack in lacks_of(names, event) if event.kind == "call" else ():
            times, first = counts.get(lack, (0, event.turn))
            counts[lack] = times + 1, first
    if counts:
        print("    times    first turn  missing")
    for (what, why), (times, first) in sorted(counts.items(), key=lambda item: (-item[1][0], item[1][1], item[0])):
        print(f"{times:9} {first:13}  {what}: {why}")
    return finished(trace)


def row_of(names, event, wait):
    """What an event is counted to in a summary, and whether it begins a call; None where it is counted to nothing."""
    if event.kind in ("call", "wait"):
        return call_numbered(names, event.words[0]).name, True
    if event.kind in ("done", "restart"):
        return call_numbered(names, wait.words[0]).name if wait else "(a call)", False
    counted = {"return": ("sigreturn", True), "exit": ("exit", True)}
    return counted.get(event.kind) or (f"({event.kind})", False) if event.kind in ("return", *ENDS) else None


def summary(path):
    names, trace = read_names(), Trace(path)
    rows, last = collections.defaultdict(lambda: [0, 0, 0]), 0  # name -> turns, calls, errors
    for event, wait in with_waits(trace.events()):
        counted = row_of(names, event, wait)
        if not counted:
            continue
        row = rows[counted[0]]
        row[0] += max(event.turn - last, 0)
        row[1] += counted[1]
        row[2] += has_failed(event)
        last = max(event.turn, last)
    print_summary(rows)
    return finished(trace)


SUMMARY_LINES = " ".join("-" * width for width in (8, 13, 13, 9, 9, 16))


def print_summary(rows):
    total = [sum(column) for column in zip(*rows.values())] or [0, 0, 0]
    print(f"{'% turns':>8} {'turns':>13} {'turns/call':>13} {'calls':>9} {'errors':>9} call")
    print(SUMMARY_LINES)
    for name, row in sorted(rows.items(), key=lambda item: (-item[1][0], item[0])):
        print(summary_line(row, total, name))
    print(SUMMARY_LINES)
    print(summary_line(total, total, "total"))


def summary_line(row, total, name):
    turns, calls, errors = row
    share = 100 * turns / total[0] if total[0] else 0
    each = turns // calls if calls else ""
    return f"{share:8.2f} {turns:13} {each:>13} {calls or '':>9} {errors or '':>9} {name}"


# The comparison


def masked(kind, word):
    """A number, but of an address only whether it is 0."""
    return bool(word) if kind in POINTERS else word


def words_but_addresses(names, event, wait):
    """What of an event is no address, and of a call what it takes."""
    if event.kind in ("call", "wait"):
        call, words = call_numbered(names, event.words[0]), event.words[1 : 1 + WORDS]
        taken = [masked(*argument) for argument in arguments_of(names, call, words)]
        return event.words[0], taken, result_but_address(names, call, words, event.words[1 + WORDS :])
    if event.kind == "done" and wait:
        call = call_numbered(names, wait.words[0])
        return result_but_address(names, call, wait.words[1:], event.words)
    if event.kind == "fault":
        return [*event.words[:2], masked("address", event.words[2])]
    return event.words


def result_but_address(names, call, words, result):
    if result and not result[1]:
        return [masked(gives_in(names, call, words), result[0]), 0]
    return result


def key_of(names, event, wait, ignore_turns, ignore_addresses):
    """What is compared of an event."""
    words = words_but_addresses(names, event, wait) if ignore_addresses else event.words
    return None if ignore_turns else event.turn, event.kind, words


def differ(path, other, ignore_turns=False, ignore_addresses=False):
    names, traces = read_names(), (Trace(path), Trace(other))
    sides = [with_waits(trace.events()) for trace in traces]
    before = [collections.deque(maxlen=BEFORE) for _ in traces]
    while True:
        found = [next(side, None) for side in sides]
        if found == [None, None]:
            return finished(*traces)
        keys = [each and key_of(names, *each, ignore_turns, ignore_addresses) for each in found]
        if keys[0] != keys[1]:
            break
        for kept, each in zip(before, found):
            kept.append(each)
    for trace, kept, each in zip(traces, before, found):
        print_side(names, trace, kept, each)
    return finished(*traces) or 1


def print_side(names, trace, kept, each):
    """The event of one side that differs, as it is shown and as it stands, with those before it."""
    print(f"{trace.path}, line {trace.line if each else trace.line + 1}:")
    for event, wait in kept:
        print(f"  {shown(names, event, wait)}")
    if not each:
        print("> the end")
        return
    print(f"> {shown(names, *each)}")
    print(f"  ({each[0].line.decode('ascii')})")


# The places of a journal


class Places:
    """The addresses of a program as texts."""

    def __init__(self, path, tool):
        self.program, self.tool = symbols.Program(path), tool

    def text(self, address):
        name = self.program.name_of(address)
        line = symbols.line_of(self.tool, self.program.path, address) if self.tool else None
        return f"{address:#x}{f', {name}' if name else ''}{f' ({line})' if line else ''}"


def where(program, path, turn=None, addr2line=None):
    names, places, wanted = read_names(), Places(program, addr2line), LAST_TURN if turn is None else a_turn(turn)
    with open(path, "rb") as source:
        found = journal.Journal(source)
        last, final = None, None
        for record in found.records():
            if record.kind == journal.END:
                final = record
            elif record.turn <= wanted:
                last = record
    if turn is not None and final and wanted > final.turn:
        raise Trouble(f"{path}: the run has no turn {wanted}: it ended with turn {final.turn}")
    if last or not found.bad or found.random is not None:
        print(record_text(names, places, last) if last else f"0 begins at {places.text(places.program.entry)}")
    if final and (turn is None or wanted == final.turn):
        print(f"{final.turn} {finish_text(names, final)}")
    sys.stdout.flush()
    if found.bad:
        print(f"o32trace: {path}: byte {found.bad.at}: {found.bad.why}", file=sys.stderr)
    return 2 if found.bad else 0


def record_text(names, places, record):
    """A record with its place, behind the number of its turn."""
    pc, number, *words = record.words
    if record.kind == journal.CALL:
        return f"{record.turn} {call_text(names, call_numbered(names, number), words)} at {places.text(pc)}"
    if record.kind == journal.IDLE:
        return f"{record.turn} waits or is stopped at {places.text(pc)}"
    moved = [value for tag, register, value, *_ in record.effects if (tag, register) == (journal.REGISTER, journal.PC)]
    onward = f", goes on at {places.text(moved[-1])}" if moved else ""
    return f"{record.turn} changed by the kernel at {places.text(pc)}{onward}"


def finish_text(names, record):
    """An end, as that of a trace is shown."""
    kind = {journal.EXITED: "exit", journal.KILLED: "killed", journal.BUDGET: "budget", journal.BLOCKED: "blocked"}[record.finish]
    return SHOWN[kind](names, Event(record.turn, kind, [record.value], b""), None)


def a_turn(text):
    if not re.fullmatch("[1-9][0-9]{0,12}", text) or int(text) > LAST_TURN:
        raise Trouble(f"{text!r} is no turn")
    return int(text)


# Each command with its names, of which those in brackets may be absent, and its options: whether they take a value.
COMMANDS = {
    "decode": (decode, ["TRACE"], {"calls": "LIST", "failed": None, "fd": "N", "native": "LOG"}),
    "missing": (missing, ["TRACE"], {}),
    "summary": (summary, ["TRACE"], {}),
    "diff": (differ, ["A", "B"], {"ignore-turns": None, "ignore-addresses": None}),
    "where": (where, ["PROGRAM", "JOURNAL", "[TURN]"], {"addr2line": "TOOL"}),
}


def use(name):
    _, files, options = COMMANDS[name]
    texts = [f"[--{option}{f' {value}' if value else ''}]" for option, value in options.items()]
    return " ".join([name, *texts, *files])


def read_words(words):
    """The function that the words ask for, its files and its options."""
    command, files, options = COMMANDS.get(words[0] if words else "", (None, [], {}))
    given, chosen, rest = [], {}, list(words[1:])
    while rest:
        word = rest.pop(0)
        option = word.removeprefix("--")
        if not word.startswith("--"):
            given.append(word)
        elif option not in options or (options[option] and not rest):
            break
        else:
            chosen[option.replace("-", "_")] = rest.pop(0) if options[option] else True
    else:
        least = sum(not name.startswith("[") for name in files)
        if command and least <= len(given) <= len(files):
            return command, given, chosen
    uses = [use(name) for name in COMMANDS if command is None or name == words[0]]
    raise Trouble(f"use: o32trace.py {', or '.join(uses)}")


def let_go_of_output():
    """What is still kept back isn't tried again at the end."""
    os.dup2(os.open(os.devnull, os.O_WRONLY), sys.stdout.fileno())


def main(words):
    if sys.stdout is None:
        sys.stdout = open(os.devnull, "w", encoding="utf-8")
    sys.stdout.reconfigure(errors="backslashreplace")
    if words in (["--help"], ["-h"]):
        print(__doc__, end="")
        return 0
    command, given, chosen = read_words(words)
    return command(*given, **chosen)


if __name__ == "__main__":
    try:
        sys.exit(main(sys.argv[1:]))
    except BrokenPipeError:
        # Whoever read has enough.
        let_go_of_output()
    except (Trouble, symbols.Trouble, OSError) as error:
        print(f"o32trace: {error}", file=sys.stderr)
        let_go_of_output()
        sys.exit(2)
    except KeyboardInterrupt:
        let_go_of_output()
        sys.exit(130)
