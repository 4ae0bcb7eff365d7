"""Reads the journals that `o32run run --journal F` writes, and says where one is damaged. A part of o32trace.py; the form is
described in docs/RULES.md, "The journal". It reads the form anew from that page, and takes nothing from the program.
"""
import collections
import os

MAGIC = b"O32JRN1\n"
RANDOM = 16
LAST_TURN = 10**12
USER_PAGES = 524280
BEFORE, CALL, IDLE, END = 1, 2, 3, 4
EXITED, KILLED, BUDGET, BLOCKED = 1, 2, 3, 4
REGISTER, WRITE, MAP, UNMAP, PROTECT, OUTPUT = 1, 2, 3, 4, 5, 6
# What an effect on a register may set behind the registers 1 to 31.
HI, LO, PC, THREAD_POINTER = 32, 33, 34, 35
# So much of a long effect is read at a time, and so much of one is kept.
PIECE = 2**16

# A record: its place in the file, its turn and kind; the words pc, $v0, $a0, $a1, $a2, $a3 and the effects, each its tag and its
# numbers, and of a write or an output its first bytes; and of an end how the run ended, and its value.
Record = collections.namedtuple("Record", "at turn kind words effects finish value")


class Bad(Exception):
    """What breaks the form: the place, from 0, and why."""

    def __init__(self, at, why):
        super().__init__(f"{why} at {at}")
        self.at, self.why = at, why


class Fields:
    """The fields of a file, one after the other."""

    def __init__(self, source):
        self.source, self.at = source, 0

    def bytes(self, count):
        """So many bytes, of which the first are given where they are many."""
        kept = self.source.read(min(count, PIECE))
        left, self.at = count - len(kept), self.at + len(kept)
        while left and (piece := self.source.read(min(left, PIECE))):
            left, self.at = left - len(piece), self.at + len(piece)
        if left:
            raise Bad(self.at, "it ends early")
        return kept

    def number(self, width, is_bad=None, why=""):
        at = self.at
        number = int.from_bytes(self.bytes(width), "big")
        if is_bad and is_bad(number):
            raise Bad(at, f"{why} {number}")
        return number

    def text(self):
        count, at = self.number(4), self.at
        text = b""
        while len(text) < count:
            text += self.bytes(min(count - len(text), PIECE))
        try:
            found = text.decode("utf-8")
        except UnicodeDecodeError as error:
            raise Bad(at, "a text that is not UTF-8") from error
        if "\0" in found:
            raise Bad(at, "a text with a NUL")
        return found

    def pages(self):
        first = self.number(4, lambda number: number >= USER_PAGES, "no page of a program:")
        return first, self.number(4, lambda number: first + number > USER_PAGES, "more pages than there are:")

    def protection(self):
        return self.number(1, lambda number: number > 7, "no protection:")

    def effect(self):
        tag = self.number(1, lambda number: not REGISTER <= number <= OUTPUT, "no effect has the tag")
        if tag == REGISTER:
            return tag, self.number(1, lambda number: not 1 <= number <= THREAD_POINTER, "no register"), self.number(4)
        if tag == WRITE:
            address, count = self.number(4), self.number(4)
            return tag, address, count, self.bytes(count)
        if tag == OUTPUT:
            stream, count = self.number(1, lambda number: number not in (1, 2), "no stream"), self.number(4)
            return tag, stream, count, self.bytes(count)
        return (tag, *self.pages()) if tag == UNMAP else (tag, *self.pages(), self.protection())


class Journal:
    """A journal that is read, record by record. Behind the last one, `bad` is what is wrong with it, if anything is."""

    def __init__(self, source):
        self.fields = Fields(source)
        self.bad = None
        self.arguments = self.environment = self.random = None
        try:
            self.read_head()
        except Bad as bad:
            self.bad = bad

    def read_head(self):
        at, magic = self.fields.at, self.fields.bytes(len(MAGIC))
        if magic != MAGIC:
            raise Bad(at, "no journal")
        arguments = self.fields.number(4, lambda number: number == 0, "a number of arguments of")
        environment = self.fields.number(4)
        self.arguments = [self.fields.text() for _ in range(arguments)]
        self.environment = [self.fields.text() for _ in range(environment)]
        self.random = self.fields.bytes(RANDOM)

    def records(self):
        """The records up to the end or up to the place that is bad."""
        turn, kind = 0, 0
        try:
            while not self.bad and kind != END:
                record = self.record(turn, kind)
                turn, kind = record.turn, record.kind
                yield record
            if not self.bad and self.fields.source.read(1):
                raise Bad(self.fields.at, "bytes behind the end")
        except Bad as bad:
            self.bad = bad

    def record(self, turn_before, kind_before):
        """The record behind one of this turn and kind, both 0 for the first."""
        at = self.fields.at
        turn = self.fields.number(8, lambda number: not turn_before <= number <= LAST_TURN, "no turn that may follow:")
        kind_at, kind = self.fields.at, self.fields.number(1)
        if turn == 0 and kind != END:
            raise Bad(at, "a record of turn 0")
        if not BEFORE <= kind <= END or (turn == turn_before and not may_follow(kind_before, kind)):
            raise Bad(kind_at, f"no kind that may follow: {kind}")
        if kind == END:
            return self.end(at, turn, turn == turn_before and kind_before in (CALL, IDLE))
        words = [self.fields.number(4) for _ in range(6)]
        count = self.fields.number(4, lambda number: kind == IDLE and number, "effects of a turn without an instruction:")
        return Record(at, turn, kind, words, [self.fields.effect() for _ in range(count)], None, None)

    def end(self, at, turn, has_instruction):
        finish = self.fields.number(1, lambda number: not EXITED <= number <= BLOCKED or number == KILLED and has_instruction, "no finish")
        value = self.fields.number(1, lambda number: finish in (BUDGET, BLOCKED) and number, "a finish without a value has")
        return Record(at, turn, END, [], [], finish, value)


def may_follow(kind_before, kind):
    """Whether a kind may stand behind another in one turn: what came before first, then a call or a wait, and the end last."""
    return kind > kind_before and (kind_before, kind) != (CALL, IDLE)


def read_journal(path):
    """A journal as it stands in a file, with the list of its records; for tests and small tools."""
    with open(path, "rb") as source:
        journal = Journal(source)
        found = list(journal.records())
    return journal, found, os.path.getsize(path)
