"""Guest programs from instruction words: big-endian MIPS ELF-32 executables of one loop.

A program sets its registers up, goes round its loop a number of times, and exits with a byte of what it computed. It
has two segments: the words at TEXT, and pages at DATA that the loop may load from and store to. How many instructions
it carries out follows from its words and its number of rounds.
"""
import struct

TEXT = 0x00400000
DATA = 0x00410000
PAGE = 0x1000

READ = 4
WRITE = 2
EXECUTE = 1

# The registers that the loops use.
ZERO, V0, V1 = 0, 2, 3
A0, A1, A2, A3 = range(4, 8)
T0, T1, T2, T3, T4, T5, T6, T7 = range(8, 16)
S0, S1, S2, S3 = range(16, 20)
SP, RA = 29, 31

# The round's counter, which every loop counts down. A system call keeps it.
COUNTER = S0

# asm/unistd.h of MIPS Linux, o32.
EXIT_CALL = 4001
MMAP2_CALL = 4210

# asm/mman.h of MIPS Linux: PROT_READ and PROT_WRITE; MAP_PRIVATE and MAP_ANONYMOUS.
READ_AND_WRITE = 0x3
PRIVATE_AND_ANONYMOUS = 0x802

# Whether any call failed, in a register that a call keeps.
FAILED = S1


def register_word(rs, rt, rd, function, opcode=0, shift=0):
    return opcode << 26 | rs << 21 | rt << 16 | rd << 11 | shift << 6 | function


def immediate_word(opcode, rs, rt, immediate):
    return opcode << 26 | rs << 21 | rt << 16 | immediate & 0xFFFF


def addu(rd, rs, rt):
    return register_word(rs, rt, rd, 0x21)


def bitwise_or(rd, rs, rt):
    return register_word(rs, rt, rd, 0x25)


def xor(rd, rs, rt):
    return register_word(rs, rt, rd, 0x26)


def sll(rd, rt, shift):
    return register_word(0, rt, rd, 0x00, shift=shift)


def srl(rd, rt, shift):
    return register_word(0, rt, rd, 0x02, shift=shift)


def mul(rd, rs, rt):
    return register_word(rs, rt, rd, 0x02, opcode=0x1C)


def multu(rs, rt):
    return register_word(rs, rt, 0, 0x19)


def div(rs, rt):
    return register_word(rs, rt, 0, 0x1A)


def mfhi(rd):
    return register_word(0, 0, rd, 0x10)


def mflo(rd):
    return register_word(0, 0, rd, 0x12)


def jr(rs):
    return register_word(rs, 0, 0, 0x08)


def syscall():
    return 0x0000000C


def addiu(rt, rs, immediate):
    return immediate_word(0x09, rs, rt, immediate)


def ori(rt, rs, immediate):
    return immediate_word(0x0D, rs, rt, immediate)


def lui(rt, immediate):
    return immediate_word(0x0F, 0, rt, immediate)


def lw(rt, offset, base):
    return immediate_word(0x23, base, rt, offset)


def lbu(rt, offset, base):
    return immediate_word(0x24, base, rt, offset)


def sb(rt, offset, base):
    return immediate_word(0x28, base, rt, offset)


def sw(rt, offset, base):
    return immediate_word(0x2B, base, rt, offset)


def bne(rs, rt, words):
    """Goes `words` words on from the branch's delay slot."""
    return immediate_word(0x05, rs, rt, words)


def jal(address):
    return 0x03 << 26 | address >> 2 & 0x03FFFFFF


def load_constant(register, value):
    return [lui(register, value >> 16), ori(register, register, value & 0xFFFF)]


def call(number):
    """A call whose arguments stand in their registers, and what it says of failing."""
    return [addiu(V0, ZERO, number), syscall(), bitwise_or(FAILED, FAILED, A3)]


# Room on the stack for a call's fifth and sixth arguments. Those of mmap2(2), a descriptor that is not looked at and the
# offset, are 0.
MMAP2_SETUP = [addiu(SP, SP, -32), sw(ZERO, 16, SP), sw(ZERO, 20, SP)]


def mmap2():
    """A mapping to read and write, of as many bytes as A1 says, at any place, which V0 then has."""
    return [
        addu(A0, ZERO, ZERO),
        addiu(A2, ZERO, READ_AND_WRITE),
        addiu(A3, ZERO, PRIVATE_AND_ANONYMOUS),
        *call(MMAP2_CALL),
    ]


# How many words end a program.
ENDING = 3


def ending(result):
    """Exits with the low byte of a register as the status."""
    return [addiu(V0, ZERO, EXIT_CALL), addu(A0, result, ZERO), syscall()]


class Program:
    """A loop with what stands before it and the function that it calls, if it calls one.

    `loop` makes the words of a round from the address of its first word and that of the function. A round carries out
    all its words and all words of the function once, and goes on by a branch that is its last word but one. Where the
    words hold a loop of their own, `repeated` tells how many instructions that carries out beyond once its words. The
    low byte of the register `result` is the exit status. `data` are the first bytes at DATA, where `data_size` bytes
    are mapped.
    """

    def __init__(self, name, setup, loop, result, function=(), repeated=0, data=b"", data_size=PAGE):
        self.name = name
        self.setup = setup
        self.loop = loop
        self.result = result
        self.function = list(function)
        self.repeated = repeated
        self.data = data
        self.data_size = data_size

    def fixed(self):
        """How many instructions are carried out besides the rounds."""
        return len(self.setup) + 2 + ENDING

    def per_round(self):
        return len(self.loop(0, 0)) + len(self.function) + self.repeated

    def rounds(self, instructions):
        """The greatest number of rounds, at least one, with which the program carries out at most so many instructions."""
        return max(1, (instructions - self.fixed()) // self.per_round())

    def instructions(self, rounds):
        return self.fixed() + rounds * self.per_round()

    def loop_address(self):
        return TEXT + 4 * (len(self.setup) + 2)

    def function_address(self):
        return self.loop_address() + 4 * (len(self.loop(0, 0)) + ENDING)

    def words(self, rounds):
        before = self.setup + load_constant(COUNTER, rounds)
        loop = self.loop(self.loop_address(), self.function_address())
        return before + loop + ending(self.result) + self.function

    def executable(self, rounds):
        text = b"".join(struct.pack(">I", word) for word in self.words(rounds))
        return executable(text, self.data, self.data_size)


def load_header(offset, address, file_size, memory_size, flags):
    return struct.pack(">IIIIIIII", 1, offset, address, address, file_size, memory_size, flags, PAGE)


def executable(text, data, data_size):
    """The file: its headers, from its second page on the text, and from its third page on the first bytes at DATA."""
    # class 32, big-endian, version 1
    ident = b"\x7fELF" + bytes([1, 2, 1]) + bytes(9)
    # type EXEC, machine MIPS, version 1, entry, program headers at 52, no sections, MIPS32R2 and o32, the sizes of
    # both kinds of header, and two program headers
    header = struct.pack(">HHIIIIIHHHHHH", 2, 8, 1, TEXT, 52, 0, 0x70001000, 52, 32, 2, 0, 0, 0)
    text_header = load_header(PAGE, TEXT, len(text), len(text), READ | EXECUTE)
    data_header = load_header(2 * PAGE, DATA, len(data), data_size, READ | WRITE)
    first = (ident + header + text_header + data_header).ljust(PAGE, b"\0")
    return first + text.ljust(PAGE, b"\0") + data


def memory_round(_start, _function):
    return [
        lw(T1, 0, T0),
        addu(T2, T2, T1),
        xor(T3, T3, T2),
        sll(T4, T3, 3),
        sw(T4, 4, T0),
        addiu(COUNTER, COUNTER, -1),
        bne(COUNTER, ZERO, -7),
        addiu(T6, T6, 1),
    ]


def call_round(_start, function):
    return [
        jal(function),
        addiu(COUNTER, COUNTER, -1),
        bne(COUNTER, ZERO, -3),
        addiu(T6, T6, 1),
    ]


def arithmetic_round(_start, _function):
    return [
        multu(T0, T1),
        mflo(T2),
        div(T2, T4),
        mflo(T3),
        mfhi(T6),
        addiu(COUNTER, COUNTER, -1),
        bne(COUNTER, ZERO, -7),
        mul(T0, T0, T1),
    ]


COPIED = 0x10000

COPY_BYTE = [
    lbu(T1, 0, T0),
    addiu(T0, T0, 1),
    sb(T1, 0, T2),
    bne(T0, T3, -4),
    addiu(T2, T2, 1),
]


def copy_round(_start, _function):
    copying = load_constant(T0, DATA) + load_constant(T2, DATA + COPIED) + load_constant(T3, DATA + COPIED) + COPY_BYTE
    # the byte that was copied last
    counting = [lbu(T4, -1, T2), addiu(COUNTER, COUNTER, -1), bne(COUNTER, ZERO, -len(copying) - 3), addiu(T6, T6, 1)]
    return copying + counting


MEMORY_SETUP = load_constant(T0, DATA) + [addiu(T2, ZERO, 1), addiu(T3, ZERO, 5)]

CALL_SETUP = [addiu(T7, ZERO, 0)]

CALLED = [jr(RA), addiu(T7, T7, 1)]

ARITHMETIC_SETUP = load_constant(T1, 0x00010DCD) + [addiu(T0, ZERO, 3), addiu(T4, ZERO, 10007)]

PROGRAMS = [
    Program("load and store", MEMORY_SETUP, memory_round, T4),
    Program("calls and returns", CALL_SETUP, call_round, T7, function=CALLED),
    Program("multiplies and divides", ARITHMETIC_SETUP, arithmetic_round, T6),
    Program(
        "copy of bytes",
        [],
        copy_round,
        T4,
        repeated=len(COPY_BYTE) * (COPIED - 1),
        data=bytes(place % 251 for place in range(COPIED)),
        data_size=2 * COPIED,
    ),
]


def count_round(_start, _function):
    return [addiu(COUNTER, COUNTER, -1), bne(COUNTER, ZERO, -2), addiu(T6, T6, 1)]


def untouched(pages):
    """A program that counts down, with so many pages of data that it never touches."""
    return Program(f"{pages:,} pages of data", [], count_round, ZERO, data_size=pages * PAGE)


def untouched_mapping(pages):
    """A program that maps so many pages, counts down, and never touches them; the status is 0 where it could map them."""
    setup = [*MMAP2_SETUP, *load_constant(A1, pages * PAGE), *mmap2()]
    return Program(f"{pages:,} pages of a mapping", setup, count_round, FAILED)


def map_round(_start, _function):
    mapping = mmap2()
    return [*mapping, addiu(COUNTER, COUNTER, -1), bne(COUNTER, ZERO, -len(mapping) - 2), addiu(T6, T6, 1)]


def mappings_of_a_page():
    """A program that maps one page a round, at any place; the status is 0 where it could map each."""
    setup = [*MMAP2_SETUP, *load_constant(A1, PAGE)]
    return Program("mappings of a page", setup, map_round, FAILED)
