"""The functions of a program by their addresses, from the symbols of its executable. A part of o32trace.py.

The layout is that of the System V gABI (ELF-32), high byte first. A stripped program has none, and then addresses stand alone.
"""
import bisect
import collections
import struct
import subprocess

MAGIC = b"\x7fELF\x01\x02"
HEADER = 52
ENTRY_AT, SECTIONS_AT, SIZES_AT = 24, 32, 46
SECTION, SYMBOL = struct.Struct(">10I"), struct.Struct(">IIIBBH")
SYMBOLS, EXECUTABLE = 2, 4
NO_TYPE, FUNCTION = 0, 2
# Of several names of one address a global one is shown, then a weak one, then a local one.
BINDINGS = {1: 0, 2: 1, 0: 2}
# No tool for lines takes longer, in seconds.
LIMIT = 60

Function = collections.namedtuple("Function", "address size name")


class Trouble(Exception):
    """Why a file gives no addresses, in a line."""


class Program:
    """An executable: its entry and its functions."""

    def __init__(self, path):
        self.path = path
        with open(path, "rb") as file:
            self.bytes = file.read()
        if len(self.bytes) < HEADER or not self.bytes.startswith(MAGIC):
            raise Trouble(f"{path}: no big-endian executable of 32 bits")
        (self.entry,) = struct.unpack_from(">I", self.bytes, ENTRY_AT)
        try:
            functions, labels = self.read_symbols()
        except (struct.error, IndexError, ValueError):
            # Tables that lead out of the file are as none.
            functions, labels = [], []
        self.functions, self.labels = Table(functions), Table(labels)

    def read_symbols(self):
        """The functions, and what else has a name in code, such as the labels of assembly."""
        (at,) = struct.unpack_from(">I", self.bytes, SECTIONS_AT)
        size, count = struct.unpack_from(">HH", self.bytes, SIZES_AT)
        sections = [SECTION.unpack_from(self.bytes, at + number * size) for number in range(count if at else 0)]
        functions, labels = [], []
        for section in sections:
            if section[1] == SYMBOLS:
                names = self.content(sections[section[6]])
                for symbol in SYMBOL.iter_unpack(self.content(section)):
                    take_symbol(symbol, names, sections, functions, labels)
        return functions, labels

    def content(self, section):
        place, size = section[4:6]
        if place + size > len(self.bytes):
            raise ValueError
        return self.bytes[place : place + size]

    def name_of(self, address):
        """The function that an address is in and how far, as `main+0x14`; None where none is known."""
        function, label = self.functions.before(address), self.labels.before(address)
        if function and address - function.address < (function.size or len(self.bytes)):
            return far_in(function, address)
        # A label stands for what follows up to the next function.
        return far_in(label, address) if label and (not function or function.address < label.address) else None


def take_symbol(symbol, names, sections, functions, labels):
    """Adds a symbol to the functions or the labels, with the rank of its binding, where it is one."""
    name_at, address, size, info, _, section = symbol
    kind, binding = info & 15, info >> 4
    name = names[name_at : names.index(b"\0", name_at)].decode("utf-8", "backslashreplace")
    if not name or not 0 < section < len(sections):
        return
    found = (address, BINDINGS.get(binding, len(BINDINGS)), name, size)
    if kind == FUNCTION:
        functions.append(found)
    elif kind == NO_TYPE and sections[section][2] & EXECUTABLE and not name.startswith((".", "$")):
        labels.append(found)


def far_in(function, address):
    more = address - function.address
    return f"{function.name}+{more:#x}" if more else function.name


class Table:
    """Functions by rising addresses, one of each address."""

    def __init__(self, found):
        functions = {}
        for address, _, name, size in sorted(found):
            functions.setdefault(address, Function(address, size, name))
        self.starts, self.functions = list(functions), list(functions.values())

    def before(self, address):
        """The function that begins last at this address or before; None where none does."""
        place = bisect.bisect_right(self.starts, address)
        return self.functions[place - 1] if place else None


def line_of(tool, program, address):
    """The line of a source that an address stands for, by addr2line(1) or a tool of its kind, with those that it was inlined at;
    None where none is known."""
    command = [tool, "-i", "-e", program, hex(address)]
    try:
        ran = subprocess.run(command, capture_output=True, text=True, timeout=LIMIT, stdin=subprocess.DEVNULL, errors="replace", check=False)
    except (OSError, subprocess.TimeoutExpired) as error:
        raise Trouble(f"{tool}: {getattr(error, 'strerror', None) or 'it takes too long'}") from error
    lines = [line.split(" (discriminator")[0].replace("/./", "/") for line in ran.stdout.splitlines() if line] if ran.returncode == 0 else []
    known = [line for line in lines if not line.startswith("??") and not line.endswith((":0", ":?"))]
    return ", inlined at ".join(known) or None
