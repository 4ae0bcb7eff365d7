"""What the log of the kernel below says of the calls of a trace: the paths and the bytes that their addresses lead to, and what
the descriptors were opened by. A part of o32trace.py; the lines are described in docs/RULES.md, "The native log".
"""
import collections
import re

# The first byte of host memory is at this address.
FIRST_ADDRESS = 0x10000
# So many bytes are shown, as strace does.
SHOWN = 32
# A line of the log holds the memory of a call, twice.
LONGEST = 2**29
LAST_TURN = 10**12
FIRST_STREAMS = {0: "stdin", 1: "stdout", 2: "stderr"}
WORKING_DIRECTORY = 2**32 - 100
ESCAPES = {ord("\t"): "\\t", ord("\n"): "\\n", ord("\r"): "\\r", ord('"'): '\\"', ord("\\"): "\\\\"}

# The native calls that hold paths: where in their arguments the addresses of these stand.
PATHS = {
    34: (1,), 35: (1,), 36: (0, 2), 37: (1, 3), 38: (1, 3), 276: (1, 3), 45: (0,), 48: (1,), 49: (0,), 53: (1,), 56: (1,), 78: (1,),
    79: (1,), 88: (1,),
}
# Those that move bytes, with the places of their address and, where the bytes are the program's, of their size. What the
# others give is as long as the reply says.
WRITES = {64: (1, 2), 68: (1, 2)}
READS = {63: 1, 67: 1, 78: 2, 17: 0, 278: 0}
MAKE_PIPE = 59

# The program's calls by what they do to descriptors.
MOVES_BYTES = {
    "read": READS, "pread64": READS, "readv": READS, "readlink": READS, "readlinkat": READS, "getcwd": READS, "getrandom": READS,
    "write": WRITES, "pwrite64": WRITES, "writev": WRITES,
}
OPENS = ("open", "creat", "openat")
COPIES = ("dup", "dup2", "dup3", "fcntl", "fcntl64")
PIPES = ("pipe", "pipe2")

LINE = re.compile(
    rb"([1-9][0-9]{0,12}) (?:clock [0-9]+|post [0-9]+ -?[0-9]+ [0-9]+|"
    rb"call ([0-9]+)((?: [0-9a-f]{16}){6}) (-|(?:[0-9a-f]{2})+) (-|(?:[0-9a-f]{2})+) = (-?[0-9]+|sleep [0-9]+ (?:[0-9]+|-)))\n"
)
NativeCall = collections.namedtuple("NativeCall", "number words before after reply")


def memory_of(text):
    return b"" if text == b"-" else bytes.fromhex(text.decode("ascii"))


def call_of(found):
    """The call of a line, which is one."""
    _, number, words, before, after, reply = found.groups()
    reply = None if reply.startswith(b"sleep") else int(reply)
    return NativeCall(int(number), [int(word, 16) for word in words.split()], memory_of(before), memory_of(after), reply)


def quoted(data):
    """Bytes as strace shows them, at most so many."""
    text = "".join(
        ESCAPES.get(byte) or (chr(byte) if 32 <= byte < 127 else f"\\x{byte:02x}") for byte in data[:SHOWN]
    )
    return f'"{text}"' + ("..." if len(data) > SHOWN else "")


def path_at(memory, address):
    """The bytes of a path, up to its NUL; None where none is there."""
    at = address - FIRST_ADDRESS
    end = memory.find(b"\0", at) if 0 <= at < len(memory) else -1
    return memory[at:end] if end >= 0 else None


class NativeLog:
    """The calls of a native log, turn by turn. Behind the last turn it has told what is wrong with the log, if anything is."""

    def __init__(self, path):
        self.path, self.source = path, open(path, "rb")
        self.number, self.byte, self.kept, self.wrong = 0, 0, None, None

    def __enter__(self):
        return self

    def __exit__(self, *_):
        self.source.close()

    def next_line(self):
        """The turn of the next line and its call, where it is one; None at the end."""
        while line := self.source.readline(LONGEST):
            self.number += 1
            found = LINE.fullmatch(line)
            if found and int(found.group(1)) <= LAST_TURN:
                self.byte += len(line)
                return int(found.group(1)), call_of(found) if found.group(2) else None
            self.wrong = self.wrong or f"{self.path}: line {self.number} at byte {self.byte}: no line of a native log"
            self.byte += len(line)
        return None

    def trouble(self):
        """What was wrong, in a line."""
        return self.wrong

    def calls_of(self, turn):
        """The calls of a turn, where its lines come behind those that were asked for before."""
        found = []
        while True:
            self.kept = self.kept or self.next_line()
            if self.kept is None or self.kept[0] > turn:
                return found
            if self.kept[0] == turn and self.kept[1]:
                found.append(self.kept[1])
            self.kept = None


class Known:
    """What is known of the addresses and the descriptors of the call that is shown."""

    def __init__(self, log):
        self.log, self.turn, self.calls = log, 0, []
        self.opened, self.directory, self.at = dict(FIRST_STREAMS), "/", {}

    def texts(self, plain):
        """The functions that show addresses and descriptors, over those that know nothing of them."""
        with_bytes = {kind: lambda word, kind=kind: self.at.get(word) or plain[kind](word) for kind in ("path", "in", "out")}
        with_name = {kind: lambda word, kind=kind: self.named(plain[kind](word), word) for kind in ("descriptor", "at")}
        return plain | with_bytes | with_name

    def named(self, text, word):
        return f"{text}<{self.opened[word]}>" if word in self.opened else text

    def natives(self, turn):
        """The calls of the kernel below in a turn."""
        if turn != self.turn:
            self.turn, self.calls = turn, self.log.calls_of(turn)
        return self.calls

    def paths(self, turn, count):
        """So many paths, of the first call that holds as many."""
        for call in self.natives(turn):
            places = PATHS.get(call.number, ())
            found = [path_at(call.before, call.words[place]) for place in places]
            if len(found) == count and None not in found:
                return found
        return []

    def moved(self, turn, table):
        """The bytes that the calls of a turn moved, or None where none did."""
        found = None
        for call in self.natives(turn):
            if table is WRITES and call.number in WRITES:
                place, size = (call.words[at] for at in WRITES[call.number])
                found = (found or b"") + call.before[place - FIRST_ADDRESS :][:size]
            elif table is READS and call.number in READS and call.reply is not None and call.reply >= 0:
                place = call.words[READS[call.number]]
                found = (found or b"") + call.after[place - FIRST_ADDRESS :][: call.reply]
        return found

    def begin(self, turn, name, arguments):
        """Takes up what a call's addresses lead to, before the call is shown. The arguments are kinds and numbers."""
        wanted = [word for kind, word in arguments if kind == "path"]
        paths = self.paths(turn, len(wanted)) if wanted else []
        self.at = {word: quoted(path) for word, path in zip(wanted, paths)}
        if name in MOVES_BYTES:
            place = next((word for kind, word in arguments if kind in ("in", "out")), None)
            data = self.moved(turn, MOVES_BYTES[name])
            if place is not None and data is not None:
                self.at[place] = quoted(data)
        return paths

    def made(self, turn, name, arguments, paths, result):
        """Takes up the descriptors that a call made, before it is shown. The result is None where it is none."""
        if name in PIPES:
            self.made_pipe(turn)
        elif result is None:
            return
        elif name in OPENS and paths:
            at = next((word for kind, word in arguments if kind == "at"), WORKING_DIRECTORY)
            self.opened[result] = self.full(paths[0], at)
        elif name in COPIES:
            taken = next((word for kind, word in arguments if kind == "descriptor"), None)
            self.copy(taken, result)

    def full(self, path, at):
        """A path as it was opened: behind the directory that it is taken from."""
        text = path.decode("utf-8", "backslashreplace")
        if text.startswith("/"):
            return text
        base = self.directory if at == WORKING_DIRECTORY else self.opened.get(at, "?")
        return f"{base.rstrip('/')}/{text}"

    def copy(self, taken, result):
        if taken in self.opened:
            self.opened[result] = self.opened[taken]
        else:
            self.opened.pop(result, None)

    def made_pipe(self, turn):
        """Names both ends of the pipe that was made in a turn."""
        for call in self.natives(turn):
            if call.number == MAKE_PIPE and call.reply == 0:
                at = call.words[0] - FIRST_ADDRESS
                for place in (at, at + 4):
                    self.opened[int.from_bytes(call.after[place : place + 4], "little")] = f"pipe of turn {turn}"

    def leave(self, name, arguments, paths):
        """Takes up what a call that went well leaves, behind the line that shows it."""
        if name == "close" and arguments:
            self.opened.pop(arguments[0][1], None)
        elif name == "chdir" and paths:
            self.directory = self.full(paths[0], WORKING_DIRECTORY)
        elif name == "fchdir" and arguments:
            self.directory = self.opened.get(arguments[0][1], "?")
