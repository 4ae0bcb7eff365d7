#!/usr/bin/env python3
"""Packs a folder of the host, or a tar file, into a file image of o32run, unpacks one, shows what is in one, and compares two.

This is a tool beside the product: plain Python, run by hand and by the tests of the examples, and not proved.

    tree_image.py pack [--skip] FOLDER|TAR IMAGE
    tree_image.py unpack IMAGE FOLDER|TAR
    tree_image.py list IMAGE
    tree_image.py cat IMAGE PATH
    tree_image.py diff A B

Regular files, directories, symbolic links and second names of one file are kept, with their
permission bits and their times of modification in whole seconds. Blocks of zeros are left out, so a
sparse file stays small. Other kinds of files, and names that an image can't hold, are refused.
Owners, groups and access times are not kept. Packing follows FOLDER where that is a link, and no
link below it.

Unpacking makes FOLDER, which isn't there before, and nothing outside it. An image is refused
where the product refuses it, by the same rule at the same byte, and then nothing is made.

A tar file keeps what a folder of the host can't without being root: setuid bits, dates, closed directories. What
can be packed and is no folder is read as one, compressed or not, and one is written where the name ends with .tar, .tgz,
or .tar.gz, .tar.bz2 or .tar.xz. As with tar, a member replaces an earlier one of its name, a leading slash goes,
and directories that no member names are made. A member with `..` in its name, or below what is no directory, is
refused. Devices, FIFOs and sockets are refused by their names, or left out with --skip.

`list` prints a line for each name: mode, links, size, date (UTC), name, as `ls -l` does. A file with two names has two
lines. In names a backslash and what isn't printable is written as in C. `cat` writes the content of a file, and follows
links within the image.

`diff` prints a line for each name that came, went or changed from the image A to the image B, as `diff -r` names it, also
for what is below a directory that came or went. What changed is told behind it: the content of a file, the target of a
link, mode, time, and whether other names are of the same file; of what is of another kind that alone. Numbers of nodes,
the order of names and blocks of zeros are no difference, and owners are in no image. The status is 0 where nothing
differs, 1 where something does, and 2 where an image is refused.

The format and its rules are described in docs/RULES.md, "The file image".
"""

import collections
import datetime
import errno
import io
import lzma
import math
import os
import stat
import struct
import sys
import tarfile
import zlib

MAGIC = b"O32IMG1\n"
FILE, DIRECTORY, LINK = 1, 2, 3
ROOT = 1
BLOCK = 4096
NODE_LIMIT = 65_536
BLOCK_LIMIT = 65_536
ENTRY_LIMIT = 131_072
FILE_LIMIT = 1 << 44
TARGET_LIMIT = 4095
NAME_LIMIT = 255
LINK_LIMIT = 40
FIRST_COOKIE, LAST_COOKIE = 3, 2**31 - 1
LAST_NUMBER = 2**63 - 1
RULES = "Short Magic Count Number Kind Mode Size Tail Cookie Name Target Tree Limit Rest".split()
FOLDER_FLAGS = os.O_RDONLY | os.O_DIRECTORY | os.O_NOFOLLOW
# So many bytes of a path are opened at once.
PATH_PIECE = 4000
# The endings of the names of tar files, and what `tarfile` calls their forms.
TAR_ENDINGS = {".tar": "w", ".tgz": "w:gz", ".tar.gz": "w:gz", ".tar.bz2": "w:bz2", ".tar.xz": "w:xz"}
# A file of a tar file is written with its holes where they have more blocks, so that every tar reads the others.
HOLES = 256
TYPES = {FILE: stat.S_IFREG, DIRECTORY: stat.S_IFDIR, LINK: stat.S_IFLNK}
# What diff(1) calls them.
KINDS = {FILE: "regular file", DIRECTORY: "directory", LINK: "symbolic link"}
SEVERAL = {FILE: "Files", DIRECTORY: "Directories", LINK: "Symbolic links"}


class Refused(Exception):
    """What can't be packed or unpacked, in a line."""


# The body of a file is its size and its blocks as (index, bytes), of a directory its entries, of a link its target. The
# place is where the node stands in the image.
Node = collections.namedtuple("Node", "kind mode time body place")
Entry = collections.namedtuple("Entry", "cookie name number place")


# Packing


class Level:
    """A directory that is being packed: its number, its status, and its names so far and to come."""

    def __init__(self, number, status, names):
        self.number, self.status, self.names = number, status, names
        self.body = struct.pack(">I", len(names))
        self.done = 0

    def add(self, number):
        name = self.names[self.done]
        self.body += struct.pack(">IB", FIRST_COOKIE + self.done, len(name)) + name + struct.pack(">Q", number)
        self.done += 1


class Packer:
    def __init__(self, skip=False):
        self.skip = skip  # whether what an image can't hold is left out
        self.nodes = {}  # number -> bytes of the node
        self.numbers = {}  # (device, inode) of a file with several names -> number
        self.last = 0
        self.blocks = 0
        self.entries = 0
        self.here = None  # the directory that is open
        self.levels = []  # the directories from the folder down to that one

    def new_number(self):
        self.last += 1
        if self.last > NODE_LIMIT:
            raise Refused(f"more than {NODE_LIMIT} files")
        return self.last

    def begin(self, status, names):
        """Begins with a directory, and gives its number."""
        number = self.new_number()
        self.entries += len(names)
        if self.entries > ENTRY_LIMIT:
            raise Refused(f"more than {ENTRY_LIMIT} names")
        self.levels.append(Level(number, status, sorted(names)))
        return number

    def head(self, number, kind, status):
        return struct.pack(">QBHq", number, kind, stat.S_IMODE(status.st_mode), status.st_mtime_ns // 10**9)

    def pack(self, folder):
        """Packs what is below a folder, which may be a link to one."""
        self.here = os.open(folder, os.O_RDONLY | os.O_DIRECTORY)
        try:
            self.enter()
            while self.levels:
                self.step()
        except OSError as error:
            names = [level.names[level.done] for level in self.levels if level.done < len(level.names)]
            raise Refused(f"{os.fsdecode(b'/'.join([os.fsencode(folder), *names]))}: {error.strerror}") from error
        finally:
            os.close(self.here)

    def enter(self):
        """Begins with the directory that is open, and gives its number."""
        names = [os.fsencode(name) for name in os.listdir(self.here)]
        if self.skip:
            names = [name for name in names if self.holds(name)]
        return self.begin(os.fstat(self.here), names)

    def holds(self, name):
        """Whether an image can hold what a name of the directory that is open names."""
        kind = stat.S_IFMT(os.stat(name, dir_fd=self.here, follow_symlinks=False).st_mode)
        return kind in (stat.S_IFREG, stat.S_IFDIR, stat.S_IFLNK)

    def step(self):
        """Packs the next name of the directory that is open, or leaves that."""
        level = self.levels[-1]
        if level.done == len(level.names):
            self.leave()
            return
        name = level.names[level.done]
        status = os.stat(name, dir_fd=self.here, follow_symlinks=False)
        if stat.S_ISDIR(status.st_mode):
            self.here = moved(self.here, name)
            level.add(self.enter())
        else:
            level.add(self.leaf(self.here, name, status))

    def leave(self):
        level = self.levels.pop()
        self.nodes[level.number] = self.head(level.number, DIRECTORY, level.status) + level.body
        if self.levels:
            self.here = moved(self.here, "..")
            if not os.path.samestat(os.fstat(self.here), self.levels[-1].status):
                raise Refused("a directory was moved while it was packed")

    def leaf(self, here, name, status):
        """Packs what is no directory and gives its number."""
        key = (status.st_dev, status.st_ino)
        if status.st_nlink > 1 and key in self.numbers:
            return self.numbers[key]
        number = self.new_number()
        self.numbers[key] = number
        if stat.S_ISREG(status.st_mode):
            self.nodes[number] = self.head(number, FILE, status) + self.file(here, name)
        elif stat.S_ISLNK(status.st_mode):
            self.nodes[number] = self.head(number, LINK, status) + self.link(here, name)
        else:
            raise Refused(f"{os.fsdecode(name)}: neither a file, a directory nor a symbolic link")
        return number

    def file(self, here, name):
        # What became a FIFO meanwhile isn't waited for.
        source = os.open(name, os.O_RDONLY | os.O_NOFOLLOW | os.O_NONBLOCK, dir_fd=here)
        try:
            size = os.fstat(source).st_size
            kept = [] if size > FILE_LIMIT else self.kept_blocks(source, size)
        finally:
            os.close(source)
        if size > FILE_LIMIT or self.blocks > BLOCK_LIMIT:
            raise Refused(f"{os.fsdecode(name)}: more bytes than an image holds")
        return struct.pack(">QI", size, len(kept)) + b"".join(kept)

    def kept_blocks(self, source, size):
        kept = []
        for index in data_blocks(source, size):
            block = os.pread(source, min(BLOCK, size - index * BLOCK), index * BLOCK)
            if block.strip(b"\0"):
                kept.append(struct.pack(">I", index) + block.ljust(BLOCK, b"\0"))
                self.blocks += 1
                if self.blocks > BLOCK_LIMIT:
                    break
        return kept

    def link(self, here, name):
        return packed_link(name, os.readlink(name, dir_fd=here))

    def image(self):
        return MAGIC + struct.pack(">I", len(self.nodes)) + b"".join(self.nodes[n] for n in sorted(self.nodes))


def packed_link(name, target):
    if not 1 <= len(target) <= TARGET_LIMIT:
        raise Refused(f"{os.fsdecode(name)}: a target of {len(target)} bytes")
    return struct.pack(">H", len(target)) + target


def data_blocks(source, size):
    """The indices of the blocks of a file that are no hole."""
    place = 0
    while place < size:
        try:
            begin = os.lseek(source, place, os.SEEK_DATA)
        except OSError as error:
            if error.errno == errno.ENXIO:  # only a hole is left
                return
            raise
        place = min(os.lseek(source, begin, os.SEEK_HOLE), size)
        first, end = begin // BLOCK, -(-place // BLOCK)
        yield from range(first, end)
        place = end * BLOCK


# Packing a tar file


class Member:
    """A node of a tar file. The body of a directory is its members by their names, of a file its size and its packed
    blocks, of a link its target. The mode and the time are called as in a status of the host."""

    def __init__(self, kind, mode, seconds, body):
        self.kind, self.st_mode, self.st_mtime_ns, self.body = kind, mode, seconds * 10**9, body


class TarReader:
    """Reads the members of a tar file into one tree."""

    def __init__(self, skip):
        self.skip = skip
        self.root = Member(DIRECTORY, 0o755, 0, {})
        self.blocks = 0

    def read(self, path):
        with tarfile.open(path, "r:*", encoding="utf-8", errors="surrogateescape") as tar:
            for member in tar:
                self.add(tar, member)
            # The library takes a damaged header for the end.
            tar.fileobj.seek(tar.offset)
            if tar.fileobj.read(tarfile.BLOCKSIZE).strip(b"\0"):
                raise Refused(f"{path}: no member of a tar file at byte {tar.offset}")
        return self.root

    def add(self, tar, member):
        path = self.path(member.name)
        if not path:
            if not member.isdir():
                raise Refused(f"{member.name}: the top is no directory")
            self.set_status(self.root, member)
            return
        here, name = self.directory(path[:-1], member), path[-1]
        there = here.body.get(name)
        if there and there.kind == DIRECTORY and member.isdir():
            self.set_status(there, member)
            return
        if there and there.kind == DIRECTORY and there.body:
            raise Refused(f"{member.name}: a directory of this name is not empty")
        made = self.made(tar, member)
        if made:
            here.body[name] = made

    def path(self, name):
        """The parts of a member's name."""
        parts = [part for part in name.encode("utf-8", "surrogateescape").split(b"/") if part not in (b"", b".")]
        if b".." in parts or any(len(part) > NAME_LIMIT or b"\0" in part for part in parts):
            raise Refused(f"{name}: a name that an image can't hold")
        return parts

    def directory(self, path, member):
        """The directory that a member lies in, which is made where it isn't there."""
        here = self.root
        for part in path:
            if part not in here.body:
                here.body[part] = Member(DIRECTORY, 0o755, seconds_of(member), {})
            here = here.body[part]
            if here.kind != DIRECTORY:
                raise Refused(f"{member.name}: it lies below what is no directory")
        return here

    def set_status(self, node, member):
        node.st_mode, node.st_mtime_ns = member.mode & 0o7777, seconds_of(member) * 10**9

    def made(self, tar, member):
        """The node of a member, or none where it is left out."""
        if member.islnk():
            return self.first_of(member)
        if member.isdir():
            kind, body = DIRECTORY, {}
        elif member.issym():
            kind, body = LINK, member.linkname.encode("utf-8", "surrogateescape")
        elif member.isreg():
            kind, body = FILE, self.file(tar, member)
        elif self.skip:
            return None
        else:
            raise Refused(f"{member.name}: neither a file, a directory nor a symbolic link")
        return Member(kind, member.mode & 0o7777, seconds_of(member), body)

    def first_of(self, member):
        """What a hard link is a further name of."""
        here = self.root
        for part in self.path(member.linkname):
            here = here.body.get(part) if here and here.kind == DIRECTORY else None
        if not here or here.kind == DIRECTORY:
            raise Refused(f"{member.name}: a link to {member.linkname}, which is no file before it")
        return here

    def file(self, tar, member):
        if not 0 <= member.size <= FILE_LIMIT:
            raise Refused(f"{member.name}: a size that an image can't hold")
        source, kept = tar.extractfile(member), []
        for index in blocks_of(member):
            source.seek(index * BLOCK)
            block = source.read(BLOCK)
            if block.strip(b"\0"):
                kept.append(struct.pack(">I", index) + block.ljust(BLOCK, b"\0"))
                self.blocks += 1
            if self.blocks > BLOCK_LIMIT:
                raise Refused(f"{member.name}: more bytes than an image holds")
        return struct.pack(">QI", member.size, len(kept)) + b"".join(kept)


def seconds_of(member):
    """The time of a member in whole seconds, rounded down."""
    seconds = math.floor(member.mtime) if math.isfinite(member.mtime) else 2**63
    if not -(2**63) <= seconds < 2**63:
        raise Refused(f"{member.name}: a time that an image can't hold")
    return seconds


def blocks_of(member):
    """The indices of the blocks in which a member has data."""
    after = 0
    for place, length in member.sparse if member.issparse() else [(0, member.size)]:
        first, end = max(after, place // BLOCK), -(-(place + length) // BLOCK)
        yield from range(first, end)
        after = max(after, end)


class TarPacker(Packer):
    """Packs the tree of a tar file, as a folder with the same files is packed."""

    def pack(self, path):
        try:
            self.here = [TarReader(self.skip).read(path)]
        except (tarfile.TarError, EOFError, zlib.error, lzma.LZMAError, ValueError, OverflowError, MemoryError) as error:
            why = " ".join(str(error).split()) or "its sizes are wrong"
            raise Refused(f"{path}: neither a folder nor a tar file that can be read: {why}") from error
        self.enter()
        while self.levels:
            self.step()

    def enter(self):
        return self.begin(self.here[-1], list(self.here[-1].body))

    def step(self):
        level = self.levels[-1]
        if level.done == len(level.names):
            self.here.pop()
            self.levels.pop()
            self.nodes[level.number] = self.head(level.number, DIRECTORY, level.status) + level.body
            return
        name = level.names[level.done]
        node = level.status.body[name]
        if node.kind == DIRECTORY:
            self.here.append(node)
            level.add(self.enter())
        else:
            level.add(self.node(name, node))

    def node(self, name, node):
        """Packs what is no directory and gives its number."""
        if id(node) not in self.numbers:
            number = self.numbers[id(node)] = self.new_number()
            body = node.body if node.kind == FILE else packed_link(name, node.body)
            self.nodes[number] = self.head(number, node.kind, node) + body
        return self.numbers[id(node)]


# Reading an image


class Reader:
    """Reads an image by its rules, in their order: the first that is broken refuses it."""

    def __init__(self, source):
        self.source, self.place = source, 0
        self.blocks = 0
        self.entries = 0

    def refuse(self, rule, place):
        raise Refused(f"the image breaks rule {RULES.index(rule) + 1} ({rule}) at byte {place}")

    def take(self, count, rule=None, breaks=None):
        """So many bytes, of which a rule is kept."""
        taken = self.source.read(count)
        if len(taken) < count:
            self.refuse("Short", self.place + len(taken))
        if breaks and breaks(taken):
            self.refuse(rule, self.place)
        self.place += count
        return taken

    def number(self, form, rule=None, breaks=None):
        """A number, of which a rule is kept."""
        value = lambda taken: struct.unpack(">" + form, taken)[0]
        return value(self.take(struct.calcsize(">" + form), rule, breaks and (lambda taken: breaks(value(taken)))))

    def file(self):
        size = self.number("Q", "Size", lambda n: n > FILE_LIMIT)
        count = self.number("I", "Limit", lambda n: self.blocks + n > BLOCK_LIMIT)
        self.blocks += count
        blocks, last = [], -1
        for _ in range(count):
            index = self.number("I", "Size", lambda n: n <= last or n * BLOCK >= size)
            block = self.take(BLOCK, "Tail", lambda taken: taken[max(size - index * BLOCK, 0) :].strip(b"\0"))
            blocks.append((index, block))
            last = index
        return size, blocks

    def directory(self):
        count = self.number("I", "Limit", lambda n: self.entries + n > ENTRY_LIMIT)
        self.entries += count
        entries, names, last = [], {b".", b".."}, FIRST_COOKIE - 1
        for _ in range(count):
            place = self.place
            cookie = self.number("I", "Cookie", lambda n: not last < n <= LAST_COOKIE)
            length = self.number("B", "Name", lambda n: n == 0)
            name = self.take(length, "Name", lambda taken: taken in names or b"/" in taken or b"\0" in taken)
            names.add(name)
            entries.append(Entry(cookie, name, self.number("Q"), place))
            last = cookie
        return entries

    def link(self):
        length = self.number("H", "Name", lambda n: not 1 <= n <= TARGET_LIMIT)
        return self.take(length, "Name", lambda taken: b"\0" in taken)

    def node(self, last):
        place = self.place
        number = self.number("Q", "Number", lambda n: not last < n <= LAST_NUMBER or (last == 0 and n != ROOT))
        breaks_kind = lambda n: n not in (FILE, DIRECTORY, LINK) or (number == ROOT and n != DIRECTORY)
        kind = self.number("B", "Kind", breaks_kind)
        mode = self.number("H", "Mode", lambda n: n > 0o7777)
        time = self.number("q")
        body = self.file() if kind == FILE else self.directory() if kind == DIRECTORY else self.link()
        return number, Node(kind, mode, time, body, place)

    def nodes(self):
        """The nodes by their numbers."""
        self.take(len(MAGIC), "Magic", lambda taken: taken != MAGIC)
        count = self.number("I", "Count", lambda n: not 1 <= n <= NODE_LIMIT)
        nodes, last = {}, 0
        for _ in range(count):
            last, node = self.node(last)
            nodes[last] = node
        if self.source.read(1):
            self.refuse("Rest", self.place)
        self.keep_naming_rules(nodes)
        return nodes

    def keep_naming_rules(self, nodes):
        """Refuses what is no tree: the rules on all nodes."""
        named = collections.Counter()
        for entry in (entry for node in nodes.values() for entry in entries_of(node)):
            if entry.number not in nodes:
                self.refuse("Target", entry.place)
            named[entry.number] += 1
        reached, rest = {ROOT}, [ROOT]
        while rest:
            below = {entry.number for entry in entries_of(nodes[rest.pop()])} - reached
            reached |= below
            rest.extend(below)
        for number, node in nodes.items():
            times = named[number]
            right = times == 0 if number == ROOT else times == 1 if node.kind == DIRECTORY else times >= 1
            if not right or number not in reached:
                self.refuse("Tree", node.place)


def entries_of(node):
    return node.body if node.kind == DIRECTORY else []


def read_image(path):
    """The nodes of an image by their numbers."""
    with open(path, "rb") as source:
        return Reader(source).nodes()


# Unpacking


class Unpacker:
    def __init__(self, nodes, folder):
        self.nodes = nodes
        os.mkdir(folder, 0o700)
        self.top = os.open(folder, FOLDER_FLAGS)
        self.names = {}  # the number of what was made -> the number of its directory, and its name there

    def unpack(self):
        try:
            # A second name of a file may lie below a directory that is closed to its owner in the end.
            self.walk(self.make, lambda here, number: None)
            self.walk(lambda here, number, entry: None, self.close)
        finally:
            os.close(self.top)

    def walk(self, visit, leave):
        """Visits each entry in its directory, which is open, and leaves each directory behind what is in it."""
        here, levels = os.dup(self.top), [(ROOT, iter(entries_of(self.nodes[ROOT])))]
        try:
            while levels:
                number, entries = levels[-1]
                entry = next(entries, None)
                if entry:
                    visit(here, number, entry)
                    below = self.nodes[entry.number]
                    if below.kind == DIRECTORY:
                        here = moved(here, entry.name)
                        levels.append((entry.number, iter(below.body)))
                    continue
                levels.pop()
                above = os.open("..", FOLDER_FLAGS, dir_fd=here) if levels else os.dup(here)
                try:
                    leave(here, number)
                finally:
                    os.close(here)
                    here = above
        finally:
            os.close(here)

    def make(self, here, directory, entry):
        """Makes what an entry of a directory names."""
        node = self.nodes[entry.number]
        if entry.number in self.names:
            self.make_second_name(here, entry)
            return
        self.names[entry.number] = directory, entry.name
        if node.kind == DIRECTORY:
            os.mkdir(entry.name, 0o700, dir_fd=here)
        elif node.kind == FILE:
            self.make_file(here, entry.name, node)
        else:
            os.symlink(node.body, entry.name, dir_fd=here)
            os.utime(entry.name, (node.time, node.time), dir_fd=here, follow_symlinks=False)

    def make_second_name(self, here, entry):
        directory, name = self.names[entry.number]
        first = self.open_directory(directory)
        try:
            os.link(name, entry.name, src_dir_fd=first, dst_dir_fd=here, follow_symlinks=False)
        finally:
            os.close(first)

    def open_directory(self, number):
        """Opens a directory that was made, by pieces of its path, which may be longer than the host takes."""
        path = []
        while number != ROOT:
            number, name = self.names[number]
            path.append(name)
        here, piece = os.dup(self.top), b""
        while path:
            piece += path.pop() + b"/"
            if not path or len(piece) + len(path[-1]) > PATH_PIECE:
                here, piece = moved(here, piece), b""
        return here

    def make_file(self, here, name, node):
        size, blocks = node.body
        flags = os.O_WRONLY | os.O_CREAT | os.O_EXCL | os.O_NOFOLLOW
        with open(os.open(name, flags, 0o600, dir_fd=here), "wb") as file:
            for index, block in blocks:
                file.seek(index * BLOCK)
                file.write(block)
            file.truncate(size)
            file.flush()
            os.fchmod(file.fileno(), node.mode)
            os.utime(file.fileno(), (node.time, node.time))

    def close(self, here, number):
        """Gives a directory its mode and its time, when all is in it."""
        node = self.nodes[number]
        os.fchmod(here, node.mode)
        os.utime(here, (node.time, node.time))


def moved(here, path):
    """Opens a directory below the one that is open, and closes that."""
    below = os.open(path, FOLDER_FLAGS, dir_fd=here)
    os.close(here)
    return below


# Walking an image


def names_of(nodes):
    """Each name of an image with its node's number, in the order of names, each directory before what is in it."""
    rest = [(b".", ROOT)]
    while rest:
        path, number = rest.pop()
        yield path, number
        before = b"" if number == ROOT else path + b"/"
        entries = sorted(entries_of(nodes[number]), key=lambda entry: entry.name, reverse=True)
        rest.extend((before + entry.name, entry.number) for entry in entries)


def link_counts(nodes):
    """The number of links of each node, as the guest sees it."""
    counts = collections.Counter()
    for number, node in nodes.items():
        for entry in entries_of(node):
            below = nodes[entry.number]
            counts[number if below.kind == DIRECTORY else entry.number] += 1
        if node.kind == DIRECTORY:
            counts[number] += 2
    return counts


def node_at(nodes, path):
    """The node that a path names in an image. Links are followed, and none leads out of it."""
    trail, rest, links = [ROOT], os.fsencode(path).split(b"/")[::-1], 0
    while rest:
        part = rest.pop()
        here = nodes[trail[-1]]
        if here.kind != DIRECTORY:
            raise Refused(f"{path}: not a directory")
        if part == b"..":
            del trail[max(1, len(trail) - 1) :]
        elif part not in (b"", b"."):
            number = next((entry.number for entry in here.body if entry.name == part), None)
            if number is None:
                raise Refused(f"{path}: no such file in the image")
            if nodes[number].kind != LINK:
                trail.append(number)
                continue
            links += 1
            if links > LINK_LIMIT:
                raise Refused(f"{path}: more than {LINK_LIMIT} links")
            target = nodes[number].body
            trail = [ROOT] if target.startswith(b"/") else trail
            rest.extend(target.split(b"/")[::-1])
    return nodes[trail[-1]]


def size_of(node):
    return node.body[0] if node.kind == FILE else BLOCK if node.kind == DIRECTORY else len(node.body)


def shown(name):
    """A name in which a backslash and what isn't printable stands as in C."""
    text = name.decode("utf-8", "surrogateescape")
    octal = lambda letter: "".join(f"\\{byte:03o}" for byte in letter.encode("utf-8", "surrogateescape"))
    special = {"\\": "\\\\", "\n": "\\n", "\t": "\\t"}
    return "".join(special.get(letter) or (letter if letter.isprintable() else octal(letter)) for letter in text)


def date(seconds, precision="minutes"):
    try:
        return (datetime.datetime(1970, 1, 1) + datetime.timedelta(seconds=seconds)).isoformat(" ", precision)
    except OverflowError:
        return f"@{seconds}"


# Comparing two images


def named_nodes(nodes):
    """For each name of an image its node, and all names of that."""
    names = collections.defaultdict(list)
    for path, number in names_of(nodes):
        names[number].append(path)
    return {path: (nodes[number], names[number]) for path, number in names_of(nodes)}


def content_of(node):
    """What a file has, a link names; of a directory nothing, as its names are compared by themselves."""
    if node.kind == FILE:
        size, blocks = node.body
        return size, [(index, block) for index, block in blocks if block.strip(b"\0")]
    return node.body if node.kind == LINK else None


def changes(before, after):
    """What differs between two nodes of one kind and the names of each, a text each."""
    (node, names), (other, other_names) = before, after
    if content_of(node) != content_of(other):
        yield "content" if node.kind == FILE else f"target {shown(node.body)} and {shown(other.body)}"
    if node.mode != other.mode:
        yield f"mode {node.mode:04o} and {other.mode:04o}"
    if node.time != other.time:
        yield f"time {date(node.time, 'seconds')} and {date(other.time, 'seconds')}"
    if names != other_names:
        yield "names"


def difference(path, places, before, after):
    """How a name differs between two images at these places, in a line; None where it doesn't."""
    directory, _, name = path.rpartition(b"/")
    if not before or not after:
        return f"Only in {within(places[0 if before else 1], directory)}: {shown(name)}"
    one, other = (within(place, b"" if path == b"." else path) for place in places)
    if before[0].kind != after[0].kind:
        return f"File {one} is a {kind_of(before[0])} while file {other} is a {kind_of(after[0])}"
    changed = ", ".join(changes(before, after))
    return f"{SEVERAL[before[0].kind]} {one} and {other} differ: {changed}" if changed else None


def kind_of(node):
    return "regular empty file" if node.kind == FILE and not node.body[0] else KINDS[node.kind]


def within(place, path):
    return shown(os.fsencode(place) + b"/" * bool(path) + path)


def show_differences(image, other):
    before, after = (named_nodes(read_image(place)) for place in (image, other))
    paths = sorted(before.keys() | after.keys(), key=lambda path: [] if path == b"." else path.split(b"/"))
    lines = [difference(path, (image, other), before.get(path), after.get(path)) for path in paths]
    text = "".join(f"{line}\n" for line in lines if line)
    write_out([text.encode("utf-8")])
    return 1 if text else 0


# Writing a tar file


class TarWriter:
    def __init__(self, nodes, tar):
        self.nodes, self.tar = nodes, tar
        self.names = {}  # the number of a file or link that was written -> its name

    def write(self):
        for path, number in names_of(self.nodes):
            self.add(path.decode("utf-8", "surrogateescape"), number)

    def add(self, name, number):
        node = self.nodes[number]
        info = tarfile.TarInfo(name)
        info.mode, info.mtime = node.mode, node.time
        if node.kind == DIRECTORY:
            info.type = tarfile.DIRTYPE
        elif number in self.names:
            info.type, info.linkname = tarfile.LNKTYPE, self.names[number]
        elif node.kind == LINK:
            info.type, info.linkname = tarfile.SYMTYPE, node.body.decode("utf-8", "surrogateescape")
        else:
            self.add_file(info, node)
            self.names[number] = name
            return
        self.names[number] = name
        self.tar.addfile(info)

    def add_file(self, info, node):
        size, blocks = node.body
        if -(-size // BLOCK) - len(blocks) > HOLES:
            content = sparse_content(info, size, blocks)
        else:
            content = bytearray(size)
            for index, block in blocks:
                content[index * BLOCK : (index + 1) * BLOCK] = block[: size - index * BLOCK]
        info.size = len(content)
        self.tar.addfile(info, io.BytesIO(content))


def sparse_content(info, size, blocks):
    """The content of a file with holes in the form 1.0 of GNU tar, which other readers know too: a map, then the data."""
    pieces = []
    for index, block in blocks:
        data = block[: size - index * BLOCK]
        if pieces and pieces[-1][0] + len(pieces[-1][1]) == index * BLOCK:
            pieces[-1][1].extend(data)
        else:
            pieces.append((index * BLOCK, bytearray(data)))
    if not pieces or pieces[-1][0] + len(pieces[-1][1]) < size:
        pieces.append((size, b""))
    head = f"{len(pieces)}\n" + "".join(f"{place}\n{len(data)}\n" for place, data in pieces)
    padding = -len(head) % tarfile.BLOCKSIZE
    numbers = {"major": "1", "minor": "0", "name": info.name, "realsize": str(size)}
    info.pax_headers = {f"GNU.sparse.{key}": value for key, value in numbers.items()}
    folder, _, name = info.name.rpartition("/")
    info.name = "/".join(filter(None, [folder, "GNUSparseFile.0", name]))
    return head.encode() + bytes(padding) + b"".join(data for _, data in pieces)


# The commands


def pack(source, image, skip=False):
    packer = Packer(skip) if os.path.isdir(source) else TarPacker(skip)
    packer.pack(source)
    with open(image, "wb") as file:
        file.write(packer.image())


def unpack(image, target):
    nodes = read_image(image)
    form = next((form for ending, form in TAR_ENDINGS.items() if target.endswith(ending)), None)
    if not form:
        Unpacker(nodes, target).unpack()
        return
    with tarfile.open(target, form, format=tarfile.PAX_FORMAT, encoding="utf-8", errors="surrogateescape") as tar:
        TarWriter(nodes, tar).write()


def show_list(image):
    nodes = read_image(image)
    counts, rows = link_counts(nodes), []
    for path, number in names_of(nodes):
        node = nodes[number]
        name = shown(path) + (f" -> {shown(node.body)}" if node.kind == LINK else "")
        rows.append((stat.filemode(TYPES[node.kind] | node.mode), counts[number], size_of(node), date(node.time), name))
    links, size = (max(len(str(row[column])) for row in rows) for column in (1, 2))
    text = "".join(f"{row[0]} {row[1]:>{links}} {row[2]:>{size}} {row[3]} {row[4]}\n" for row in rows)
    write_out([text.encode("utf-8")])


def show_content(image, path):
    node = node_at(read_image(image), path)
    if node.kind != FILE:
        raise Refused(f"{path}: a directory")
    write_out(content_pieces(*node.body))


def content_pieces(size, blocks):
    place = 0
    for index, block in [*blocks, (-(-size // BLOCK), b"")]:
        for begin in range(place, min(index * BLOCK, size), BLOCK * HOLES):
            yield bytes(min(BLOCK * HOLES, min(index * BLOCK, size) - begin))
        yield block[: max(size - index * BLOCK, 0)]
        place = (index + 1) * BLOCK


def write_out(pieces):
    try:
        for piece in pieces:
            sys.stdout.buffer.write(piece)
        sys.stdout.buffer.flush()
    except BrokenPipeError:
        # Whoever read has enough. What is still kept back isn't tried again at the end.
        os.dup2(os.open(os.devnull, os.O_WRONLY), sys.stdout.fileno())


# Each command with its words. One gives a status, or nothing for 0.
COMMANDS = {
    "pack": (pack, "FOLDER|TAR IMAGE"),
    "unpack": (unpack, "IMAGE FOLDER|TAR"),
    "list": (show_list, "IMAGE"),
    "cat": (show_content, "IMAGE PATH"),
    "diff": (show_differences, "A B"),
}


def main(words):
    command, names = COMMANDS.get(words[0] if words else "", (None, ""))
    skip = words[:2] == ["pack", "--skip"]
    given = words[2:] if skip else words[1:]
    if not command or len(given) != len(names.split()):
        uses = [f"{name} {names}" for name, (_, names) in COMMANDS.items()]
        raise Refused(f"use: tree_image.py {', or '.join(uses)}")
    return command(*given, skip=True) if skip else command(*given)


if __name__ == "__main__":
    try:
        sys.exit(main(sys.argv[1:]))
    except (Refused, OSError) as error:
        print(f"tree_image: {error}", file=sys.stderr)
        sys.exit(2 if sys.argv[1:2] == ["diff"] else 1)
