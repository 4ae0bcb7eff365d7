#!/usr/bin/env python3
"""Tries what a built program leaves where it gets no memory, or where a real device fails. It stands beside the gate, which takes no such time. The last
line counts.

usage: edge_tries.py [--memory | --devices] [O32RUN]

Memory: three runs with every option, in each of which one allocation after the other is refused, by a library that is loaded in front
of the C library's (LD_PRELOAD; built by cc). The answer has to be want of memory, status 121, or that of the run in which none is refused; and
what it writes, to each stream and each file, the whole of what that run writes, or after want of memory a first part.

Devices: a full file system, and one that fills up (a tmpfs of a few pages, where it can be mounted), for each file that is written; a pipe that nobody
reads, as standard output and standard error; a saved image in a folder, and over a file, that may not be written, by another user (setpriv);
a closed standard input. docs/TROUBLESHOOTING.md says what has to come.
"""
import argparse
import os
import pathlib
import shutil
import subprocess
import sys
import tempfile

sys.dont_write_bytecode = True
TOP = pathlib.Path(__file__).resolve().parent.parent
EXAMPLES = TOP / "examples"

# No run takes longer, in seconds.
LIMIT = 60
# The statuses of answers (docs/TROUBLESHOOTING.md).
WRITE_FAULT, NO_MEMORY, READ_FAULT, REFUSED = 119, 121, 122, 125
# The files that a run with every option writes, by their options.
WRITTEN = {"--trace": "trace", "--native": "native", "--journal": "journal", "--save": "saved"}
# The user and group that own nothing: Linux's overflow ids.
NOBODY = 65534

# Counts the calls that take memory, and refuses the one whose number stands in REFUSED; the count goes to the descriptor in COUNT_TO.
REFUSING = r"""
#define _GNU_SOURCE
#include <dlfcn.h>
#include <stdlib.h>
#include <stdio.h>
#include <unistd.h>

static unsigned long calls, refused, is_ready;
static void *(*real_malloc)(size_t);
static void *(*real_realloc)(void *, size_t);

__attribute__((constructor)) static void begin(void)
{
    const char *number = getenv("REFUSED");
    real_malloc = (void *(*)(size_t))dlsym(RTLD_NEXT, "malloc");
    real_realloc = (void *(*)(void *, size_t))dlsym(RTLD_NEXT, "realloc");
    refused = number ? strtoul(number, 0, 10) : 0;
    is_ready = 1;
}

__attribute__((destructor)) static void end(void)
{
    const char *target = getenv("COUNT_TO");
    if (target)
        dprintf(atoi(target), "%lu", calls);
}

static int is_refused(void)
{
    return is_ready && ++calls == refused;
}

void *malloc(size_t size)
{
    if (!real_malloc)
        real_malloc = (void *(*)(size_t))dlsym(RTLD_NEXT, "malloc");
    return is_refused() ? NULL : real_malloc(size);
}

void *realloc(void *old, size_t size)
{
    if (!real_realloc)
        real_realloc = (void *(*)(void *, size_t))dlsym(RTLD_NEXT, "realloc");
    return is_refused() ? NULL : real_realloc(old, size);
}
"""


class Tries:
    passed = failed = 0

    def one(self, name, found, wanted):
        if found == wanted:
            self.passed += 1
        else:
            self.failed += 1
            print(f"FAILED {name}\n  wanted: {wanted!r:.300}\n  found:  {found!r:.300}")

    def holds(self, name, found, told):
        self.one(f"{name}: {told}", bool(found), True)


class Left:
    """What a run left: its status, its outputs, and the files that it writes, None where there is none."""

    def __init__(self, status, out, err, files):
        self.status, self.out, self.err, self.files = status, out, err, files

    def texts(self):
        return {"standard output": self.out, "standard error": self.err, **self.files}


def bytes_of(path):
    return path.read_bytes() if path.exists() else None


def run(program, words, given=b"", **how):
    """Runs the program in the folder where we are, with the files of an earlier run away."""
    for name in WRITTEN.values():
        pathlib.Path(name).unlink(missing_ok=True)
    ran = subprocess.run([program, *words], input=given, capture_output=True, timeout=LIMIT, **how)
    return Left(ran.returncode, ran.stdout, ran.stderr, {name: bytes_of(pathlib.Path(name)) for name in WRITTEN.values()})


def every_option(guest, *words):
    written = [word for option, name in WRITTEN.items() for word in (option, name)]
    return ["run", "--image", "image", "--schedule", "schedule", "--budget", "10000000", *written, "--env", "A=b", guest, *words]


def is_part(part, whole):
    return part is None or (whole is not None and whole.startswith(part))


def make_files():
    """The guests, an image of some files, and a schedule of signals, of which the last ends a run."""
    for name in ("hello", "keep", "signals", "through_a_pipe", "copy"):
        shutil.copy(EXAMPLES / name, name)
    pathlib.Path("tree/folder").mkdir(parents=True)
    for name in ("a", "folder/b"):
        pathlib.Path("tree", name).write_text("some bytes of a file\n" * 300)
    packed = [sys.executable, EXAMPLES / "tree_image.py", "pack", "tree", "image"]
    subprocess.run(packed, check=True, timeout=LIMIT)
    pathlib.Path("schedule").write_text("quantum 1000\nat 1000000 kill 16\nat 20000000 queue 34 5\nat 50000000 kill 15\n")


# Want of memory


def build_library():
    pathlib.Path("refusing.c").write_text(REFUSING)
    subprocess.run(["cc", "-O1", "-shared", "-fPIC", "-o", "refusing.so", "refusing.c", "-ldl"], check=True, timeout=LIMIT)
    return os.path.realpath("refusing.so")


def allocations_of(program, words, given, library):
    """How many allocations a run makes."""
    with tempfile.TemporaryFile() as count:
        environment = {**os.environ, "LD_PRELOAD": library, "COUNT_TO": str(count.fileno())}
        run(program, words, given, env=environment, pass_fds=[count.fileno()])
        count.seek(0)
        return int(count.read() or b"0")


def try_refusal(tries, name, left, whole):
    """One run of which an allocation was refused, beside the whole one."""
    if left.status == whole.status:
        tries.one(f"{name}: all that is written", left.texts(), whole.texts())
        return
    tries.one(f"{name}: the status", left.status, NO_MEMORY)
    for text, found in left.texts().items():
        tries.holds(name, is_part(found, whole.texts()[text]), f"{text} is a first part")


def try_memory(tries, program):
    if not shutil.which("cc"):
        print("edge_tries: want of memory is not tried: cc is not at hand")
        return
    library = build_library()
    refuse_each(tries, program, library, every_option("through_a_pipe"), b"some bytes\n" * 20)
    refuse_each(tries, program, library, every_option("keep", "/new"), b"some bytes\n" * 20)
    refuse_each(tries, program, library, every_option("signals"))
    shutil.copy("journal", "kept")
    refuse_each(tries, program, library, ["replay", "signals", "kept"])


def refuse_each(tries, program, library, words, given=b""):
    """A run in which one allocation after the other is refused."""
    name = words[words.index("A=b") + 1] if "A=b" in words else " ".join(words)
    whole, count = run(program, words, given), allocations_of(program, words, given, library)
    journal = bytes_of(pathlib.Path("journal"))
    tries.holds(name, count > 10, f"{count} allocations")
    wanted = 0
    for refused in range(1, count + 1):
        environment = {**os.environ, "LD_PRELOAD": library, "REFUSED": str(refused)}
        left = run(program, words, given, env=environment)
        wanted += left.status == NO_MEMORY
        try_refusal(tries, f"{name}, allocation {refused}", left, whole)
    if journal is not None:
        pathlib.Path("journal").write_bytes(journal)
    print(f"{name}: {count} allocations, {wanted} of whose refusals are told, {count - wanted} behind which the run is whole")


# Devices


def told(program, words, **how):
    ran = subprocess.run([program, *words], timeout=LIMIT, **{"stdin": subprocess.DEVNULL, "stdout": subprocess.PIPE, "stderr": subprocess.PIPE, **how})
    return ran.returncode, ran.stdout, ran.stderr


def try_full_device(tries, program):
    """Each written file on the device that is full."""
    whole = run(program, every_option("keep", "/new"), b"text")
    for option, name in WRITTEN.items():
        words = every_option("keep", "/new")
        words[words.index(option) + 1] = "/dev/full"
        left = run(program, words, b"text")
        tries.one(f"{option} on a full device", (left.status, left.err), (WRITE_FAULT, b""))
        for text, found in left.texts().items():
            tries.holds(f"{option} on a full device", is_part(found, whole.texts()[text]), f"{text} is a first part")
        if option == "--save":
            wanted = {**whole.texts(), "saved": None}
            tries.one("all else of the run is there where the image has no room", left.texts(), wanted)


def try_disk_that_fills(tries, program):
    """Each written file on a file system of few pages, each number of which is used up before but one or two."""
    disk = pathlib.Path("disk").resolve()
    disk.mkdir()
    if subprocess.run(["mount", "-t", "tmpfs", "-o", "size=16k", "none", disk], capture_output=True, timeout=LIMIT).returncode:
        print("edge_tries: a disk that fills up is not tried: none can be mounted")
        return
    try:
        fill(tries, program, disk)
    finally:
        subprocess.run(["umount", disk], check=True, timeout=LIMIT)


def fill(tries, program, disk):
    words = every_option("signals")
    whole = run(program, words)
    for option, name in WRITTEN.items():
        for pages in range(4):
            (disk / "others").write_bytes(bytes(4096 * (4 - pages)))
            there = [*words]
            there[there.index(option) + 1] = str(disk / name)
            left = run(program, there)
            found = bytes_of(disk / name)
            (disk / name).unlink(missing_ok=True)
            wanted = whole.files[name]
            case = f"{option} where {pages} pages are free"
            if len(wanted) <= 4096 * pages:
                tries.one(case, (left.status, found == wanted), (whole.status, True))
            else:
                tries.one(case, (left.status, left.err), (WRITE_FAULT, b""))
                tries.holds(case, is_part(found, wanted), "the file is a first part")
            for text, part in left.texts().items():
                tries.holds(case, is_part(part, whole.texts()[text]), f"{text} is a first part")


def try_pipes_without_readers(tries, program):
    whole = run(program, every_option("hello"))
    for stream, words in (("stdout", every_option("hello")), ("stderr", ["run", "none"])):
        reading, writing = os.pipe()
        os.close(reading)
        with os.fdopen(writing, "wb") as end:
            for name in WRITTEN.values():
                pathlib.Path(name).unlink(missing_ok=True)
            status, *outputs = told(program, words, **{stream: end})
        tries.one(f"a pipe without a reader as {stream}", (status, *outputs), (WRITE_FAULT, *(None if it == stream else b"" for it in ("stdout", "stderr"))))
        if stream == "stdout":
            for name in WRITTEN.values():
                tries.holds("a pipe without a reader", is_part(bytes_of(pathlib.Path(name)), whole.files[name]), f"{name} is a first part")
            tries.holds("a pipe without a reader", bytes_of(pathlib.Path("saved")) is None, "nothing is saved")


def as_nobody():
    """The words in front of a command that a user runs who owns nothing."""
    if os.getuid() != 0:
        return []
    return ["setpriv", f"--reuid={NOBODY}", f"--regid={NOBODY}", "--clear-groups"]


def try_other_user(tries, program):
    """An image is saved where nothing may be written."""
    if os.getuid() == 0 and not shutil.which("setpriv"):
        print("edge_tries: folders that may not be written are not tried: setpriv is not at hand")
        return
    box = pathlib.Path("box").resolve()
    box.mkdir(mode=0o755)
    shutil.copy(program, box / "o32run")
    shutil.copy("hello", box / "hello")
    (box / "there").write_bytes(b"there")
    (box / "there").chmod(0o444)
    box.chmod(0o555)
    for name, kept in (("new", None), ("there", b"there")):
        command = [*as_nobody(), "./o32run", "run", "--save", name, "hello"]
        ran = subprocess.run(command, cwd=box, capture_output=True, timeout=LIMIT, stdin=subprocess.DEVNULL)
        tries.one(f"an image over {name}, which may not be written", (ran.returncode, ran.stdout, ran.stderr), (WRITE_FAULT, b"Hi\n", b""))
        tries.one(f"{name} stays as it was", bytes_of(box / name), kept)
    (box / "closed").write_bytes(b"closed")
    (box / "closed").chmod(0o600)
    command = [*as_nobody(), "./o32run", "run", "closed"]
    if os.getuid() == 0:
        ran = subprocess.run(command, cwd=box, capture_output=True, timeout=LIMIT, stdin=subprocess.DEVNULL)
        tries.one("a program that may not be read", (ran.returncode, ran.stdout, ran.stderr), (READ_FAULT, b"", b""))
    box.chmod(0o755)


def try_closed_input(tries, program):
    """Standard input is closed: a run that reads none does not know, and one that reads has a fault."""
    closed = ["sh", "-c", 'exec "$@" <&-', "sh", program]
    whole = run(program, every_option("hello"))
    left = run(closed[0], [*closed[1:], *every_option("hello")])
    tries.one("a run that reads nothing, without an input", (left.status, left.texts()), (whole.status, whole.texts()))
    whole = run(program, every_option("copy"), b"input")
    left = run(closed[0], [*closed[1:], *every_option("copy")])
    tries.one("a run that reads, without an input", (left.status, left.out, left.err), (READ_FAULT, b"", b""))
    for name in WRITTEN.values():
        tries.holds("a run that reads, without an input", is_part(left.files[name], whole.files[name]), f"{name} is a first part")


DEVICES = [try_full_device, try_disk_that_fills, try_pipes_without_readers, try_other_user, try_closed_input]


def main():
    parser = argparse.ArgumentParser(description=__doc__, formatter_class=argparse.RawDescriptionHelpFormatter)
    parser.add_argument("--memory", action="store_true", help="want of memory alone")
    parser.add_argument("--devices", action="store_true", help="devices alone")
    parser.add_argument("program", nargs="?", default=TOP / "crates/o32run/out/o32run", help="the emulator; else the one that was built last")
    chosen = parser.parse_args()
    program = os.path.realpath(chosen.program)
    if not os.access(program, os.X_OK):
        parser.error(f"{program} is no program")
    both = chosen.memory == chosen.devices
    parts = [*([try_memory] if both or chosen.memory else []), *(DEVICES if both or chosen.devices else [])]
    tries, folder = Tries(), tempfile.TemporaryDirectory()
    with folder as name:
        os.chmod(name, 0o755)
        os.chdir(name)
        make_files()
        for part in parts:
            part(tries, program)
        os.chdir("/")
    print(f"{tries.passed} passed, {tries.failed} failed")
    return 1 if tries.failed else 0


if __name__ == "__main__":
    sys.exit(main())
