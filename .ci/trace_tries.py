"""Tries tools/o32trace.py, and the comparison of its tables with the definitions: parts of .ci/tools_test.

What is wanted of each line was worked out from docs/RULES.md, 'The trace', and the headers of Linux for MIPS.
"""
import os
import pathlib
import shutil
import subprocess
import sys

TOP = pathlib.Path(__file__).resolve().parent.parent
TOOL = TOP / "tools" / "o32trace.py"
# No step takes longer, in seconds.
LIMIT = 60


def told(*words):
    """The status of the tool, and what it writes to both streams."""
    command = [sys.executable, TOOL, *words]
    ran = subprocess.run([str(word) for word in command], capture_output=True, timeout=LIMIT, stdin=subprocess.DEVNULL)
    return ran.returncode, ran.stdout.decode(), ran.stderr.decode()


def lines_of(text):
    return "".join(f"{line}\n" for line in text)


def trace_of(box, *lines, name="trace"):
    (box / name).write_text(lines_of(lines))
    return box / name


# A trace with all kinds of lines, and what is shown of each.
SHOWN = [
    ("1 post 15", "--- SIGTERM (posted) ---"),
    ("1 signal 15 ignored", "--- SIGTERM (ignored) ---"),
    ("2 drop 34", "--- SIGRT_2 (dropped: 1024 are queued) ---"),
    ("3 fault 11 1 00000004", "--- SIGSEGV (fault: SEGV_MAPERR at 0x4) ---"),
    ("4 signal 11 handler", "--- SIGSEGV (handler) ---"),
    ("5 return", "--- return from a handler ---"),
    ("6 call 4288 ffffff9c 7fff0010 00002000 000001b6 = 00000003 0", "openat(AT_FDCWD, 0x7fff0010, O_RDONLY|O_LARGEFILE) = 3"),
    (
        "7 call 4005 00400100 00000301 000001a4 00000000 = 00000002 1",
        "open(0x400100, O_WRONLY|O_CREAT|O_TRUNC, 0644) = -1 ENOENT (No such file or directory)",
    ),
    (
        "8 call 4090 00000000 00001000 00000003 00000802 = 6ffff000 0",
        "mmap(NULL, 4096, PROT_READ|PROT_WRITE, MAP_PRIVATE|MAP_ANONYMOUS, ...) = 0x6ffff000",
    ),
    ("9 call 4212 00000005 00000000 00000001 00000000 = 00000000 0", "ftruncate64(5, 4294967296) = 0"),
    ("10 call 4140 00000003 ffffffff ffffffff 7fff0000 = 00000016 1", "_llseek(3, -1, 0x7fff0000, ...) = -1 EINVAL (Invalid argument)"),
    ("11 call 4220 00000003 00000003 00000000 00000000 = 00002002 0", "fcntl64(3, F_GETFL) = 0x2002 (flags O_RDWR|O_LARGEFILE)"),
    ("12 call 4220 00000003 00000004 00000080 00000000 = 00000000 0", "fcntl64(3, F_SETFL, O_RDONLY|O_NONBLOCK) = 0"),
    ("13 call 4220 00000003 00000002 00000001 00000000 = 00000000 0", "fcntl64(3, F_SETFD, FD_CLOEXEC) = 0"),
    ("14 call 4220 00000003 00000001 00000000 00000000 = 00000001 0", "fcntl64(3, F_GETFD) = 0x1 (flags FD_CLOEXEC)"),
    ("15 call 4055 00000003 00000000 0000000a 00000000 = 0000000a 0", "fcntl(3, F_DUPFD, 10) = 10"),
    (
        "16 call 4220 00000003 00000022 7ffefe00 00000000 = 00000016 1",
        "fcntl64(3, F_SETLK64, 0x7ffefe00) = -1 EINVAL (Invalid argument)",
    ),
    ("17 call 4060 00000012 00000000 00000000 00000000 = 0000003f 0", "umask(022) = 077"),
    ("18 call 4037 ffffff9c 0000000f 00000000 00000000 = 00000000 0", "kill(-100, SIGTERM) = 0"),
    ("19 call 4045 00000000 00000000 00000000 00000000 = 00412000 0", "brk(NULL) = 0x412000"),
    (
        "20 call 4054 00000001 0000540d 7ffe0000 00000000 = 00000019 1",
        "ioctl(1, TCGETS, 0x7ffe0000) = -1 ENOTTY (Inappropriate ioctl for device)",
    ),
    (
        "21 call 4999 00000001 000000ff 00000000 00000000 = 00000059 1",
        "call_4999(0x1, 0xff, 0x0, 0x0) = -1 ENOSYS (Function not implemented)",
    ),
    ("22 wait 4003 00000003 7ffe0000 00000001 00000000", "read(3, 0x7ffe0000, 1) <waits>"),
    ("23 done 00000004 1", "<... read resumed> = -1 EINTR (Interrupted system call)"),
    ("24 wait 4166 00010148 00000000 00000000 00000000", "nanosleep(0x10148, NULL) <waits>"),
    ("25 post 23", "--- SIGSTOP (posted) ---"),
    ("25 signal 23 stop", "--- SIGSTOP (stop) ---"),
    ("26 post 25", "--- SIGCONT (posted) ---"),
    ("26 cont", "--- the stopped process goes on ---"),
    ("26 restart 4253", "<... nanosleep to be carried out again by restart_syscall>"),
    ("27 wait 4253 00000000 00000000 00000000 00000000", "restart_syscall() <waits>"),
    ("28 done 00000000 0", "<... restart_syscall resumed> = 0"),
    ("29 wait 4029 00000000 00000000 00000000 00000000", "pause() <waits>"),
    ("30 restart 4029", "<... pause to be carried out again>"),
    ("31 done 00000000 0", "<... a call resumed> = 0"),
    ("32 call 4033 00400100 00000000 00000000 00000000 = 00000000 0", "access(0x400100, F_OK) = 0"),
    ("33 call 4300 00000007 00400100 00000005 00000000 = 00000000 0", "faccessat(7, 0x400100, R_OK|X_OK) = 0"),
    ("34 call 4122 7ffe0000 00000000 00000000 00000000 = 0000004d 1", "uname(0x7ffe0000) = -1 (error 77)"),
    ("35 call 4200 00000003 7ffe0000 00000064 00000000 = 00000064 0", "pread64(3, 0x7ffe0000, 100, ...) = 100"),
    ("36 call 4288 ffffff9c 7fff0010 40000043 00000000 = 00000016 1", "openat(AT_FDCWD, 0x7fff0010, 0x40000043) = -1 EINVAL (Invalid argument)"),
    ("37 call 4194 00000022 7ffefeb0 00000000 00000010 = 00000000 0", "rt_sigaction(SIGRT_2, 0x7ffefeb0, NULL, 16) = 0"),
    ("38 fault 8 9 00010000", "--- SIGFPE (fault: code 9 at 0x10000) ---"),
    ("1000000000000 exit 255", "+++ exited with 255 +++"),
]
ENDS = [
    ("2 killed 128", "+++ killed by SIGRT_96 +++"),
    ("5 budget", "+++ the turns of the budget are done +++"),
    ("2 blocked", "+++ blocked: nothing can come that would let it go on +++"),
    ("9 exit 0", "+++ exited with 0 +++"),
]


def try_lines(tries, box):
    """Every kind of line, as it is decoded."""
    trace = trace_of(box, *(line for line, _ in SHOWN))
    status, text, wrong = told("decode", trace)
    tries.one("a trace is decoded", (status, wrong), (0, ""))
    for (line, wanted), found in zip(SHOWN, [*text.splitlines(), *[""] * len(SHOWN)]):
        tries.one(line, found, f"{line.split()[0]} {wanted}")
    tries.one("to as many lines", len(text.splitlines()), len(SHOWN))
    for line, wanted in ENDS:
        tries.one(line, told("decode", trace_of(box, line)), (0, f"{line.split()[0]} {wanted}\n", ""))
    blocked = trace_of(box, "2 wait 4029 00000000 00000000 00000000 00000000", "3 post 15", "3 signal 15 ignored", "2 blocked")
    tries.one("the attempt that finds the process blocked has a turn of its own", told("decode", blocked)[0::2], (0, ""))


# All names


def rows_of(name):
    """The rows of a table of the tool, word by word."""
    lines = (TOP / "tools" / name).read_text(encoding="utf-8").splitlines()
    return [line.split() for line in lines if line and not line.startswith("#")]


def decoded(box, lines):
    """What is decoded of lines, each without its turn."""
    numbered = [f"{turn} {line}" for turn, line in enumerate(lines, 1)]
    text = told("decode", trace_of(box, *numbered, f"{len(lines) + 1} exit 0"))[1]
    return [line.partition(" ")[2] for line in text.splitlines()[:-1]]


def call_line(number, *words, value=0, failed=0):
    texts = [f"{word:08x}" for word in (*words, 0, 0, 0, 0)[:4]]
    return f"call {number} {' '.join(texts)} = {value:08x} {failed}"


def try_names(tries, box):
    """Each call, error, signal and flag is decoded by its name."""
    calls, errors, signals = rows_of("calls.txt"), rows_of("errors.txt"), rows_of("signals.txt")
    tries.one("there are calls, errors and signals", (len(calls) > 400, len(errors) > 20, len(signals)), (True, True, 31))
    texts = decoded(box, [call_line(row[0], value=89, failed=1) for row in calls])
    wrong = [row[1] for row, text in zip(calls, texts) if not text.startswith(f"{row[1]}(") or not text.endswith("= -1 ENOSYS (Function not implemented)")]
    tries.one("each call is decoded by its name", (wrong, len(texts)), ([], len(calls)))
    texts = decoded(box, [call_line(4006, 3, value=int(row[0]), failed=1) for row in errors])
    tries.one("each error", texts, [f"close(3) = -1 {row[1]} ({' '.join(row[2:])})" for row in errors])
    texts = decoded(box, [f"post {row[0]}" for row in signals] + ["post 32", "post 33", "post 128"])
    wanted = [row[1] for row in signals] + ["SIGRTMIN", "SIGRT_1", "SIGRT_96"]
    tries.one("each signal", texts, [f"--- {name} (posted) ---" for name in wanted])


def flag_tables():
    """The tables of flags: each its rows, and the mask of a set, or None."""
    tables, table = {}, None
    for words in rows_of("flags.txt"):
        if words[0] in ("set", "values"):
            table = tables.setdefault(words[1], ([], int(words[2], 16) if words[0] == "set" else None))
        else:
            table[0].append((int(words[0], 0), words[1]))
    return tables


# For each table of flags a call that has it in an argument, and the words before that.
PLACES = {
    "open-flags": (4220, (3, 4)),  # fcntl64(3, F_SETFL, ..)
    "made-flags": (4327, (3, 4)),
    "descriptor-flags": (4220, (3, 2)),  # fcntl64(3, F_SETFD, ..)
    "fcntl-command": (4055, (3,)),
    "request": (4054, (3,)),
    "whence": (4019, (3, 0)),
    "at-flags": (4294, (3, 0)),
    "access-mode": (4033, (0,)),
    "protection": (4125, (0, 0)),
    "map-flags": (4210, (0, 0, 0)),
    "sync-flags": (4144, (0, 0)),
    "remap-flags": (4167, (0, 0, 0)),
    "advice": (4218, (0, 0)),
    "clock": (4263, ()),
    "sleep-flags": (4265, (0,)),
    "timer": (4105, ()),
    "mask-change": (4195, ()),
    "resource": (4076, ()),
    "random-flags": (4353, (0, 0)),
}


def try_flags(tries, box):
    """Each row of each table of flags is decoded by its name, in an argument or in a fault."""
    tables, signals = flag_tables(), {row[1]: row[0] for row in rows_of("signals.txt")}
    codes = {table for table in tables if table.endswith("-code")}
    tries.one("each table of flags is tried", sorted(set(tables) - codes), sorted(PLACES))
    for table, (number, before) in PLACES.items():
        rows, mask = tables[table]
        texts = decoded(box, [call_line(number, *before, value) for value, _ in rows])
        found = [text.partition("(")[2].partition(") =")[0].split(", ")[len(before)] for text in texts]
        zero = "".join(f"{name}|" for value, name in rows if value == 0 and mask)
        tries.one(f"each of {table}", found, [f"{zero if mask and value & ~mask else ''}{name}" for value, name in rows])
    for table in sorted(codes):
        signal = table.removesuffix("-code")
        texts = decoded(box, [f"fault {signals[signal]} {value} 00000000" for value, _ in tables[table][0]])
        tries.one(f"each of {table}", texts, [f"--- {signal} (fault: {name} at 0x0) ---" for _, name in tables[table][0]])


# What is shown of a trace, and what is counted

WORKED = [
    "6 call 4288 ffffff9c 7fff0010 00002000 00000000 = 00000003 0",
    "10 call 4003 00000003 7ffe0000 00000100 00000000 = 00000100 0",
    "12 call 4006 00000003 00000000 00000000 00000000 = 00000000 0",
    "20 call 4005 00400100 00000000 00000000 00000000 = 00000002 1",
    "21 call 4042 00000000 00000000 00000000 00000000 = 00000003 0",
    "25 wait 4003 00000003 7ffe0000 00000001 00000000",
    "26 post 14",
    "26 done 00000004 1",
    "26 signal 14 handler",
    "30 call 4188 7ffe0000 00000001 ffffffff 00000000 = 00000059 1",
    "34 return",
    "40 call 4188 7ffe0000 00000001 ffffffff 00000000 = 00000059 1",
    "50 exit 3",
]
# The numbers of turns of the lines that each filter leaves.
FILTERED = [
    ((), "6 10 12 20 21 25 26 26 26 30 34 40 50"),
    (("--calls", "openat"), "6"),
    (("--calls", "open,openat,close"), "6 12 20"),
    (("--calls", "%file"), "6 20"),
    (("--calls", "%signal"), "26 26 34"),
    (("--calls", "%wait"), "30 40"),
    (("--calls", "%file,%process"), "6 20 50"),
    (("--calls", "read"), "10 25 26"),
    (("--calls", "exit,sigreturn"), "34 50"),
    (("--failed",), "20 26 30 40"),
    (("--failed", "--calls", "poll"), "30 40"),
    (("--fd", "3"), "6 10 12 21 25 26"),
    (("--fd", "3", "--failed"), "26"),
    (("--fd", "0"), ""),
]


def try_filters(tries, box):
    trace = trace_of(box, *WORKED)
    for words, wanted in FILTERED:
        status, text, wrong = told("decode", *words, trace)
        tries.one(f"decode {' '.join(words)}", (status, " ".join(line.split()[0] for line in text.splitlines()), wrong), (0, wanted, ""))
    refused = [
        (("decode", "--calls", "opens", trace), "no call or group 'opens'"),
        (("decode", "--calls", "%files", trace), "no call or group '%files'"),
        (("decode", "--fd", "-1", trace), "'-1' is no descriptor"),
        (("decode", "--fd", trace), "use: o32trace.py decode [--calls LIST] [--failed] [--fd N] [--native LOG] TRACE"),
        (("missing", "--failed", trace), "use: o32trace.py missing TRACE"),
        (("diff", trace), "use: o32trace.py diff [--ignore-turns] [--ignore-addresses] A B"),
    ]
    for words, wanted in refused:
        tries.one(f"{' '.join(map(str, words[:-1]))} is refused", told(*words), (2, "", f"o32trace: {wanted}\n"))
    tries.one("no command is refused", told()[0::2][1].count("\n"), 1)
    status, text, wrong = told("--help")
    commands = ("decode", "missing", "summary", "diff")
    tries.one("the tool says what it does", (status, wrong, all(f"    o32trace.py {command} " in text for command in commands)), (0, "", True))
    status, _, wrong = told("decode", box / "nowhere")
    tries.one("a trace that is not there", (status, wrong.count("\n"), "No such file" in wrong), (2, 1, True))


# Beside the native log


def native_call(number, *words, before="-", after=None, reply):
    """A call of a native log, behind its turn."""
    arguments = " ".join(f"{word:016x}" for word in [*words, *[0] * (6 - len(words))])
    return f"call {number} {arguments} {before} {before if after is None else after} = {reply}"


def hexed(text):
    return text.encode("latin-1").hex()


HOST = 0x10000
# Lines of a trace and of the native log of the same turn, and what is shown of them.
BESIDE = [
    ("call 4288 ffffff9c 7fff0010 00002000 00000000 = 00000003 0",
     [native_call(56, 2**64 - 100, HOST, 0, before=hexed("/etc/passwd\0"), reply=3)],
     'openat(AT_FDCWD, "/etc/passwd", O_RDONLY|O_LARGEFILE) = 3</etc/passwd>'),
    ("call 4003 00000003 7fff0100 00001000 00000000 = 00000006 0",
     ["clock 9", native_call(63, 3, HOST, 4096, before="00" * 8, after=hexed("root:x\0\0"), reply=6)],
     'read(3</etc/passwd>, "root:x", 4096) = 6'),
    ("call 4041 00000003 00000000 00000000 00000000 = 00000004 0", [native_call(23, 3, reply=4)], "dup(3</etc/passwd>) = 4</etc/passwd>"),
    ("call 4006 00000003 00000000 00000000 00000000 = 00000000 0", [native_call(57, 3, reply=0)], "close(3</etc/passwd>) = 0"),
    ("call 4006 00000003 00000000 00000000 00000000 = 00000009 1", [native_call(57, 3, reply=-9)], "close(3) = -1 EBADF (Bad file descriptor)"),
    ("call 4003 00000004 7fff0100 00001000 00000000 = 00000000 0",
     [native_call(63, 4, HOST, 4096, before="00" * 8, reply=0)], 'read(4</etc/passwd>, "", 4096) = 0'),
    ("call 4003 00000004 00000001 00000004 00000000 = 0000000e 1", [], "read(4</etc/passwd>, 0x1, 4) = -1 EFAULT (Bad address)"),
    ("call 4012 7fff0010 00000000 00000000 00000000 = 00000000 0", [native_call(49, HOST, before=hexed("/tmp\0"), reply=0)], 'chdir("/tmp") = 0'),
    ("call 4005 7fff0010 00000301 000001a4 00000000 = 00000003 0",
     [native_call(79, 2**64 - 100, HOST, HOST + 2, 0, before=hexed("a\0"), reply=-2),
      native_call(56, 2**64 - 100, HOST, 0o1101, 0o644, before=hexed("a\0"), reply=3)],
     'open("a", O_WRONLY|O_CREAT|O_TRUNC, 0644) = 3</tmp/a>'),
    ("call 4004 00000003 7fff0010 00000029 00000000 = 00000029 0",
     [native_call(64, 3, HOST, 41, before=hexed('"\\\n\t\r\x7f\xe9' + "0123456789" * 3 + "abcd"), reply=41)],
     'write(3</tmp/a>, "\\"\\\\\\n\\t\\r\\x7f\\xe90123456789012345678901234"..., 41) = 41'),
    ("call 4288 00000005 7fff0010 00000000 00000000 = 00000006 0",
     [native_call(56, 5, HOST, 0, before=hexed("b\0"), reply=6)], 'openat(5, "b", O_RDONLY) = 6<?/b>'),
    ("call 4038 7fff0010 7fff0020 00000000 00000000 = 00000002 1",
     [native_call(276, 2**64 - 100, HOST, 2**64 - 100, HOST + 2, before=hexed("a\0c\0"), reply=-2)],
     'rename("a", "c") = -1 ENOENT (No such file or directory)'),
    ("call 4328 7fff0010 00000000 00000000 00000000 = 00000000 0",
     [native_call(59, HOST, 0, before="00" * 8, after="0700000008000000", reply=0)], "pipe2(0x7fff0010, 0) = 0"),
    ("wait 4003 00000007 7fff0010 00000004 00000000",
     [native_call(63, 7, HOST, 4, before="00" * 4, reply="sleep 0 -")], "read(7<pipe of turn 13>, 0x7fff0010, 4) <waits>"),
    ("call 4004 00000001 7fff0010 00000002 00000000 = 00000002 0",
     ["post 15 -1 7", native_call(64, 1, HOST, 2, before=hexed("Hi"), reply=2)], 'write(1<stdout>, "Hi", 2) = 2'),
]


def try_native(tries, box):
    """A trace is decoded beside the native log of its run."""
    trace = trace_of(box, *[f"{turn} {line}" for turn, (line, _, _) in enumerate(BESIDE, 1)], f"{len(BESIDE) + 1} exit 0")
    logged = [f"{turn} {line}" for turn, (_, lines, _) in enumerate(BESIDE, 1) for line in lines]
    log = trace_of(box, *logged, name="log")
    status, text, wrong = told("decode", "--native", log, trace)
    tries.one("a trace beside its native log", (status, wrong), (0, ""))
    for (line, _, wanted), found in zip(BESIDE, text.splitlines()):
        tries.one(f"{line} beside its native log", found.split(" ", 1)[1], wanted)
    filtered = told("decode", "--native", log, "--fd", "4", trace)[1]
    tries.one("descriptors of lines that are not shown are known", [line.split()[0] for line in filtered.splitlines()], ["3", "6", "7"])
    broken = trace_of(box, *logged[:2], "5 call 57", *logged[2:], name="broken")
    status, found, wrong = told("decode", "--native", broken, trace)
    place = len(lines_of(logged[:2]))
    tries.one("a native log with a broken line", (status, found, wrong), (2, text, f"o32trace: {broken}: line 3 at byte {place}: no line of a native log\n"))
    status, _, wrong = told("decode", "--native", box / "nowhere", trace)
    tries.one("a native log that is not there", (status, "No such file" in wrong), (2, True))


LACKS = [
    "5 call 4002 7ffe0000 00000001 ffffffff 00000000 = 00000059 1",
    "6 call 4999 00000000 00000000 00000000 00000000 = 00000059 1",
    "7 call 4002 7ffe0000 00000001 ffffffff 00000000 = 00000059 1",
    "8 call 4054 00000001 0000540d 7ffe0000 00000000 = 00000019 1",  # TCGETS, of what is no terminal
    "9 call 4054 00000001 40047477 7ffe0000 00000000 = 00000019 1",
    "10 call 4054 00000001 00001234 7ffe0000 00000000 = 00000019 1",
    "11 call 4220 00000003 00000022 7ffe0000 00000000 = 00000016 1",
    "12 call 4055 00000003 00000006 7ffe0000 00000000 = 00000016 1",
    "13 call 4220 00000003 00000022 7ffe0000 00000000 = 00000016 1",
    "14 call 4055 00000003 00000000 ffffffff 00000000 = 00000016 1",  # F_DUPFD
    "15 call 4055 0000000a 00000006 7ffe0000 00000000 = 00000009 1",  # EBADF
    "16 call 4218 00001000 00001000 00000004 00000000 = 00000016 1",
    "17 call 4005 00400100 00208000 00000000 00000000 = 00000016 1",
    "18 call 4005 00400100 00000003 00000000 00000000 = 00000016 1",
    "19 call 4104 00000002 7ffe0000 00000000 00000000 = 00000016 1",
    "20 call 4019 00000003 00000000 00000004 00000000 = 00000016 1",
    "21 exit 0",
]
LACKING = """\
    times    first turn  missing
        2             5  fork (4002): ENOSYS, there is one process
        2            11  fcntl64 F_SETLK64: EINVAL
        1             6  call_4999 (4999): ENOSYS
        1             9  ioctl TIOCGPGRP: ENOTTY
        1            10  ioctl 0x1234: ENOTTY
        1            12  fcntl F_SETLK: EINVAL
        1            16  madvise MADV_DONTNEED: EINVAL
        1            17  open O_DIRECT|O_PATH: EINVAL
        1            18  open 0x3: EINVAL
        1            19  setitimer ITIMER_PROF: EINVAL
        1            20  lseek SEEK_HOLE: EINVAL
"""
# Turns: 6 for openat; 4, 4 and, while it waited, 1 for read; 2 for close, 8 for open, 1 for pipe, 4 and 6 for poll, 4 for the
# return, 10 for exit.
SUMMED = """\
 % turns         turns    turns/call     calls    errors call
-------- ------------- ------------- --------- --------- ----------------
   20.00            10            10         1           exit
   20.00            10             5         2         2 poll
   18.00             9             4         2         1 read
   16.00             8             8         1         1 open
   12.00             6             6         1           openat
    8.00             4             4         1           sigreturn
    4.00             2             2         1           close
    2.00             1             1         1           pipe
-------- ------------- ------------- --------- --------- ----------------
  100.00            50             5        10         4 total
"""


def try_counts(tries, box):
    tries.one("what is missing", told("missing", trace_of(box, *LACKS)), (0, LACKING, ""))
    tries.one("where nothing is", told("missing", trace_of(box, WORKED[0], WORKED[-1])), (0, "", ""))
    tries.one("a summary", told("summary", trace_of(box, *WORKED)), (0, SUMMED, ""))
    status, text, _ = told("summary", trace_of(box, "5 budget"))
    tries.one("a summary without a call", (status, text.splitlines()[2]), (0, "  100.00             5                                   (budget)"))


# Comparing


def try_diff(tries, box):
    """Traces that are the same, differ, or differ in turns and addresses alone."""
    calls = [f"{turn} call 4020 00000000 00000000 00000000 00000000 = 00000064 0" for turn in range(1, 9)]
    mapped = ["9 call 4090 {0}000 00001000 00000003 00000802 = {1}000 0", "10 fault 11 1 {1}004", "11 call 4004 00000001 {1}000 00000003 {0}111 = 00000003 0"]
    one, other = ([*calls, *(line.format("00000", base) for line in mapped), "12 exit 0"] for base in ("6ffff", "6fffe"))
    a, b = trace_of(box, *one, name="a"), trace_of(box, *other, name="b")
    tries.one("a trace is the same as itself", told("diff", a, a), (0, "", ""))
    shown = [f"  {turn} getpid() = 100" for turn in range(4, 9)]
    head = "9 mmap(NULL, 4096, PROT_READ|PROT_WRITE, MAP_PRIVATE|MAP_ANONYMOUS, ...) = 0x"
    wanted = [
        f"{a}, line 9:", *shown, f"> {head}6ffff000", f"  ({one[8]})", f"{b}, line 9:", *shown, f"> {head}6fffe000", f"  ({other[8]})",
    ]
    tries.one("the first that differs", told("diff", a, b), (1, lines_of(wanted), ""))
    tries.one("addresses are left out", told("diff", "--ignore-addresses", a, b), (0, "", ""))
    null = trace_of(box, *(line.replace(" 6ffff000 00000003 ", " 00000000 00000003 ") for line in one), name="null")
    tries.one("but not whether they are 0", told("diff", "--ignore-addresses", a, null)[0], 1)
    register = trace_of(box, *(line.replace("00000111", "00000112") for line in one), name="register")
    tries.one("a word that no call takes counts", told("diff", a, register)[0], 1)
    tries.one("but not beside addresses", told("diff", "--ignore-addresses", a, register)[0], 0)
    size = trace_of(box, *(line.replace("00001000", "00002000") for line in one), name="size")
    tries.one("a size counts", told("diff", "--ignore-addresses", a, size)[0], 1)
    late = trace_of(box, *(f"{int(turn) + 1} {rest}" for turn, rest in (line.split(" ", 1) for line in one)), name="late")
    tries.one("turns count", told("diff", a, late)[0], 1)
    tries.one("turns are left out", told("diff", "--ignore-turns", a, late), (0, "", ""))
    tries.one("both are left out", told("diff", "--ignore-turns", "--ignore-addresses", late, b), (0, "", ""))
    short = trace_of(box, *one[:2], "3 exit 0", name="short")
    text = [f"{a}, line 3:", *(f"  {turn} getpid() = 100" for turn in (1, 2)), "> 3 getpid() = 100", f"  ({one[2]})"]
    text += [f"{short}, line 3:", *text[1:3], "> 3 +++ exited with 0 +++", "  (3 exit 0)"]
    tries.one("fewer than five before", told("diff", a, short), (1, lines_of(text), ""))
    cut = trace_of(box, *one[:1], name="cut")
    status, text, wrong = told("diff", cut, a)
    tries.one("a trace that ends before", (status, text.splitlines()[:3]), (2, [f"{cut}, line 2:", "  1 getpid() = 100", "> the end"]))
    tries.one("says where", wrong, f"o32trace: {cut}: line 2 at byte {len(one[0]) + 1}: the trace ends before its run does\n")


# Damage, and what reads no further

GETPID = "1 call 4020 00000000 00000000 00000000 00000000 = 00000064 0"
PAST_LINE = len(GETPID) + 1
DAMAGED = [
    (f"{GETPID}\n", f"line 2 at byte {PAST_LINE}: the trace ends before its run does", 1),
    ("", "line 1 at byte 0: the trace ends before its run does", 0),
    (f"{GETPID}\n2 exit 0", f"line 2 at byte {PAST_LINE}: the line has no end", 1),
    (f"{GETPID}\n2 exi\n3 exit 0\n", f"line 2 at byte {PAST_LINE}: no line of a trace", 2),
    (f"{GETPID}\n\n2 exits 0\n3 exit 0\n", f"line 2 at byte {PAST_LINE}: no line of a trace, and 1 more", 2),
    (f"{GETPID}\n{'x' * 100_000}\n3 exit 0\n", f"line 2 at byte {PAST_LINE}: no line of a trace", 2),
    (f"{GETPID}\n2 exit 0\n3 exit 0\n", f"line 3 at byte {PAST_LINE + 9}: a line behind the end of a run", 3),
    (f"5 return\n{GETPID}\n6 exit 0\n", "line 2 at byte 9: a turn before that of an earlier line", 3),
    *((f"{line}\n9 exit 0\n", "line 1 at byte 0: no line of a trace", 1) for line in (
        "0 return", "01 return", "1  return", "1 return ", "1 Return", "1 post 0", "1 post 129", "1 exit 256", "1 exit 01", "1 signal 5 killed",
        "1 done 0000000 0", "1 done 0000000A 0", "1 done 00000000 2", "1 restart 4294967296", "1 call 4020 00000000 = 00000064 0", "1 exit 7 ",
        "1000000000001 return", "1 fault 11 1", "1 \u0661 return", "1 wait 4029 00000000 00000000 00000000 00000000 00000000",
    )),
]


def try_damage(tries, box):
    """What can be read is shown, and the first place that is wrong is told."""
    for text, wanted, count in DAMAGED:
        (box / "damaged").write_text(text, encoding="utf-8")
        status, shown, wrong = told("decode", box / "damaged")
        tries.one(f"{text[-40:]!r} is damaged", (status, wrong, shown.count("\n")), (2, f"o32trace: {box / 'damaged'}: {wanted}\n", count))
    for command in ("missing", "summary"):
        status, _, wrong = told(command, trace_of(box, GETPID))
        tries.one(f"{command} says so too", (status, wrong.count("\n")), (2, 1))
    status, shown, wrong = told("decode", TOP / "examples" / "hello")
    tries.one("a program is no trace", (status, shown, wrong.count("\n")), (2, "", 1))
    status, shown, wrong = told("decode", TOP)
    tries.one("nor is a folder", (status, shown, wrong.count("\n")), (2, "", 1))


def peak(*words):
    """The status of the tool, and the most memory that it had, in bytes."""
    process = subprocess.Popen([sys.executable, TOOL, *words], stdout=subprocess.DEVNULL)
    _, waited, used = os.wait4(process.pid, 0)
    process.returncode = os.waitstatus_to_exitcode(waited)
    return process.returncode, used.ru_maxrss * 1024


def many_calls(count):
    yield from (f"{turn} call 4020 {turn:08x} 00000000 00000000 00000000 = 00000064 0" for turn in range(1, count))
    yield f"{count} exit 0"


def try_streams(tries, box):
    """Long traces take no more memory than short ones, and who reads no further ends the tool."""
    short, long = (trace_of(box, *many_calls(count), name=f"of{count}") for count in (100, 50_000))
    for command in ("decode", "summary", "missing"):
        before, after = peak(command, short), peak(command, long)
        tries.one(f"{command} keeps no lines", (after[0], after[1] - before[1] < 2_000_000), (0, True))
    before, after = peak("diff", short, short), peak("diff", long, long)
    tries.one("diff keeps no lines", (after[0], after[1] - before[1] < 2_000_000), (0, True))
    command = f"'{sys.executable}' '{TOOL}' decode '{long}' | head -n 1"
    ran = subprocess.run(["bash", "-c", f"set -o pipefail; {command}"], capture_output=True, timeout=LIMIT, stdin=subprocess.DEVNULL)
    tries.one("a reader that has enough", (ran.returncode, ran.stdout, ran.stderr), (0, b"1 getpid() = 100\n", b""))
    with open("/dev/full", "wb") as full:
        ran = subprocess.run([sys.executable, TOOL, "decode", short], stdout=full, stderr=subprocess.PIPE, timeout=LIMIT)
    tries.one("a device that is full", (ran.returncode, ran.stderr.count(b"\n"), b"No space left" in ran.stderr), (2, 1, True))


# The tables and the definitions

PARTS_OF_TOP = [
    "tools", "docs/RULES.md", "docs/o32run.1", "README.md", "crates/o32_calls/specs", "crates/o32_model/specs", "crates/o32_turns/specs",
    "crates/number_tables/specs",
]


def row_of(name):
    """The line of a call in the table of the tool."""
    lines = (TOP / "tools" / "calls.txt").read_text(encoding="utf-8").splitlines()
    return next(f"{line}\n" for line in lines if line.split()[1:2] == [name])


GETPID_ROW, FORK_ROW, LIMIT_ROW = (row_of(name) for name in ("getpid", "fork", "getrlimit"))
# A file, what is replaced there, by what, and the line that tells of it.
PLANTS = [
    ("tools/calls.txt", GETPID_ROW, "", "call 4020 is in the definition, and tools/calls.txt has it not or as missing"),
    ("tools/calls.txt", GETPID_ROW, GETPID_ROW.replace(" there  ", " missing"), "call 4020 is in the definition, and tools/calls.txt has it not or as missing"),
    ("tools/calls.txt", FORK_ROW, FORK_ROW.replace("missing", "there  "),
     "fork (4002) is in tools/calls.txt, and the definition has it not"),
    ("tools/calls.txt", GETPID_ROW, GETPID_ROW.replace("getpid ", "getpids"), "call 4020 is getpid in docs/RULES.md, and getpids in tools/calls.txt"),
    ("tools/calls.txt", GETPID_ROW, GETPID_ROW.replace("number     -", "nombre     -"), "getpid: no result nombre"),
    ("tools/calls.txt", GETPID_ROW, GETPID_ROW.replace("number     -", "number     paths"), "getpid: no kind paths"),
    ("tools/calls.txt", GETPID_ROW, GETPID_ROW.replace("number     -", "number     path"), "getpid: it takes a path, and is not in the group file"),
    ("tools/calls.txt", GETPID_ROW, GETPID_ROW.replace("number     -", "number     descriptor"), "getpid: it takes a descriptor, and is not in the group desc"),
    ("tools/calls.txt", GETPID_ROW, GETPID_ROW.replace("number     -", "number     clock!EINVAL"), "getpid: an argument gives EINVAL, and it is not there in part"),
    ("tools/calls.txt", GETPID_ROW, GETPID_ROW.replace("number     -", "number     clock!EINVALID"), "getpid: no error EINVALID"),
    ("tools/calls.txt", GETPID_ROW, GETPID_ROW.replace(" there ", " here  "), "getpid: no state here"),
    ("tools/calls.txt", FORK_ROW, FORK_ROW.replace(" fork  ", " getpid"), "two calls are called getpid"),
    ("tools/calls.txt", LIMIT_ROW, LIMIT_ROW.replace(",out", ""), "getrlimit: the definition looks at 2 arguments, and tools/calls.txt has 1"),
    ("tools/calls.txt", GETPID_ROW, GETPID_ROW * 2, "the numbers in tools/calls.txt don't rise"),
    ("tools/calls.txt", GETPID_ROW, GETPID_ROW.replace(" there  ", " part   "), "getpid: it is there in part, and no note says which"),
    ("tools/calls.txt", GETPID_ROW, "4020 getpid\n", "{top}/tools/calls.txt: line {line} is none of the table"),
    ("crates/o32_calls/specs/Numbers.antt", "plain_number Getpid = 4020", "plain_number Getpid = 4021",
     "call 4021 is in the definition, and tools/calls.txt has it not or as missing"),
    ("crates/o32_calls/specs/Numbers.antt", "name_number Link = 4009", "name_number Link = 4010", "link (4009) is in tools/calls.txt, and the definition has it not"),
    ("docs/RULES.md", "| getppid | 4064 |", "| getparent | 4064 |", "call 4064 is getparent in docs/RULES.md, and getppid in tools/calls.txt"),
    ("docs/o32run.1", "such as exit, getpid", "such as fork, getpid", "docs/o32run.1 names fork, which tools/calls.txt has not as there"),
    ("README.md", "{count} system calls", "99 system calls", "README.md doesn't say that there are {count} system calls"),
    ("tools/flags.txt", "0x100 O_CREAT\n", "", "open-flags: 0x100 is None in tools/, and O_CREAT in the definition"),
    ("tools/flags.txt", "0x1000 FASYNC missing\n", "0x1000 FASYNC\n", "open-flags: 0x1000 is FASYNC in tools/, and None in the definition"),
    ("crates/number_tables/specs/Requests.antt", "o32_request Fionread = 0x467F", "o32_request Fionread = 0x467E",
     "request: 0x467e is None in tools/, and FIONREAD in the definition"),
    ("crates/number_tables/specs/Errors.antt", "o32_errno ENOSYS = 89\n", "o32_errno ENOSYS = 89\no32_errno ETIMEDOUT = 145\n",
     "errors: 0x91 is None in tools/, and ETIMEDOUT in the definition"),
    ("tools/errors.txt", "90 ELOOP", "91 ELOOP", "errors: 0x5a is None in tools/, and ELOOP in the definition"),
    ("tools/signals.txt", "10 SIGBUS", "10 SIGBUSS", "signals: 0xa is SIGBUSS in tools/, and SIGBUS in the definition"),
    ("tools/flags.txt", "6 F_SETLK missing", "6 F_SETLK", "fcntl-command: [0, 1, 2, 3, 4, 6, 1030] are there, and the definition has [0, 1, 2, 3, 4, 1030]"),
    ("crates/o32_model/specs/Mappings.antt", "most_advice = 3", "most_advice = 4", "advice: 0 to 4 are there by the definition"),
]


def try_tables(tries, box):
    """The comparison of the tables with the definitions and the documents: it passes what is so, and finds what isn't."""
    top = box / "tables"
    for name in PARTS_OF_TOP:
        copy = shutil.copytree if (TOP / name).is_dir() else shutil.copy
        (top / name).parent.mkdir(parents=True, exist_ok=True)
        copy(TOP / name, top / name)
    tries.one("the tables are the definitions'", compared(top), (0, []))
    count = sum(row[3] != "missing" for row in rows_of("calls.txt"))
    line = next((number for number, text in enumerate((TOP / "tools/calls.txt").read_text().splitlines(), 1) if f"{text}\n" == GETPID_ROW), 0)
    for name, before, after, wanted in PLANTS:
        text, before = (top / name).read_text(encoding="utf-8"), before.format(count=count) if name == "README.md" else before
        tries.one(f"{before.strip()!r} is in {name}", before in text, True)
        (top / name).write_text(text.replace(before, after, 1), encoding="utf-8")
        status, found = compared(top)
        wanted = wanted.format(count=count, top=top, line=line)
        tries.one(f"{after.strip() or before.strip()!r} is found", (status, wanted in found), (1, True))
        (top / name).write_text(text, encoding="utf-8")
    (top / "crates/number_tables/specs/New.antt").write_text("new = 1\n")
    wanted = ["no table is named for crates/number_tables/specs/New.antt"]
    tries.one("a table that is new is found", compared(top), (1, wanted))


def compared(top):
    """The status of the comparison, and its lines without its name."""
    command = [sys.executable, TOP / ".ci" / "trace_tables", top]
    ran = subprocess.run(command, capture_output=True, timeout=LIMIT, stdin=subprocess.DEVNULL)
    return ran.returncode, [line.removeprefix("trace_tables: ") for line in (ran.stdout + ran.stderr).decode().splitlines()]


PARTS = [try_lines, try_names, try_flags, try_filters, try_native, try_counts, try_diff, try_damage, try_streams, try_tables]
