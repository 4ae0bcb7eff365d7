#!/usr/bin/env python3
"""Runs the sessions of a page, and compares what they show with what the page says.

    sessions.py [--program FILE] [--page FILE] DIR [SESSION..]

DIR is the folder of build.sh. A session is a block of the page that begins with ```console: a line that begins with
`$ ` is a command for bash, lines with `> ` go on with it, and the lines that follow are what it shows, on both streams.
A session is named by the first word of the heading above it, and all are run where none is named, each in an empty folder
of its own; `o32run` is FILE, or else the script of this repository. Ends with 0 where all show what the page says, and
else shows the first difference of each.
"""

import argparse
import difflib
import os
import subprocess
import sys
import tempfile

HERE = os.path.dirname(os.path.abspath(__file__))
TOP = os.path.dirname(os.path.dirname(HERE))
MARK = "=== the end of a command ==="
SECONDS = 600


class Session:
    def __init__(self, name, line):
        self.name, self.line = name, line  # of the page
        self.commands = []  # pairs of a command and what the page says that it shows


def sessions_of(page):
    """The sessions of a page, in their order."""
    session, name, found = None, "", []
    with open(page, encoding="utf-8") as text:
        for number, line in enumerate(text, start=1):
            if line == "```console\n":
                session = Session(name, number)
                found.append(session)
            elif line == "```\n":
                session = None
            elif session:
                add(session, line)
            elif line.startswith("#"):
                name = line.strip("# \n").split()[0].lower()
    return found


def add(session, line):
    if line.startswith("$ "):
        session.commands.append([line[2:], ""])
    elif line.startswith("> ") or line == ">\n":
        session.commands[-1][0] += line[2:] or "\n"
    else:
        session.commands[-1][1] += line


def run(session, program, guests):
    """What each command of a session shows."""
    script = "".join(f"{command}echo '{MARK}'\n" for command, _ in session.commands)
    with tempfile.TemporaryDirectory(prefix="session-") as folder:
        tools = os.path.join(folder, "tools")
        os.makedirs(os.path.join(folder, "work"))
        os.mkdir(tools)
        os.symlink(os.path.abspath(program), os.path.join(tools, "o32run"))
        os.symlink(os.path.join(TOP, "examples", "tree_image.py"), os.path.join(tools, "tree_image.py"))
        environment = dict(os.environ, G=os.path.join(guests, "guests"), S=HERE, LC_ALL="C", TZ="UTC")
        environment["PATH"] = ":".join([tools, os.path.join(guests, "bin"), os.environ["PATH"]])
        with open(os.path.join(folder, "script"), "w", encoding="utf-8") as text:
            text.write(script)
        try:
            done = subprocess.run(["bash", text.name], env=environment, cwd=os.path.join(folder, "work"), timeout=SECONDS,
                                  stdin=subprocess.DEVNULL, stdout=subprocess.PIPE, stderr=subprocess.STDOUT, text=True,
                                  errors="replace")
        except subprocess.TimeoutExpired:
            return [f"not over after {SECONDS} seconds\n"]
    return done.stdout.split(MARK + "\n")


def differs(session, shown):
    """Shows the first difference between a session and the page, and tells whether there is one."""
    for (command, wanted), found in zip(session.commands, shown + [""] * len(session.commands)):
        if wanted != found:
            sys.stdout.write(f"$ {command}")
            sys.stdout.writelines(difflib.unified_diff(wanted.splitlines(True), found.splitlines(True), "the page", "shown"))
            return True
    return False


def main():
    reader = argparse.ArgumentParser(usage="sessions.py [--program FILE] [--page FILE] DIR [SESSION..]")
    reader.add_argument("--program", default=os.path.join(TOP, "o32run"))
    reader.add_argument("--page", default=os.path.join(HERE, "README.md"))
    reader.add_argument("guests", metavar="DIR")
    reader.add_argument("names", metavar="SESSION", nargs="*")
    words = reader.parse_args()
    guests = os.path.abspath(words.guests)
    wanted = [session for session in sessions_of(words.page) if not words.names or session.name in words.names]
    bad = 0
    for session in wanted:
        wrong = differs(session, run(session, words.program, guests))
        bad += wrong
        print(f"{session.name} (line {session.line}): {'DIFFERS' if wrong else 'as the page says'}", flush=True)
    if not wanted:
        sys.exit("sessions.py: no session has this name")
    sys.exit(1 if bad else 0)


if __name__ == "__main__":
    main()
