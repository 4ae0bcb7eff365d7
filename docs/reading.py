#!/usr/bin/env python3
"""Writes the definitions that the contract of `session` reaches, in the order of reading, to standard output.

usage: docs/reading.py [--files | --check]

A definition comes after those that it is made of. Each part begins with its file, and says how many of the file's
definitions are reached. With --files only the files are listed, with the lines of what is reached in each. With --check
nothing is written, and the script fails where something that is reached lies in specs/inside/, or a name leads nowhere.
What a name of `declared` stands for is a type of the Rust sources; these are listed last. It proves nothing.
"""
import itertools
import pathlib
import re
import signal
import sys

TOP = pathlib.Path(__file__).resolve().parent.parent
CONTRACT = TOP / "crates/o32_session/src/top_call.rt"
FUNCTION = "pub fn session"
HEAD = re.compile(r"^(?:abbrev|unfoldable|record|data)(?: pub)? (\S+)|^pub (?:record|data) (\S+)")
USE = re.compile(r"^(?:pub )?use Rattle\.([\w.]+?)(?:\.\{([^}]*)\}| as (\w+))\s*;?\s*$")
GHOST_USE = re.compile(r"^\s*ghost use Rattle\.([\w.]+?)(?:\.\{([^}]*)\}| as (\w+));$")
WORD = re.compile(r"[A-Za-z_][\w']*(?:-[\w']+)*(?:\.[A-Za-z_][\w']*(?:-[\w']+)*)?")
CONSTRUCTOR = re.compile(r"^  ([A-Z]\S*) :")


def is_of_kit(module):
    return not (TOP / "crates" / module.split(".")[0]).is_dir()


class Names:
    """What the names of a file stand for: a name, or the module of an alias."""

    def __init__(self):
        self.of, self.modules = {}, {}

    def take(self, line, form):
        found = form.match(line)
        if not found or is_of_kit(found[1]):
            return bool(found)
        module, listed, alias = found.groups()
        for item in (listed or "").split(","):
            name, _, other = item.strip().partition(" as ")
            if name:
                self.of[other or name] = (module, name)
        if alias:
            self.modules[alias] = module
        return True

    def meant(self, word):
        """The module and name that a word stands for, or None for one that is not taken from elsewhere."""
        first, _, rest = word.partition(".")
        if rest and first in self.modules:
            return self.modules[first], rest
        return self.of.get(first)


class File:
    """A file of specs/: what it is about, its definitions, each the lines from its comment on, and what its names stand for."""

    def __init__(self, path):
        self.path, self.names, self.parts, self.made_by = path, Names(), {}, {}
        lines, comment, name = path.read_text(encoding="utf-8").split("\n"), [], None
        self.about = list(itertools.takewhile(lambda line: line.startswith("--"), lines))
        for line in lines:
            head = HEAD.match(line)
            if self.names.take(line, USE) or line.startswith("pub mod "):
                comment = []
            elif head:
                name = head[1] or head[2]
                self.parts.setdefault(name, []).extend(comment)
                self.parts[name].append(line)
                comment = []
            elif line.startswith("--"):
                comment.append(line)
                name = None
            elif line and name:
                self.parts[name].append(line)
                made = CONSTRUCTOR.match(line)
                if made:
                    self.made_by[made[1]] = name
            elif not line:
                comment = [*comment, ""] if comment else []

    def used_by(self, name):
        text = "\n".join(line for line in self.parts[name] if not line.startswith("--"))
        for word in dict.fromkeys(WORD.findall(text)):
            first = word.split(".")[0]
            if first in self.parts and first != name:
                yield self.module(), first
            elif self.names.meant(word):
                yield self.names.meant(word)

    def module(self):
        inside = self.path.relative_to(TOP / "crates").with_suffix("")
        return ".".join(inside.parts)


class Reading:
    """What is reached, in the order of reading: `parts` are modules with a name, `types` those of the Rust sources."""

    def __init__(self):
        self.files, self.parts, self.types, self.lost = {}, [], set(), set()
        self.begun = set()

    def file(self, module):
        if module not in self.files:
            path = TOP / "crates" / (module.replace(".", "/") + ".antt")
            self.files[module] = File(path) if path.is_file() else None
        return self.files[module]

    def reach(self, begin):
        """Goes from one definition to all that it is made of; each is noted behind those that it uses."""
        stack = [(begin, None)]
        while stack:
            item, rest = stack.pop()
            if rest is None:
                if item in self.begun:
                    continue
                self.begun.add(item)
                rest = iter(self.below(*item))
            below = next((it for it in rest if it not in self.begun), None)
            if below:
                stack += [(item, rest), (below, None)]
            elif self.is_definition(*item):
                self.parts.append(item)

    def is_definition(self, module, name):
        return ".declared." not in module and self.file(module) is not None and name in self.file(module).parts

    def below(self, module, name):
        if ".declared." in module:
            self.types.add(".".join(part for part in module.split(".") if part != "TheVariants"))
            return []
        file = self.file(module)
        if file is None:
            self.lost.add(f"{module}.{name}")
            return []
        if name not in file.parts:
            if name in file.made_by:
                return [(module, file.made_by[name])]
            if name in file.names.of:
                return [file.names.of[name]]
            self.lost.add(f"{module}.{name}")
            return []
        return list(file.used_by(name))


def contract_words():
    """The names of the contract of `session`, with what they stand for; and those of the views that it speaks of."""
    text = CONTRACT.read_text(encoding="utf-8")
    names = Names()
    for line in text.split("\n"):
        names.take(line, GHOST_USE)
    start = text.index(FUNCTION)
    contract = text[start : text.index("\n{\n", start)]
    return [names.meant(word) for word in dict.fromkeys(WORD.findall(contract)) if names.meant(word)]


def grouped(reading):
    """The reached definitions by file, a file after those that it uses."""
    names, order = {}, []
    for module, name in reading.parts:
        names.setdefault(module, []).append(name)

    def place(module):
        if module in order:
            return
        used = [below for name in names[module] for below, _ in reading.below(module, name)]
        for below in dict.fromkeys(used):
            if below in names and below != module:
                place(below)
        order.append(module)

    for module in names:
        place(module)
    return [(module, names[module]) for module in order]


def main():
    words = sys.argv[1:]
    if words not in ([], ["--files"], ["--check"]):
        sys.exit(__doc__)
    reading = Reading()
    for item in contract_words():
        reading.reach(item)
    inside = sorted({module for module, _ in reading.parts if ".inside." in module})
    if words == ["--check"]:
        for module in inside:
            print(f"reading: the contract of session reaches {module}")
        for name in sorted(reading.lost):
            print(f"reading: {name} is reached, and stands nowhere")
        return 1 if inside or reading.lost or not reading.parts else 0
    whole = 0
    for module, names in grouped(reading):
        file = reading.file(module)
        lines = [line for name in file.parts if name in names for line in [*file.parts[name], ""]]
        whole += sum(bool(line) for line in lines)
        path = file.path.relative_to(TOP)
        print(f"{'' if words else '== '}{path}: {len(names)} of {len(file.parts)} definitions, {sum(map(bool, lines))} lines")
        if not words:
            print("\n".join([*file.about, "", *lines]))
    print(f"{'' if words else '== '}types of the sources: {', '.join(sorted(reading.types))}")
    print(f"in all {len(reading.parts)} definitions, {whole} lines")
    return 0


if __name__ == "__main__":
    # (a reader that has enough ends it)
    signal.signal(signal.SIGPIPE, signal.SIG_DFL)
    sys.exit(main())
