"""The words on the command line that the scripts of this folder share."""
import argparse
import os
import pathlib


def an_executable(word):
    path = pathlib.Path(word)
    if not path.is_file() or not os.access(path, os.X_OK):
        raise argparse.ArgumentTypeError(f"{word} is no program")
    return path.resolve()


def a_count(word):
    if not word.isdecimal() or int(word) == 0:
        raise argparse.ArgumentTypeError(f"{word} is no number above 0")
    return int(word)


def default_emulator(parser):
    """The program that the repository builds, where it was built."""
    top = pathlib.Path(__file__).resolve().parent.parent
    built = top / "crates" / "o32run" / "out" / "o32run"
    if not built.exists():
        parser.error("the emulator is not built: ./o32run builds it")
    return built
