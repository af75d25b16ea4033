"""Parts that the scripts share: the top of the repository, the crates that crates.txt lists, other scripts, and the words of a
command line."""

import argparse
import difflib
import importlib.machinery
import importlib.util
import os
import shutil
import sys

TOP = os.path.dirname(os.path.dirname(os.path.abspath(__file__)))


def text_of(path):
    """The text of a file."""
    with open(path, encoding="utf-8", errors="replace") as file:
        return file.read()


def loaded(name):
    """Loads a script without an ending as a module."""
    loader = importlib.machinery.SourceFileLoader(name.replace("-", "_"), f"{TOP}/scripts/{name}")
    module = importlib.util.module_from_spec(importlib.util.spec_from_loader(loader.name, loader))
    loader.exec_module(module)
    return module


def crates_listed():
    """The crates and libraries that each crate of crates.txt names, in the order of its lines."""
    lines = [it.split(":") for it in text_of(f"{TOP}/crates.txt").split("\n") if ":" in it and not it.startswith("#")]
    return {head.split()[0]: below.split() for head, below in lines}


class Words(argparse.ArgumentParser):
    """The words of a script's command line. The script's doc is its help."""

    def __init__(self, doc):
        super().__init__(allow_abbrev=False)
        self.doc = doc

    def format_help(self):
        return f"{self.doc.rstrip()}\n"

    def error(self, message):
        """Ends the script with one line and status 2."""
        self.exit(2, f"{self.prog}: {message} ({self.prog} --help says what it takes)\n")

    def check_crates(self, names, known):
        """Ends the script if a name is none of the known crates, with the names that are nearest to it."""
        for name in names:
            if name not in known:
                near = difflib.get_close_matches(name, known, 3)
                self.error(f"no crate {name}{'; near to it: ' if near else ''}{', '.join(near)}")


def need(*programs):
    """Ends the script with one line and status 2 if a program that it runs is not installed."""
    for program in programs:
        if not shutil.which(program):
            print(f"{os.path.basename(sys.argv[0])}: it needs {program}, which is not installed", file=sys.stderr)
            sys.exit(2)


def number_in(least, most):
    """Returns a reader of numbers from least to most, for an argument of a script."""

    def number(word):
        value = int(word) if word.isascii() and word.isdigit() else -1
        if not least <= value <= most:
            raise argparse.ArgumentTypeError(f"{word} is no number from {least} to {most}")
        return value

    return number
