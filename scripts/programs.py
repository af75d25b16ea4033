#!/usr/bin/env python3
"""usage: scripts/programs.py CRATE

Prints the path of a crate's program, crates/CRATE/out/CRATE, proved and built. If it is missing or older than its
sources, rt ci makes it first, of that crate and those below it. That takes some minutes if this machine keeps their
proofs, which rt ci keeps by checksums of all that it read, and up to an hour on 4 cores if not. It needs Python 3.8 and
the Rattle toolchain.
"""
import functools
import os
import shutil
import subprocess
import sys
import tempfile

from command import TOP, Words, crates_listed, need, text_of

PARTS = ("src", "specs", "proofs")
EDITS = shutil.ignore_patterns("out", "edits", "further-edits", "must-fail")


def crates_below(name):
    """A crate and all crates that it stands on."""
    listed, found, left = crates_listed(), set(), [name]
    while left:
        name = left.pop()
        if name in listed and name not in found:
            found.add(name)
            left += listed[name]
    return found


def newest_change(name):
    """The time of the last change to a source of a crate or of one below it, in seconds since 1970."""
    folders = [f"{TOP}/crates/{crate}/{part}" for crate in crates_below(name) for part in PARTS]
    walks = [walk for folder in folders for walk in os.walk(folder)]
    return max(os.path.getmtime(f"{at}/{file}") for at, _, files in walks for file in files)


def lack_of(name, program):
    """Says why the program can't be taken as it is, or nothing if it can."""
    if not os.path.isfile(program):
        return "is missing"
    return "is older than its sources" if os.path.getmtime(program) < newest_change(name) else ""


def copy_of(name, top):
    """Makes a repository of a crate and those below it, without edits."""
    crates = crates_below(name)
    for crate in crates:
        shutil.copytree(f"{TOP}/crates/{crate}", f"{top}/crates/{crate}", ignore=EDITS)
    shutil.copyfile(f"{TOP}/HANDLES", f"{top}/HANDLES")
    lines = [line for line in text_of(f"{TOP}/crates.txt").split("\n") if line.split(":")[0].split(" ")[0] in crates]
    with open(f"{top}/crates.txt", "w", encoding="utf-8") as file:
        file.write("".join(f"{line}\n" for line in lines))


def make(name, log):
    """Has rt ci prove and build a crate, and takes its programs, with the time of now. It works on a copy, as rt ci
    CRATE does, which takes its copy away with the programs in it."""
    with tempfile.TemporaryDirectory(prefix="rt-program-") as top, open(log, "w", encoding="utf-8") as out:
        copy_of(name, top)
        subprocess.run(["rt", "ci"], cwd=top, stdin=subprocess.DEVNULL, stdout=out, stderr=subprocess.STDOUT)
        made = f"{top}/crates/{name}/out"
        os.makedirs(f"{TOP}/crates/{name}/out", exist_ok=True)
        for file in (name, f"{name}_tests"):
            if os.path.isfile(f"{made}/{file}"):
                shutil.copy(f"{made}/{file}", f"{TOP}/crates/{name}/out/{file}")


@functools.lru_cache(maxsize=None)
def built(name, ending=""):
    """Returns the path of a crate's program, with the ending _tests of its tests. If it is missing or older than its
    sources, `rt ci` makes it first."""
    program = f"{TOP}/crates/{name}/out/{name}{ending}"
    short = os.path.relpath(program, TOP)
    why = lack_of(name, program)
    if why:
        need("rt")
        log = f"{tempfile.gettempdir()}/rt-program-{name}.log"
        how_long = "some minutes if this machine keeps the proofs, and up to an hour on 4 cores if not"
        print(f"{short} {why}: rt ci makes it and prints to {log}. It takes {how_long}.", file=sys.stderr, flush=True)
        make(name, log)
        why = lack_of(name, program)
    if why:
        sys.exit(f"{short} {why}, and rt ci did not make it: see {log}")
    return program


def main():
    words = Words(__doc__)
    words.add_argument("crate", metavar="CRATE")
    given = words.parse_args()
    words.check_crates([given.crate], crates_listed())
    print(os.path.relpath(built(given.crate)))


if __name__ == "__main__":
    main()
