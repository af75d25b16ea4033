"""Static libraries of the repository: proved over the libraries that the gate left in crates/*/out, compiled, and joined with what
they call of the toolchain's C. Shared by embed, fuzz and package. Needs the Rattle toolchain and Python 3.8.
"""
import os
import shutil
import subprocess
import sys
import tempfile

import command
import programs


def kit():
    """Returns the folder of the toolchain."""
    return os.path.dirname(ran(["rt", "doc"]).strip())


def ran(words, **how):
    """Runs a command that has to pass, and returns what it printed; if it fails, ends with what it printed and status 2."""
    done = subprocess.run(words, stdin=subprocess.DEVNULL, stdout=subprocess.PIPE, stderr=subprocess.STDOUT, **how)
    if done.returncode:
        print(done.stdout.decode(errors="replace"), file=sys.stderr)
        print(f"{os.path.basename(sys.argv[0])}: this failed: {' '.join(words)}", file=sys.stderr)
        sys.exit(2)
    return done.stdout.decode(errors="replace")


def built(crate):
    """The path of a library that the gate leaves."""
    return f"{command.TOP}/crates/{crate}/out/rlib/{crate}.rlib"


def lack_of(crate):
    """The first library below a crate that is not there, or nothing."""
    return next((it for it in sorted(programs.crates_below(crate) - {crate}) if not os.path.isdir(built(it))), "")


class Library:
    """A crate that is a static library, proved over the libraries that the gate left."""

    def __init__(self, crate, toolkit, room):
        self.crate, self.kit, self.room, listed = crate, toolkit, room, command.crates_listed()
        self.words = ["--crate-name", crate, "src/lib.rt", "--crate-type", "staticlib"]
        for it in ["std", *listed[crate]]:
            self.words += ["--extern", f"{it}={f'../{it}/out/rlib' if it in listed else f'{toolkit}/rlibs'}/{it}.rlib"]
        self.words += ["-L", f"dependency={toolkit}/rlibs"]
        for it in listed:
            self.words += ["-L", f"dependency=../{it}/out/rlib"]
        self.words += ["--antt-project", f"{toolkit}/rattle/logic/antt-project.json"]
        self.rattle("check", "--logic-built", f"{toolkit}/logic_built", "--jobs", "1", "-o", f"{room}/checked")

    def rattle(self, verb, *more):
        ran([f"{self.kit}/bin/rattle", verb, *self.words, *more], cwd=f"{command.TOP}/crates/{self.crate}")

    def compiled(self, toolchain, to, backend="llvm"):
        """Compiles what was proved by a toolchain, either by its clang or, as the backend rattle, by Rattle's own compiler."""
        self.rattle("build", "--crate-checked", f"{self.room}/checked", "--backend", backend, "--toolchain", toolchain, "-o", to)
        return to


def archive(crate, backend="llvm"):
    """Returns the path of a static library, crates/CRATE/out/BACKEND/libCRATE.a, which holds what it calls of the toolchain's C too.
    If one is missing or older than its sources, the crate is proved and compiled first, by both compilers."""
    to = {it: f"{command.TOP}/crates/{crate}/out/{it}/lib{crate}.a" for it in ("llvm", "rattle")}
    if any(programs.lack_of(crate, it) for it in to.values()):
        command.need("rt", "ar")
        lacking = lack_of(crate)
        if lacking:
            print(f"no {os.path.relpath(built(lacking))}: run scripts/gate first", file=sys.stderr)
            sys.exit(2)
        toolkit = kit()
        with tempfile.TemporaryDirectory(prefix="archive-") as room:
            library = Library(crate, toolkit, room)
            for it, path in to.items():
                os.makedirs(os.path.dirname(path), exist_ok=True)
                made = library.compiled(f"{toolkit}/toolchain", f"{room}/{it}.a", it)
                merged([made, f"{toolkit}/c/liblibc_c.a"], path, room)
    return to[backend]


def first_program():
    """Returns the program that docs/EMBEDDING.md begins with, and what it prints."""
    lines = command.text_of(f"{command.TOP}/docs/EMBEDDING.md").split("\n")
    start = lines.index("    #include <stdio.h>")
    source = "".join(f"{line[4:]}\n" for line in lines[start : lines.index("    }", start) + 1])
    return source, "/10.0.0.1:7000\n  generation:9\n  heartbeat:1\n  LOAD:2:1048576\n"


def merged(archives, to, room):
    """Puts the objects of archives into one, with no dates and no owners."""
    script = "".join(["create merged.a\n", *(f"addlib {it}\n" for it in archives), "save\nend\n"])
    subprocess.run(["ar", "-M"], input=script.encode(), cwd=room, check=True)
    ran(["ranlib", "-D", "merged.a"], cwd=room)
    shutil.copyfile(f"{room}/merged.a", f"{to}.new")
    os.replace(f"{to}.new", to)
