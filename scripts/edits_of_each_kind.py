"""A small crate with edits of each kind, and what scripts/try-edits has to say of each: its selftest. Needs the Rattle
toolchain."""
import os
import re
import shutil
import subprocess
import tempfile

import command

CODE = """\
//! Functions whose edits are of each kind.
#![tactic(auto)]

ghost use Rattle.std.specs.Prelude.{◌≡◌, ◌+◌, ◌<◌, true};
ghost use Rattle.small.specs.Echo.{echo_of};

/// The number that follows.
pub fn following(number: u8) -> u8
    requires below { number < 200 }
    ensures value { result ≡ number + 1 }
{
    number + 1
}

/// The number that follows, by a call.
pub fn followed(number: u8) -> u8
    requires { number < 199 }
    ensures { result ≡ number + 1 }
{
    following(number)
}

/// The same number.
pub fn echo(number: usize) -> usize
    ensures { result ≡ echo_of number }
{
    number
}

/// The same number again.
pub fn repeat(number: usize) -> usize
    ensures { result ≡ echo_of number }
{
    echo(number)
}

/// Tests that the echo of 3 is 3, which only a file of answers shows.
pub fn is_echoed() -> bool
    ensures { result ≡ true }
{
    echo(3) == 3
}

/// Both halves.
pub fn halves(bytes: &mut [u8]) -> (&mut [u8], &mut [u8]) {
    let middle = bytes.len() / 2;
    bytes.split_at_mut(middle)
}
"""
ECHO_ANSWERS = """\
-- The number itself is its echo.
use Rattle.std.proofs.Common.{refl}
use Rattle.small.specs.Echo.{echo_of}
use Rattle.small.proofs.echo.Goals as goal

pub returns : goal.returns
unfolding echo_of
returns c = refl
"""
ANSWERS = """\
-- The echo of 3 is 3.
use Rattle.std.proofs.Common.{eq-eqb}
use Rattle.small.specs.Echo.{echo_of}
use Rattle.small.proofs.is_echoed.Goals as goal

pub returns : goal.returns
unfolding echo_of
returns c = eq-eqb c.echo.result 3 c.echo.ensures
"""
ECHO = """\
-- The number that an echo returns.
use Rattle.std.specs.Prelude.{ℕ}

unfoldable pub echo_of : ℕ → ℕ
echo_of number = number
"""
ABOVE = """\
//! A function over another crate.
#![tactic(auto)]

ghost use Rattle.std.specs.Prelude.{◌≡◌, ◌+◌, ◌<◌};

use small::following;

/// The number after the next.
pub fn second(number: u8) -> u8
    requires { number < 199 }
    ensures { result ≡ number + 2 }
{
    following(following(number))
}
"""
FILES = {
    "crates.txt": "small:\nabove: small\n",
    "HANDLES": "Handles allowed: none.\n",
    "crates/small/src/lib.rt": CODE,
    "crates/small/specs/Lib.antt": "pub mod Echo\n",
    "crates/small/specs/Echo.antt": ECHO,
    "crates/small/proofs/echo/Answers.antt": ECHO_ANSWERS,
    "crates/small/proofs/is_echoed/Answers.antt": ANSWERS,
    "crates/above/src/lib.rt": ABOVE,
    "crates/above/edits/second_is_the_next.edit": "file: src/lib.rt\nold: following(following(number))\nnew: following(number)\n",
}
UNREAD = r"crates/.*: the prover can't read it: .*"
# An edit's name, its old and its new text, and what is said of it.
EDITS = [
    (
        "number_that_follows_is_another",
        "    number + 1⏎",
        "    number + 2⏎",
        r"refused: .* following: clause value \(returns\)",
    ),
    ("echo_of_3_is_4", "echo(3) == 3", "echo(3) == 4", r"refused: .* is_echoed: its only clause \(returns\)"),
    ("call_is_made_too_late", "    following(number)⏎", "    following(number + 1)⏎", r"refused: .* followed: .*"),
    ("sum_is_turned_round", "    number + 1⏎", "    1 + number⏎", r"crates/.*: NOT REFUSED: .*"),
    (
        "echo_is_the_repeated_number",
        "echo(3) == 3",
        "repeat(3) == 3",
        r"crates/.*: NO GOAL REFUSES IT: .* a name is gone: proofs/is_echoed/Answers.antt: .*",
    ),
    (
        "halves_by_one_line",
        "split_at_mut(middle)",
        "split_at_mut(bytes.len() / 2)",
        r"crates/.*: NO PROOF WAS GENERATED of halves: .*",
    ),
    ("bracket_is_not_closed", "    following(number)⏎", "    following(number⏎", UNREAD),
    ("number_has_no_such_name", "    number + 1⏎", "    nubmer + 1⏎", UNREAD),
    ("text_is_absent", "    number + 3⏎", "    number + 1⏎", r"crates/.*: a text to replace is 0 times in src/lib.rt, .*"),
]


def write(path, text):
    os.makedirs(os.path.dirname(path), exist_ok=True)
    with open(path, "w", encoding="utf-8") as file:
        file.write(text)


def furnish(top):
    """Writes the crate, its edits and the scripts that try them into a folder, as a repository of its own."""
    for path, text in FILES.items():
        write(f"{top}/{path}", text)
    for name, old, new, _ in EDITS:
        write(f"{top}/crates/small/edits/{name}.edit", f"file: src/lib.rt\nold: {old}\nnew: {new}\n")
    os.mkdir(f"{top}/scripts")
    for name in ("try-edits", "command.py", "refusals.py", "repository.py", "unfit-edits.txt"):
        shutil.copy(f"{command.TOP}/scripts/{name}", f"{top}/scripts")


def said_by(top, *words):
    """Runs scripts/try-edits there, and returns its lines and its status."""
    how = {"stdout": subprocess.PIPE, "stderr": subprocess.STDOUT, "text": True}
    ran = subprocess.run([f"{top}/scripts/try-edits", *words], **how)
    return ran.stdout.strip().split("\n"), ran.returncode


def misjudged(top):
    """Yields what is said otherwise than it has to be."""
    lines, status = said_by(top, "--jobs", "1", "small")
    for name, _, _, wanted in EDITS:
        line = next((it for it in lines if f"/{name}:" in it or f"/{name}.edit:" in it), "nothing")
        if not re.fullmatch(wanted, line):
            yield f"{name}: {line}, and not {wanted}"
    refused = len([it for it in EDITS if it[3].startswith("refused: ")])
    if status != 1 or lines[-1] != f"{refused} passed, {len(EDITS) - refused} failed":
        yield f"the last line is {lines[-1]}, with status {status}"
    lines, status = said_by(top, "smal")
    if status != 2 or "no crate smal; near to it: small" not in lines[0]:
        yield f"of a crate that is not there it says {lines[0]}, with status {status}"


def kept_wrongly(top):
    """Yields what is said otherwise than it has to be of crates whose edits are all refused: that those of small are kept as
    long as comments alone change, and those of the crate above it unless what changed is public."""
    for name, _, _, wanted in EDITS:
        if not wanted.startswith("refused: "):
            os.remove(f"{top}/crates/small/edits/{name}.edit")
    kept = "edits were refused, and nothing that they rest on has changed"
    for words, change, crate, wanted in [
        ([], "", "small", r"small: 3 of 3 edits refused, .*"),
        ([], "", "above", r"above: 1 of 1 edits refused, .*"),
        (["--changed"], "// A comment.\n", "small", f"small: 3 {kept}"),
        (["--changed"], "fn one() -> u8 {\n    1\n}\n", "above", f"above: 1 {kept}"),
        (["--changed"], "fn one() -> u8 {\n    1\n}\n", "small", r"small: 3 of 3 edits refused, .*"),
        (["--changed"], "/// One.\npub fn one() -> u8 {\n    1\n}\n", "above", r"above: 1 of 1 edits refused, .*"),
    ]:
        write(f"{top}/crates/small/src/lib.rt", CODE + change)
        lines, status = said_by(top, "--jobs", "1", *words, crate)
        if status or not lines[-1].endswith(" passed, 0 failed") or not re.fullmatch(wanted, lines[-2]):
            yield f"{' '.join(words)} {crate} behind the change {change!r} says {lines[-2:]}, with status {status}"


def main():
    with tempfile.TemporaryDirectory(prefix="edits-") as top:
        furnish(top)
        wrong = [*misjudged(top), *kept_wrongly(top)]
        shutil.rmtree(f"{tempfile.gettempdir()}/try-edits{top.replace('/', '-')}", ignore_errors=True)
    what = f"{len(EDITS)} edits, a name of no crate, and what is kept of two crates"
    print("\n".join(wrong) if wrong else f"{what} are judged as they must be")
    return 1 if wrong else 0
