"""What a check of the prover says of functions that are not proved: the goals that are left, and the proof files that
no longer fit. Shared by try-edits and its selftest. It reads the prover's output alone. Needs Python 3.8.
"""
import re
from typing import Dict, List, NamedTuple, Optional, Tuple

# A function as an edit names what it turns: module, type with trait, whether that is applied, and name.
Turned = Tuple[str, str, bool, str]

# The line of a function, of a type or of an impl; the notes on the goals that are left of it stand before it.
VERDICT_OF = re.compile(r"(fn|struct|enum|trait|impl) \w+::(\S+): (.*)")
LEFT = re.compile(r"note: \S+:\d+:\d+: it is not proved that (.*) \(`([^`]+)`\)(.*)")
FOUND_FALSE = "the facts known there allow values at which this goal is false"
NOT_FOUND = re.compile(r"did not prove ((?:`[^`]+`(?:, )?)+)")
# That a function waits for another's proof is no reason of its own.
WAITING = re.compile(r"(?:^|; )it (?:calls|waits for|passes) .*")
# An error in a file of proofs/: the file, the answer that it is about, and the text.
MISFIT = re.compile(r"(?:\./)?(proofs/\S+\.antt):\d+:\d+: error\b[^:]*: (?:`([^`]+)`: )?(.*)")
# The words for a name that is gone; else what an answer proves is no longer its goal.
NAME_IS_GONE = re.compile(r"has no field|is not in scope|has no `|was not admitted|is no name")
# The last line of a check, of a whole crate or of some functions.
LAST = re.compile(r"^(?:logic=(\S+)|only=(\d+) proved=(\d+)).*", re.M)


class Goal(NamedTuple):
    """A goal that is left of a function: its path below the crate, the goal's name, what it says, and whether the
    prover found values at which it is false."""

    function: str
    name: str
    what: str
    is_false: bool

    @property
    def answers(self) -> str:
        """The file of answers to the function's goals."""
        return f"proofs/{self.function.replace('::', '/')}/Answers.antt"

    @property
    def clause(self) -> str:
        """The clause of the goal, if its name tells it."""
        found = re.search(r"-clause-(\w+)$", self.name)
        return f"clause {found[1]}" if found else ""


class Misfit(NamedTuple):
    """An error in a proof file: the file, the goal that its answer is for, the text, and whether a name is gone."""

    file: str
    goal: str
    text: str
    is_of_names: bool

    @property
    def function(self) -> str:
        """The path of the function whose proof the file is part of; empty for a file of lemmas."""
        found = re.fullmatch(r"proofs/(.*)/(?:Answers|Invariants|Proof)\.antt", self.file)
        return found[1].replace("/", "::") if found else ""

    @property
    def is_answer(self) -> bool:
        return self.file.endswith("/Answers.antt")

    def __str__(self) -> str:
        return f"{self.file}: {f'`{self.goal}`: ' if self.goal else ''}{self.text[:200]}"


class Said(NamedTuple):
    """What a check says: goals that are left, errors of proof files, functions that fail for a reason of their own,
    with the reason, and whether all that was checked is proved."""

    goals: List[Goal]
    misfits: List[Misfit]
    failed: Dict[str, str]
    is_proved: bool


def said_in(text: str) -> Optional[Said]:
    """Reads the output of a check; None if it came to no verdict."""
    last = LAST.search(text)
    if not last:
        return None
    said = Said([], [], {}, last[1] == "proved" or (last[2] is not None and last[2] == last[3]))
    before: List[Goal] = []
    for line in text.split("\n"):
        left, verdict, misfit = LEFT.match(line), VERDICT_OF.match(line), MISFIT.match(line)
        if left:
            before.append(Goal("", left[2], left[1].partition(" holds")[0], FOUND_FALSE in left[3]))
        elif misfit:
            said.misfits.append(Misfit(misfit[1], misfit[2] or "", misfit[3], bool(NAME_IS_GONE.search(misfit[3]))))
        elif verdict:
            note_function(said, verdict[2], verdict[3], before)
            before = []
    return said


def note_function(said: Said, path: str, verdict: str, before: List[Goal]) -> None:
    """Notes what the line of a function says of it, and the notes before it."""
    if re.match(r"proved\b", verdict):
        return
    said.goals.extend(goal._replace(function=path) for goal in before)
    found, noted = NOT_FOUND.search(verdict), {goal.name for goal in before}
    names = re.findall(r"`([^`]+)`", found[1]) if found else []
    said.goals.extend(Goal(path, name, "", False) for name in names if name not in noted)
    reason = WAITING.sub("", re.sub(r"^no proof: ", "", verdict))
    if reason or before:
        said.failed[path] = reason


def is_at(path: str, turned: Turned) -> bool:
    """Tests whether the prover's path of a function, or of a closure in it, is that of one that is turned. There a
    method is below its type, wherever that is declared, or below its type, its trait and what that is applied to, in
    one word."""
    module, owner, is_applied, name = turned
    above, _, last = re.sub(r"\bfn::(\w+)::.*", r"\1", path).rpartition("::")
    of = above.rpartition("::")[2]
    return last == name and ((of.startswith(owner) if is_applied else of == owner) if owner else above == module)


def path_of(turned: Optional[Turned]) -> Optional[str]:
    """Returns what names a turned function to the prover: its path, or the end of it. It is None if no function is
    turned. A method of a trait that is applied is named by the whole module in which it is written."""
    if turned is None:
        return None
    module, owner, is_applied, name = turned
    if is_applied:
        return module or None
    return f"{owner or module}::{name}".lstrip(":")
