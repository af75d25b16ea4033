"""The law of what the clients of agents read, and the judge of it.

The owner of an entry is the agent that it is about. The history of an owner's life is what its journal says: a start, with
heartbeat version 1 and no text, and then for each line `tick`, `beat`, `set` and `remove` the same entry with the next version.

1. A change that was answered, `version N`, is in that history as change N, with the key and the text that the client asked for.
   One whose answer was lost may be there or not, as the journal says.
2. What a read shows of an owner is one entry of the owner's history, whole: heartbeat and texts are those after the newest
   version that it shows, and no other. Where a read shows no newest version, it has to fit a version from the greatest that it
   shows on, and the version beside each text is that of the change which set it.
3. Of one life of a node, a client's reads never go back. No later one shows an owner in an older generation or version than an
   earlier one did, or not at all. A change of the client's own that was answered counts as a read.

Reads are kept once for each entry, so that a long run needs little memory.
"""
import bisect
import threading
from typing import Dict, NamedTuple, Optional, Tuple

import command
import http_agents

model = command.loaded("check-vectors")


class Change(NamedTuple):
    """A change that was answered; its text is None for a removal."""

    owner: str
    generation: int
    version: int
    name: str
    text: Optional[str]


class Shown(NamedTuple):
    """What a read shows of an owner. Its newest version is None if it is not shown: then each text has its version."""

    owner: str
    generation: int
    newest: Optional[int]
    heartbeat: int
    texts: Tuple[Tuple[str, object], ...]


class History:
    """The entries of an owner's life."""

    def __init__(self, lines):
        self.last, self.beats, self.versions, self.texts = 1, [1], [1], [{}]
        self.changes: Dict[int, Tuple[str, Optional[str]]] = {}
        for line in lines:
            word, *rest = line.split(" ", 2)
            if word in ("tick", "beat"):
                self.last += 1
                self.beats.append(self.last)
            elif word in ("set", "remove"):
                self.last += 1
                name = model.KEYS[int(rest[0])]
                self.change(name, None if word == "remove" else bytes.fromhex(rest[1].replace("-", "")).decode())

    def change(self, name, text):
        """Does the change of the last version."""
        self.changes[self.last] = name, text
        now = {it: held for it, held in self.texts[-1].items() if it != name}
        if text is not None:
            now[name] = self.last, text
        self.versions.append(self.last)
        self.texts.append(now)

    def heartbeat_at(self, version):
        return self.beats[bisect.bisect_right(self.beats, version) - 1]

    def texts_at(self, version):
        """Returns by name the texts after a version, each with its version."""
        return self.texts[bisect.bisect_right(self.versions, version) - 1]

    def end_of_beat(self, heartbeat):
        """Returns the version of the beat after this one, or of what would come next."""
        row = bisect.bisect_right(self.beats, heartbeat)
        return self.beats[row] if row < len(self.beats) else self.last + 1

    def fitting(self, shown):
        """Returns the greatest version whose entry is what is shown, or None."""
        if shown.newest is None:
            least = max([shown.heartbeat, *(version for _, (version, _) in shown.texts)])
            # (a text that was set and removed since is not shown)
            texts = dict(shown.texts)
            fit = [it for it in range(least, self.end_of_beat(shown.heartbeat)) if self.texts_at(it) == texts]
        else:
            fit = [shown.newest]
            if {name: text for name, (_, text) in self.texts_at(shown.newest).items()} != dict(shown.texts):
                return None
        fit = [it for it in fit if 1 <= it <= self.last and self.heartbeat_at(it) == shown.heartbeat]
        return fit[-1] if fit else None


def lines_of_journal(path):
    """Returns the whole lines of a journal that are events."""
    with open(path, "rb") as lines:
        whole = [line[:-1] for line in lines if line.endswith(b"\n")][1:]
    # (frames are long, and are of no use here)
    return [line[:9].decode() if line.startswith((b"syn", b"ack")) else line.decode() for line in whole]


class Reader:
    """A client's reads of one node, in their order: what each life of that node has shown at least."""

    def __init__(self, node, record):
        self.node, self.record, self.life, self.floor = node, record, 0, {}

    def read(self, newest):
        """Takes a read, by owner the generation and the newest version."""
        if self.node not in newest:
            self.record.break_law(f"{self.node} shows nothing of itself")
            return
        life = newest[self.node][0]
        if life < self.life:
            self.record.break_law(f"{self.node} shows itself in generation {life}, and earlier in {self.life}")
        if life != self.life:
            self.life, self.floor = life, {}
        for owner, least in self.floor.items():
            if newest.get(owner, (0, 0)) < least:
                self.record.break_law(f"{self.node} shows {owner} at {newest.get(owner)}, and earlier at {least}")
        self.floor.update(newest)

    def changed(self, change):
        """Takes an own change that was answered."""
        if change.generation == self.life:
            self.floor[self.node] = max(self.floor.get(self.node, (0, 0)), (change.generation, change.version))

    def read_whole(self, entries):
        """Takes a read that shows entries."""
        if all(shown.newest is not None for shown in entries):
            self.read({shown.owner: (shown.generation, shown.newest) for shown in entries})
        is_of_life = any((shown.owner, shown.generation) == (self.node, self.life) for shown in entries)
        for shown in entries:
            self.record.keep(self.node, shown, self.floor.get(shown.owner, (0, 0)) if is_of_life else (0, 0))


class Record:
    """What all clients were answered, and what is unlawful of it."""

    def __init__(self):
        self.changes, self.lock, self.texts = [], threading.Lock(), {}
        self.shown: Dict[Shown, Tuple[str, Tuple[int, int]]] = {}
        self.broken = []

    def break_law(self, what):
        """Notes what is unlawful, once."""
        if what not in self.broken:
            self.broken.append(what)

    def keep(self, node, shown, floor):
        """Keeps what a node showed, and below what it may not have been."""
        if floor[0] > shown.generation:
            self.break_law(f"{node} shows {shown.owner} in generation {shown.generation}, and earlier in {floor[0]}")
        least = floor if floor[0] == shown.generation else (0, 0)
        shown = shown._replace(texts=tuple(self.texts.setdefault(pair, pair) for pair in shown.texts))
        with self.lock:
            first, known = self.shown.get(shown, (node, least))
            self.shown[shown] = first, max(known, least)

    def judge(self, journals):
        """Returns all that is unlawful, given the lines of the journal of each life, by owner and generation."""
        histories = {life: History(lines) for life, lines in journals.items()}
        for change in self.changes:
            history = histories.get((change.owner, change.generation))
            if not history or history.changes.get(change.version) != (change.name, change.text):
                self.break_law(f"{change.owner} answered a change that its journal does not have: {http_agents.short(change)}")
        for shown, (node, (_, least)) in [*self.shown.items()]:
            history = histories.get((shown.owner, shown.generation))
            version = history and history.fitting(shown)
            if not version:
                self.break_law(f"{node} shows an entry that its owner never had: {http_agents.short(shown)}")
            elif version < least:
                self.break_law(f"{node} shows an entry of {shown.owner} at {version}, and earlier at {least}")
        return self.broken


# --- Reading what is shown -------------------------------------------------------------------------------------------------------


def in_digests(text):
    """Returns by owner the generation and the newest version, as /digests shows them."""
    rows = (line.split(" ") for line in text.split("\n")[:-1])
    return {owner: (int(generation), int(newest)) for owner, generation, newest in rows}


def in_status(status):
    """Returns the entries that /status shows."""
    return [
        Shown(it["endpoint"], it["generation"], it["newest"], it["heartbeat"], tuple(sorted(it["states"].items())))
        for it in status["endpoints"]
    ]


def in_gossipinfo(text):
    """Returns the entries that /gossipinfo shows."""
    found = []
    for line in text.split("\n")[:-1]:
        word, _, rest = line[2:].partition(":")
        if line.startswith("/"):
            found.append([line[1:], 0, 0, []])
        elif word in ("generation", "heartbeat"):
            found[-1][1 if word == "generation" else 2] = int(rest)
        else:
            version, _, held = rest.partition(":")
            found[-1][3].append((word, (int(version), held)))
    return [Shown(owner, generation, None, heartbeat, tuple(sorted(texts))) for owner, generation, heartbeat, texts in found]


# --- A test of the judge ---------------------------------------------------------------------------------------------------------

OWNER, NODE = "10.77.0.1:7000", "10.77.0.2:7000"
LINES = ["tick 1 2 3 4 5", "set 3 61", "tick 9 2 3 4 5", "set 4 62", "remove 3", "tick 1 2 3 4 5", "set 3 -"]
LINES += ["set 5 63", "remove 5"]
LIFE = {(OWNER, 5): LINES, (NODE, 7): ["tick 1 2 3 4 5"] * 9}


def digests(owner_at, life=7):
    return lambda record, reader: reader.read({OWNER: owner_at, NODE: (life, 2)} if owner_at else {NODE: (life, 2)})


def entry(newest, heartbeat, *texts, generation=5):
    both = [Shown(OWNER, generation, newest, heartbeat, texts), Shown(NODE, 7, newest and 3, 3, ())]
    return lambda record, reader: reader.read_whole(both)


def answered(version, name, text, generation=5):
    return lambda record, reader: record.changes.append(Change(OWNER, generation, version, name, text))


# What is done, and what the judge has to say of it: a part of its only line, or nothing.
CASES = {
    "each entry that was": (
        [entry(1, 1), entry(3, 2, ("LOAD", "a")), entry(6, 4, ("SCHEMA", "b")), entry(8, 7, ("LOAD", ""), ("SCHEMA", "b"))],
        "",
    ),
    "versions beside texts": (
        [entry(None, 4, ("LOAD", (3, "a")), ("SCHEMA", (5, "b"))), entry(None, 4, ("SCHEMA", (5, "b")))],
        "",
    ),
    "a text that was set and removed": (
        [digests((5, 10)), entry(None, 7, ("LOAD", (8, "")), ("SCHEMA", (5, "b")))],
        "",
    ),
    "answers in the journal": ([answered(3, "LOAD", "a"), answered(6, "LOAD", None), answered(8, "LOAD", "")], ""),
    "a new life of the node": ([digests((5, 6)), digests((5, 2), life=8)], ""),
    "a mixed entry": ([entry(5, 4, ("LOAD", "b"), ("SCHEMA", "b"))], "never had"),
    "a text too few": ([entry(5, 4, ("SCHEMA", "b"))], "never had"),
    "a removed text": ([entry(6, 4, ("LOAD", "a"), ("SCHEMA", "b"))], "never had"),
    "a text of later": ([entry(2, 2, ("LOAD", "a"))], "never had"),
    "another version of a text": ([entry(None, 4, ("LOAD", (2, "a")), ("SCHEMA", (5, "b")))], "never had"),
    "a heartbeat that was none": ([entry(5, 3, ("LOAD", "a"), ("SCHEMA", "b"))], "never had"),
    "a version not reached": ([entry(11, 7, ("LOAD", ""), ("SCHEMA", "b"))], "never had"),
    "a life that was not": ([entry(1, 1, generation=6)], "never had"),
    "an older read": ([digests((5, 6)), digests((5, 5))], "earlier at"),
    "an older generation": ([digests((6, 1)), digests((5, 8))], "earlier at"),
    "an owner that is gone": ([digests((5, 6)), digests(None)], "earlier at"),
    "an older whole read": ([digests((5, 7)), entry(None, 4, ("SCHEMA", (5, "b")))], "earlier at"),
    "an older life of the node": ([digests((5, 6), life=8), digests((5, 6), life=7)], "in generation"),
    "an answer that was not done": ([answered(11, "LOAD", "c")], "does not have"),
    "an answer with another text": ([answered(3, "LOAD", "b")], "does not have"),
    "an answer of another life": ([answered(3, "LOAD", "a", generation=4)], "does not have"),
    "an own change not read": (
        [digests((5, 6)), lambda record, reader: reader.changed(Change(NODE, 7, 4, "LOAD", "a")), digests((5, 6))],
        "earlier at",
    ),
}


def selftest():
    """Judges cases whose judgement is known, and returns those that were judged wrongly."""
    wrong = []
    for name, (steps, due) in CASES.items():
        record = Record()
        reader = Reader(NODE, record)
        for step in steps:
            step(record, reader)
        said = record.judge(LIFE)
        if len(said) != (1 if due else 0) or not all(due in it for it in said):
            wrong.append(f"{name}: {said or 'lawful'}")
    return wrong
