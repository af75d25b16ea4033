"""The clients of a rig: one for each node, a thread in the node's namespace, which sets and removes keys over HTTP and reads. A
client reaches its node also while that is cut off from the others."""

import array
import json
import random
import threading
import time
from typing import NamedTuple

import http_agents
import nodes
import rig_law

# Names of the keys that are set and removed: not those that a ring is made of.
NAMES = [name for key, name in rig_law.model.KEYS.items() if key > 2]
# Seconds that a client waits for a read, and for the answer to a change.
READ, CHANGE = 2, 5
# Turns between two reads of whole entries, and the part of the turns that change something; a fifth of them are removals.
WHOLE, CHANGES, REMOVALS = 10, 0.05, 0.2


class Answered(NamedTuple):
    """A change that was answered, and when."""

    place: int
    key: int
    when: float


def key_of(generation, version):
    """Returns a generation and a version as one number, which rises with both."""
    return generation << 32 | version


class Client(threading.Thread):
    """The client of an agent."""

    def __init__(self, agent, agents, record, seed, period):
        super().__init__(daemon=True)
        self.agent, self.record, self.period = agent, record, period
        self.chance = random.Random(f"{seed} client {agent.place}")
        self.reader, self.places = rig_law.Reader(agent.listen, record), {it.listen: it.place for it in agents}
        # by owner, when it was read, and its generation and newest version then
        self.seen = [(array.array("d"), array.array("Q")) for _ in agents]
        self.answered, self.unsure, self.claimed, self.tokens = [], [], 0, len(agents)
        self.is_over, self.is_quiet, self.failed = False, False, None
        self.turns, self.reads, self.lost = 0, 0, 0

    def run(self):
        """Has a turn each period, until it is over."""
        self.agent.host_of.enter()
        due = time.monotonic()
        while not self.is_over:
            try:
                self.turn()
            except (OSError, nodes.Failed):
                # (the node is down, is stopped, or was killed while it answered)
                time.sleep(self.period)
            except Exception as why:
                self.failed = f"the client of {self.agent.listen}: {type(why).__name__} {why}"
                return
            due = max(due + self.period, time.monotonic())
            time.sleep(max(0.0, due - time.monotonic()))

    def turn(self):
        """Reads, and perhaps changes something."""
        self.turns += 1
        self.read_digests()
        if self.reader.life != self.claimed:
            self.claim()
        elif not self.is_quiet and self.chance.random() < CHANGES:
            self.change()
        if self.turns % WHOLE == 0:
            self.read_whole()

    # --- Reads

    def body(self, target):
        """Returns the body of an answer with status 200."""
        lines = f"GET {target} HTTP/1.1\r\nhost: {self.agent.http}\r\n\r\n"
        answer = http_agents.answer_in(http_agents.sent(self.agent, lines.encode(), READ))
        length = int(answer.header("content-length") or -1)
        if answer.status != 200 or length != len(answer.body):
            raise nodes.Failed(f"{target}: {answer.status}, {len(answer.body)} bytes")
        self.reads += 1
        return answer.body.decode()

    def read_digests(self):
        newest = rig_law.in_digests(self.body("/digests"))
        self.reader.read(newest)
        now = time.monotonic()
        for owner, pair in newest.items():
            when, keys = self.seen[self.places[owner]]
            when.append(now)
            keys.append(key_of(*pair))
        self.settle_unsure()

    def read_whole(self):
        """Reads whole entries, with newest versions, or with those of texts."""
        if self.turns // WHOLE % 2:
            self.reader.read_whole(rig_law.in_status(json.loads(self.body("/status"))))
        else:
            self.reader.read_whole(rig_law.in_gossipinfo(self.body("/gossipinfo")))

    # --- Changes

    def claim(self):
        """Claims the token of the place, in a life that has not."""
        life = self.reader.life
        token = f"{((self.agent.place + 1) << 127) // (self.tokens + 1):032x}"
        if self.put("TOKENS", token) and self.put("STATUS", "NORMAL"):
            self.claimed = life

    def change(self):
        """Sets or removes a key."""
        name = self.chance.choice(NAMES)
        if self.chance.random() < REMOVALS:
            self.put(name, None)
        else:
            filling = "é " * self.chance.choice((0, 0, 1, 10, 100))
            self.put(name, f"{self.agent.place}:{self.turns} {filling}")

    def put(self, name, text):
        """Sets a key, or removes it. Returns True if that was answered by a version."""
        method, body = ("DELETE", b"") if text is None else ("PUT", text.encode())
        fields = f"host: {self.agent.http}\r\nx-cg-write: 1\r\ncontent-length: {len(body)}\r\n"
        head = f"{method} /states/{name} HTTP/1.1\r\n{fields}\r\n"
        life, is_answered = self.reader.life, False
        try:
            answer = http_agents.answer_in(http_agents.sent(self.agent, head.encode() + body, CHANGE))
            words = answer.body.decode().split()
            is_answered = answer.status in (200, 404) and len(answer.body) == int(answer.header("content-length"))
            if is_answered and words[0] == "version":
                change = rig_law.Change(self.agent.listen, life, int(words[1]), name, text)
                self.unsure.append((change, time.monotonic()))
                self.reader.changed(change)
                return True
        finally:
            self.lost += not is_answered
        return False

    def settle_unsure(self):
        """Takes answered changes as such if the life is still the one that was read before them: it was the same between."""
        for change, when in self.unsure:
            if change.generation == self.reader.life:
                self.record.changes.append(change)
                self.answered.append(Answered(self.agent.place, key_of(change.generation, change.version), when))
        self.unsure = []
