"""What goes wrong in a rig: faults that are planned from the seed before anything runs, and the doing of them.

Each kind comes as often as the others: all kinds in an order by chance, and then again. A fault has the agents of some places to
itself while it lasts, but for those of the network, which leave processes alone: of these at most two hold at a time."""

import concurrent.futures
import random
import signal
import threading
import time
from typing import NamedTuple, Tuple

import nodes
import rig_agents
import rig_replay

# Seconds of a process that is away, and of the network.
AWAY, APART = (0.2, 6.0), (2.0, 8.0)
# Seconds after a fault in which its agents are left alone, and between two faults at least and at most in the mean.
AFTER, MEAN = 2.0, (1.0, 6.0)
# So many faults are planned for a run, if they have room.
FAULTS = 112
HOUR = 3600


class Fault(NamedTuple):
    """A fault: when it begins, its kind, the places that it takes, how long it lasts, and numbers that the kind knows."""

    number: int
    at: float
    kind: str
    places: Tuple[int, ...]
    lasts: float
    numbers: Tuple[float, ...]

    def __str__(self):
        numbers = "".join(f" {it}" for it in self.numbers)
        return f"{self.at:7.2f} s: {self.kind}{numbers}, of {', '.join(map(str, self.places))}, for {self.lasts:.2f} s"


def numbers_of(kind, chance):
    """Returns the numbers of a fault: of a delay the least and the greatest seconds, of drops the share, of a clock the seconds by
    which it is moved and whether a life begins by it."""
    if kind == "delay":
        least = round(chance.uniform(0.0, 0.05), 3)
        return least, round(least + chance.uniform(0.01, 0.3), 3)
    if kind == "drop":
        return (round(chance.uniform(0.05, 0.5), 2),)
    if kind == "clock":
        return chance.choice((-1, 1)) * chance.choice((1, 24, 1000)) * HOUR, chance.choice((0, 1))
    return ()


class Plan:
    """The faults of a run, by the seed alone."""

    def __init__(self, count, seconds, seed, planted=None):
        self.chance, self.count, self.planted = random.Random(f"{seed} nemesis"), count, planted
        self.busy, self.apart, self.faults, self.deck = [0.0] * count, [0.0, 0.0], [], []
        at, mean = 2.0, min(MEAN[1], max(MEAN[0], seconds / FAULTS))
        while at < seconds - AFTER:
            self.add(round(at, 2), seconds)
            at += self.chance.uniform(0.5, 1.5) * mean

    def add(self, at, seconds):
        """Plans a fault, if there is room for it."""
        if not self.deck:
            self.deck = [kind for kind in KINDS if not (kind == "clock" and not rig_agents.clock_library())]
            self.chance.shuffle(self.deck)
        kind = self.deck[-1]
        is_apart = kind in APART_KINDS
        lasts = round(self.chance.uniform(*(APART if is_apart or kind == "replay" else AWAY)), 2)
        lasts = min(lasts, max(0.2, seconds - at))
        places, numbers = self.places_for(kind, at), numbers_of(kind, self.chance)
        if not places:
            return
        self.deck.pop()
        if is_apart:
            self.apart[self.apart.index(min(self.apart))] = at + lasts
        else:
            self.busy[places[0]] = at + lasts + AFTER
        self.faults.append(Fault(len(self.faults), at, kind, places, lasts, numbers))

    def places_for(self, kind, at):
        """Returns the places that a fault takes, none if there are none for it."""
        if kind in APART_KINDS:
            some = self.chance.sample(range(self.count), self.chance.randint(1, max(1, self.count // 2)))
            return tuple(sorted(some)) if min(self.apart) <= at else ()
        free = [place for place in range(self.count) if self.busy[place] <= at and place != self.planted]
        is_room = self.count - len(free) <= max(1, self.count // 3)
        if kind == "replay" and self.planted is not None:
            return (self.planted,) if self.busy[self.planted] <= at else ()
        return (self.chance.choice(free),) if free and is_room else ()


class Nemesis:
    """Does the faults of a plan to agents and their network, each in a thread of its own."""

    def __init__(self, plan, agents, network):
        self.plan, self.agents, self.network = plan, agents, network
        # by kind, when a fault was over; by place, from when to when it was away or cut off; and what went wrong
        self.healed, self.away, self.failed = [], [], []
        self.done, self.begun, self.is_over = [], 0.0, threading.Event()

    def run(self):
        """Does all faults, and returns once the last is over."""
        self.begun = time.monotonic()
        with concurrent.futures.ThreadPoolExecutor(32) as pool:
            for fault in self.plan.faults:
                if self.is_over.wait(max(0.0, self.begun + fault.at - time.monotonic())):
                    break
                print(fault, flush=True)
                pool.submit(self.do, fault)

    def do(self, fault):
        """Does a fault, and notes when its places were away."""
        begun = time.monotonic()
        try:
            KINDS[fault.kind](self, fault)
            self.done.append(fault.kind)
        except (nodes.Failed, OSError) as why:
            self.failed.append(f"{fault.kind} of {fault.places}: {why}")
        now = time.monotonic()
        if fault.kind not in ("delay", "drop") and fault.numbers[1:] != (0,):
            self.away += [(place, begun, now) for place in fault.places]
            self.healed.append((fault.kind, fault.places, now))

    def rest(self, seconds):
        """Waits, but not past the end of the run."""
        self.is_over.wait(seconds)

    def agent(self, fault):
        return self.agents[fault.places[0]]

    # --- The kinds

    def do_kill(self, fault):
        agent = self.agent(fault)
        with agent.lock:
            agent.kill()
            self.rest(fault.lasts)
            agent.start()

    def do_stop(self, fault):
        agent = self.agent(fault)
        with agent.lock:
            agent.signal(signal.SIGSTOP)
            self.rest(fault.lasts)
            agent.signal(signal.SIGCONT)

    def do_clock(self, fault):
        agent = self.agent(fault)
        moved, is_new_life = fault.numbers
        with agent.lock:
            agent.set_clock(int(moved))
            self.rest(fault.lasts / 2)
            if is_new_life:
                agent.kill()
                agent.start()
            self.rest(fault.lasts / 2)
            agent.set_clock(0)

    def do_disk(self, fault):
        agent = self.agent(fault)
        with agent.lock:
            agent.fill_disk()
            self.rest(fault.lasts)
            agent.free_disk()
            agent.start()

    def apart(self, fault, kind, pairs):
        """Has a fault of the network hold for a while."""
        self.network.begin(fault.number, kind, pairs, *fault.numbers)
        self.rest(fault.lasts)
        self.network.end(fault.number)

    def do_cut(self, fault):
        self.apart(fault, "cut", self.network.pairs(fault.places))

    def do_one_way(self, fault):
        self.apart(fault, "cut", self.network.pairs(fault.places, is_one_way=True))

    def do_delay(self, fault):
        self.apart(fault, "delay", self.network.pairs(fault.places))

    def do_drop(self, fault):
        self.apart(fault, "drop", self.network.pairs(fault.places))

    def do_replay(self, fault):
        agent = self.agent(fault)
        with agent.lock:
            self.network.begin(fault.number, "cut", self.network.pairs(fault.places))
            self.rest(fault.lasts / 2)
            rig_replay.replay(agent, self.agents, fault.number)
            self.rest(fault.lasts / 2)
            self.network.end(fault.number)


KINDS = {name[len("do_") :].replace("_", " "): act for name, act in vars(Nemesis).items() if name.startswith("do_")}
APART_KINDS = ("cut", "one way", "delay", "drop")
