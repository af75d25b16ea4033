"""The agents of a rig: each in a network namespace, with its journals on a file system of its own and a clock that can be
moved."""

import contextlib
import glob
import os
import signal
import subprocess
import threading
import time

import agent_nodes
import command
import http_agents
import nodes
import rig_law
import rig_network

GOSSIP, HTTP = 7000, 8000
# What a file system for journals may hold.
DISK = "16g"
# The first agents, which all know.
SEEDS = 3
# Seconds until a node whose disk is full has to end, and until rt try has to run one.
ENDED, READY = 30, 900


def clock_library():
    """Returns the path of faketime's library, or None."""
    found = sorted(glob.glob("/usr/lib/*/faketime/libfaketimeMT.so.1"))
    return found[0] if found else None


class RigAgent(agent_nodes.Agent):
    """An agent in a namespace. Whoever does something to its process holds its lock."""

    is_proved = True

    def __init__(self, settings, folder, host):
        super().__init__(settings, f"{host.address}:{GOSSIP}", folder, host.place)
        self.host_of, self.http = host, f"{host.address}:{HTTP}"
        self.disk = os.path.join(folder, f"disk{host.place}")
        self.clock, self.generation, self.lock = os.path.join(folder, f"{host.place}.clock"), 0, threading.RLock()
        os.mkdir(self.disk)
        rig_network.mount_memory(self.disk, DISK)
        self.set_clock(0)

    def set_clock(self, seconds):
        """Moves its clock of the day, to which its monotonic clock does not belong."""
        with open(f"{self.clock}.new", "w") as file:
            file.write(f"{seconds:+d}\n")
        os.replace(f"{self.clock}.new", self.clock)

    def words(self):
        # (it ends with the rig, even if that is killed)
        return ["setpriv", "--pdeathsig", "KILL", *super().words()]

    def environment(self):
        """Returns the words of its environment."""
        library, words = clock_library(), dict(os.environ)
        if library and self.is_proved:
            words.update(LD_PRELOAD=library, FAKETIME_TIMESTAMP_FILE=self.clock, FAKETIME_NO_CACHE="1")
            words.update(FAKETIME_DONT_FAKE_MONOTONIC="1", DONT_FAKE_MONOTONIC="1", FAKETIME_DISABLE_SHM="1")
        return words

    def start(self, **how):
        """Starts a life in its namespace. Its generation has to be above that of the life before."""
        begin = super().start
        self.host_of.do(lambda: begin(env=self.environment(), **how))
        before, self.generation = self.generation, self.generation_now()
        if self.generation <= before:
            raise nodes.Failed(f"{self.listen}: begins in generation {self.generation}, and was in {before}")

    def generation_now(self):
        """Returns the generation of its life."""
        return int(self.told[0].split()[2])

    def signal(self, number):
        """Sends its process a signal."""
        self.process.send_signal(number)

    def fill_disk(self):
        """Leaves no room on the file system of its journals, and returns the seconds until it has ended as it is to."""
        begun = time.monotonic()
        rig_network.fill(self.disk)
        status = self.end(ENDED)
        self.kill()
        if status != 1 or self.shown[-1:] != ["fault 15 WriteFault\n"]:
            told = f"its disk is full, and it ends with status {status}: {self.shown[-3:]}{self.errors()}"
            raise nodes.Failed(f"{self.listen}: {told}")
        return time.monotonic() - begun

    def free_disk(self):
        rig_network.make_room(self.disk, DISK)

    def journals(self):
        """Returns the paths of its journals, by generation."""
        return agent_nodes.journals(self.disk)


class Planted(RigAgent):
    """An agent of a repository with a planted fault. Nothing of it is proved: `rt try` runs its sources."""

    is_proved = False

    def __init__(self, settings, folder, host, repository, seconds):
        super().__init__(settings, folder, host)
        self.repository, self.seconds = repository, seconds

    def words(self):
        tried = f"cd {self.repository}/crates/cg && exec rt try --seconds {self.seconds} -- agent {self.settings}"
        return ["setsid", "--wait", "setpriv", "--pdeathsig", "KILL", "sh", "-c", tried]

    def newest_shown(self):
        """Returns what its /digests shows, empty while it does not listen."""
        try:
            return rig_law.in_digests(http_agents.fetched(self, "/digests").body.decode())
        except (OSError, nodes.Failed):
            return {}

    def wait_ready(self):
        # (rt try hands over what it prints once it has ended)
        is_there = lambda: time.sleep(0.5) or self.is_over or self.newest_shown()
        nodes.wait_until(is_there, READY, f"{self.listen}: is not ready")
        if self.is_over:
            raise nodes.Failed(f"{self.listen}: ended before it was ready{self.errors()}")

    def generation_now(self):
        return self.host_of.do(self.newest_shown)[self.listen][0]

    def signal(self, number):
        for process in processes_below(self.process.pid):
            os.kill(process, number)

    def kill(self):
        if self.process and self.process.poll() is None:
            # (the last is the agent, if it runs; rt takes its files away once that has ended)
            agent, *above = processes_below(self.process.pid)
            os.kill(agent, signal.SIGKILL)
            with contextlib.suppress(nodes.Failed):
                self.end(ENDED / 3)
            for process in above:
                with contextlib.suppress(ProcessLookupError):
                    os.kill(process, signal.SIGKILL)
        super().kill()


def processes_below(process):
    """Returns a process and all that it started, itself or by others, the last first."""
    found = [process]
    for it in found:
        said = subprocess.run(["ps", "--ppid", str(it), "-o", "pid="], capture_output=True, text=True)
        found += [int(word) for word in said.stdout.split()]
    return found[::-1]


def planted_repository(name, folder):
    """Returns a copy of the repository's sources with a planted fault: a patch of scripts/rig-faults."""
    top = os.path.join(folder, "planted")
    os.mkdir(top)
    for part in ("crates", "crates.txt", "HANDLES"):
        subprocess.run(["cp", "-r", f"{command.TOP}/{part}", top], check=True)
    patch = f"{command.TOP}/scripts/rig-faults/{name}.patch"
    subprocess.run(["patch", "-p1", "-s", "-d", top, "-i", patch], check=True)
    return top


def made(network, folder, interval, planted=None, seconds=0):
    """Returns the agents of a network. With a planted fault the last is not proved."""
    listens = [f"{host.address}:{GOSSIP}" for host in network.hosts]
    agents = []
    for host in network.hosts:
        keys = {"journals": f'"{folder}/disk{host.place}"', "journal_mb": 1_000_000, "interval": interval, "keep": 100}
        keys.update(http=f'"{host.address}:{HTTP}"', http_writes="true")
        is_planted = planted and host.place == len(listens) - 1
        # (rt try hands over an input that has ended)
        stdin = "ignore" if is_planted else "lines"
        settings = agent_nodes.written(folder, host.place, listens, SEEDS, stdin, **keys)
        if is_planted:
            agents.append(Planted(settings, folder, host, planted_repository(planted, folder), seconds))
        else:
            agents.append(RigAgent(settings, folder, host))
    return agents
