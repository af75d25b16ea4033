"""Agents, each a process, as the scripts agents, exchanges, hostile-agent and rig run them. Every wait has an end."""

import collections
import contextlib
import os
import re
import signal
import subprocess
import threading
import time

import nodes

# The first words of the lines in which an agent tells of its life and of members.
TOLD = {"ready", "joined", "restarted", "silent", "alive", "stopped"}
SETTINGS = """\
cluster = "{cluster}"
listen = "{listen}"
seeds = [{seeds}]
generation_file = "{folder}/{place}.generation"
random = {place}
stdin = "{stdin}"
"""


def end_as_by_interrupt():
    """Has this process clean up also when it is told to end, as by Ctrl-C."""
    signal.signal(signal.SIGTERM, signal.default_int_handler)


class Agent(nodes.Node):
    """A process that is an agent, with an operator's lines. A thread reads what it prints."""

    def __init__(self, settings, listen, folder, place):
        super().__init__(settings, listen, folder)
        self.place, self.lives, self.began = place, 0, 0.0
        self.shown, self.told, self.is_over = [], [], True
        self.heard, self.reader = threading.Condition(), None

    def words(self):
        """Returns the words of its command."""
        return [nodes.program(), "agent", self.settings]

    def start(self, **how):
        """Starts a life, and waits until it listens. `how` are further words of the process."""
        self.shown, self.told, self.is_over = [], [], False
        self.lives, self.began = self.lives + 1, time.monotonic()
        with open(os.path.join(self.folder, f"{self.place}.errors"), "a") as errors:
            self.process = subprocess.Popen(
                self.words(),
                stdin=subprocess.PIPE,
                stdout=subprocess.PIPE,
                stderr=errors,
                cwd=self.folder,
                bufsize=0,
                **how,
            )
        self.reader = threading.Thread(target=self.hear, args=(self.process.stdout,), daemon=True)
        self.reader.start()
        self.wait_ready()

    def wait_ready(self):
        """Waits until it listens."""
        self.wait_for(lambda: self.told, 20, "is not ready")

    def hear(self, stream):
        """Keeps the lines that come, until they end."""
        with contextlib.suppress(ValueError), open(stream.fileno(), encoding="utf-8", closefd=False) as lines:
            for line in lines:
                with self.heard:
                    (self.told if line.split(" ")[0].strip() in TOLD else self.shown).append(line)
                    self.heard.notify_all()
        with self.heard:
            self.is_over = True
            self.heard.notify_all()

    def wait_for(self, is_so, seconds, what):
        """Waits until a condition holds of the lines that came."""
        with self.heard:
            self.heard.wait_for(lambda: is_so() or self.is_over, seconds)
            if not is_so():
                raise nodes.Failed(f"{self.listen}: {what}, {'ended' if self.is_over else 'silent'}: {self.shown[-3:]}{self.errors()}")

    def errors(self):
        """Returns the end of what it wrote on standard error, if anything."""
        with open(os.path.join(self.folder, f"{self.place}.errors")) as errors:
            lines = errors.read().splitlines()
        return "".join(f"\n{line}" for line in lines[-3:])

    def ask(self, line, seconds=20):
        """Returns what a line shows."""
        self.shown = []
        try:
            self.process.stdin.write(line.encode() + b"\n" + nodes.MARK)
        except BrokenPipeError:
            raise nodes.Failed(f"{self.listen}: ended before {line!r}{self.errors()}") from None
        self.wait_for(lambda: self.shown[-1:] == [nodes.SHOWN.decode()], seconds, f"no answer to {line!r}")
        return "".join(self.shown[:-1])

    def age(self):
        """Returns for how many seconds it has lived."""
        return time.monotonic() - self.began

    def memory_now(self):
        """Returns the kibibytes that the process holds."""
        with open(f"/proc/{self.process.pid}/status") as status:
            return next(int(line.split()[1]) for line in status if line.startswith("VmRSS"))

    def kill(self):
        super().kill()
        if self.reader:
            self.reader.join()
            self.process.stdin.close()
            self.process.stdout.close()
            self.reader = None

    def end(self, seconds):
        """Waits for the end after `quit`, and returns the status."""
        try:
            return self.process.wait(seconds)
        except subprocess.TimeoutExpired:
            raise nodes.Failed(f"{self.listen}: has not ended after {seconds} s") from None


def made(count, folder, seeds=3, **keys):
    """Returns agents that know each other by the first ones, with these further keys of their settings."""
    listens = [f"127.0.0.1:{nodes.FIRST_PORT + place}" for place in range(count)]
    paths = [written(folder, place, listens, seeds, **keys) for place in range(count)]
    return [Agent(path, listen, folder, place) for place, (path, listen) in enumerate(zip(paths, listens))]


def written(folder, place, listens, seeds, stdin="lines", **keys):
    """Writes the settings of the agent of a place, and returns their path."""
    path = os.path.join(folder, f"{place}.toml")
    known = ", ".join(f'"{listen}"' for listen in listens[:seeds])
    further = "".join(f"{key} = {value}\n" for key, value in keys.items())
    with open(path, "w") as settings:
        words = {"cluster": nodes.CLUSTER, "listen": listens[place], "seeds": known, "stdin": stdin}
        settings.write(SETTINGS.format(folder=folder, place=place, **words) + further)
    return path


def journals(folder):
    """Returns the paths of the journals in a folder, those of an endpoint by generation."""
    found = [name for name in os.listdir(folder) if name.endswith(".journal")]

    def life(name):
        endpoint, generation = re.fullmatch(r"(.+)\.(\d+)\.journal", name).groups()
        return endpoint, int(generation)

    return [os.path.join(folder, name) for name in sorted(found, key=life)]


def lines_of(journals):
    """Returns how many lines of journals begin with each word."""
    count = collections.Counter()
    for path in journals:
        with open(path, "rb") as lines:
            count.update(line.split(None, 1)[0] for line in lines if line.endswith(b"\n"))
    return count
