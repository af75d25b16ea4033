"""Nodes that serve, each a process, as the scripts three-nodes, cluster, hostile and full-table run them. Every wait has an end."""

import contextlib
import os
import select
import socket
import struct
import subprocess
import sys
import tempfile
import threading
import time

from programs import built

# An unreadable line: what is shown of it ends what is shown of the line before.
MARK, SHOWN = b"end\n", b"fault 2 BadText\n"


def program():
    """The program that CG names, or the one of crates/cg, which is built first if need be."""
    path = os.environ.get("CG") or built("cg")
    if not os.access(path, os.X_OK):
        sys.exit(f"no program at {path}, which CG names: leave CG unset, and rt ci builds crates/cg/out/cg")
    return os.path.abspath(path)


# The first of the ports of the loopback that clusters take.
FIRST_PORT = 7100
CLUSTER = "load"
SETTINGS = """\
cluster = "{cluster}"
listen = "{listen}"
seeds = [{seeds}]
generation_file = "{place}.generation"
journal = "{place}.journal"
rounds = {rounds}
interval = {interval}
exchanges = {exchanges}
random = {place}
threshold = 100000
"""


# A SYN of the cluster that names nobody, and an ACK2 without deltas.
OPENING = bytes([0, 0, 0, 6 + len(CLUSTER), 2, 1, len(CLUSTER)]) + CLUSTER.encode() + b"\x01\0\0"
NOTHING = bytes([0, 0, 0, 4, 2, 3, 0, 0])


class Failed(Exception):
    """The error of a node that ended, or of a wait that lasted too long."""


class Node:
    """A process that serves, with an operator's lines."""

    def __init__(self, settings, listen, folder):
        self.settings = settings
        self.host, port = listen.split(":")
        self.port = int(port)
        self.listen = listen
        self.folder = folder
        self.process = None
        self.held = b""

    def start(self):
        self.held = b""
        self.process = subprocess.Popen(
            [program(), "serve", self.settings],
            stdin=subprocess.PIPE,
            stdout=subprocess.PIPE,
            cwd=self.folder,
            bufsize=0,
        )

    def ask(self, line, seconds=10):
        """Returns what a line shows."""
        end = time.monotonic() + seconds
        try:
            self.process.stdin.write(line.encode() + b"\n" + MARK)
        except BrokenPipeError:
            raise Failed(f"{self.listen}: ended before {line!r}") from None
        while not (self.held == SHOWN or self.held.endswith(b"\n" + SHOWN)):
            left = end - time.monotonic()
            if left <= 0 or not select.select([self.process.stdout], [], [], left)[0]:
                raise Failed(f"{self.listen}: no answer to {line!r}, only {self.held!r}")
            read = os.read(self.process.stdout.fileno(), 1 << 16)
            if not read:
                raise Failed(f"{self.listen}: ended at {line!r}, with {self.held!r}")
            self.held += read
        text, self.held = self.held[: -len(SHOWN)].decode(), b""
        return text

    def newest(self):
        """Returns by endpoint the generation and the newest version that it holds."""
        held = {}
        for line in self.ask("digests").splitlines():
            endpoint, generation, version = line.split()
            held[endpoint] = (int(generation), int(version))
        return held

    def memory(self):
        """Returns the most kibibytes that the process held."""
        with open(f"/proc/{self.process.pid}/status") as status:
            return next(int(line.split()[1]) for line in status if line.startswith("VmHWM"))

    def kill(self):
        if self.process and self.process.poll() is None:
            self.process.kill()
            self.process.wait()

    def quit(self):
        # (it may have ended)
        with contextlib.suppress(BrokenPipeError):
            self.process.stdin.write(b"quit\n")
        self.process.stdin.close()

    def end(self, seconds):
        """Waits for the end of a node after `quit`, and returns its status. Its receiver ends once it has taken as many
        connections as its settings say, so they are opened here until the process has gone."""
        end = time.monotonic() + seconds
        while self.process.poll() is None:
            if time.monotonic() > end:
                raise Failed(f"{self.listen}: has not ended after {seconds} s")
            try:
                socket.create_connection((self.host, self.port), timeout=1).close()
            except OSError:
                time.sleep(0.01)
        return self.process.returncode


def made(count, folder, rounds, interval, exchanges):
    """Returns the nodes of a cluster, with their settings in the folder. Half of them, at most 16, are seeds."""
    listens = [f"127.0.0.1:{FIRST_PORT + place}" for place in range(count)]
    seeds = ", ".join(f'"{listen}"' for listen in listens[: max(1, min(16, count // 2))])
    numbers = {"rounds": rounds, "interval": interval, "exchanges": exchanges}
    cluster = []
    for place, listen in enumerate(listens):
        path = os.path.join(folder, f"{place}.toml")
        with open(path, "w") as settings:
            settings.write(SETTINGS.format(cluster=CLUSTER, listen=listen, seeds=seeds, place=place, **numbers))
        cluster.append(Node(path, listen, folder))
    return cluster


def claim(node, place, count):
    """Has a node claim the token of its place."""
    node.ask(f"set 2 {((place + 1) << 127) // (count + 1):032x}")
    node.ask("set 1 NORMAL")


def deltas(owners, states, size, above=0):
    """Returns the frame of an ACK2 with that many owners, each in its first generation with so many states of this many bytes, in
    deltas above a version."""
    first, newest = above + 2, above + 1 + states
    texts = b"".join(struct.pack(">BIH", key + 1, first + key, size) + b"x" * size for key in range(states))
    parts = [struct.pack(">BBH", 2, 3, owners)]
    for place in range(owners):
        parts += [struct.pack(">BBHHIIIB", 10, 0, place, 7000, 1, above, newest, states), texts]
    body = b"".join(parts)
    return struct.pack(">I", len(body)) + body


def frame_from(link):
    """Returns the bytes of a frame behind its length, as they come from a connection."""

    def taken(size):
        parts = []
        while size > 0:
            parts.append(link.recv(min(size, 1 << 20)))
            if not parts[-1]:
                raise Failed("a connection was closed within a frame")
            size -= len(parts[-1])
        return b"".join(parts)

    return taken(int.from_bytes(taken(4), "big"))


def lines_in(cluster, word):
    """Returns how many lines of the journals of a cluster begin with a word."""
    count = 0
    for place, node in enumerate(cluster):
        with open(os.path.join(node.folder, f"{place}.journal")) as lines:
            count += sum(1 for line in lines if line.split(maxsplit=1)[:1] == [word])
    return count


def wait_until(is_so, seconds, what):
    """Waits until a condition holds, and returns how many seconds that took."""
    begin = time.monotonic()
    while not is_so():
        if time.monotonic() - begin > seconds:
            raise Failed(f"{what} after {seconds} s")
        time.sleep(0.01)
    return time.monotonic() - begin


def rings_are_equal(cluster):
    """Tests whether all nodes show the same ring, with a token of each."""
    shown = [node.ask("ring") for node in cluster]
    return shown[0].count("\n") == len(cluster) and all(ring == shown[0] for ring in shown)


def end_all(cluster, seconds):
    """Ends all nodes at the same time, and waits at most that many seconds for each."""
    failed = []

    def end(node):
        try:
            if node.end(seconds) != 0:
                failed.append(f"{node.listen}: status {node.process.returncode}")
        except Failed as why:
            failed.append(str(why))

    for node in cluster:
        node.quit()
    threads = [threading.Thread(target=end, args=(node,)) for node in cluster]
    for thread in threads:
        thread.start()
    for thread in threads:
        thread.join()
    if failed:
        raise Failed("; ".join(failed))


def audit(journals, *flags):
    """Returns the last line that an audit of journals writes."""
    with tempfile.TemporaryFile() as said:
        subprocess.run([program(), "audit", *flags, *journals], stdout=said, timeout=3600)
        said.seek(max(0, said.seek(0, os.SEEK_END) - 4096))
        lines = said.read().decode().splitlines()
    return lines[-1] if lines else "nothing"
