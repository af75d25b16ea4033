"""Agents that serve HTTP, as the scripts http, browse and hostile-http run them, what they answer, and checks that are counted.
Every wait has an end."""

import contextlib
import os
import re
import shutil
import socket
import subprocess
import sys
import tempfile
import time
from typing import NamedTuple, Tuple

import agent_nodes
import command
import nodes

# What a port of HTTP is above that of its agent's gossip.
ABOVE = 600
# Debian's packages of the programs that the scripts run.
PACKAGES = {"chromium": "chromium", "curl": "curl", "promtool": "prometheus", "wrk": "wrk"}
# Headers of each answer, but of a request that is no HTTP or over a limit.
ALWAYS = {"connection": "close", "cache-control": "no-store", "x-content-type-options": "nosniff"}
TEXT, JSON, HTML = "text/plain; charset=utf-8", "application/json", "text/html; charset=utf-8"
MARK = ("-H", "x-cg-write: 1")
CURL = ["curl", "-sS", "-i", "--http1.1", "--globoff", "--path-as-is", "--noproxy", "*", "--max-time", "20"]
# Ticks of a processor's time in a second.
TICKS = os.sysconf("SC_CLK_TCK")


# --- A script -------------------------------------------------------------------------------------------------------------------


def words(doc):
    """Returns the words of a script's command line, --cg among them."""
    found = command.Words(doc)
    found.add_argument("--cg", metavar="PATH")
    return found


def begin(given, *programs):
    """Looks for what a script needs, and ends it with a line for each lacking program and status 2."""
    lacking = [it for it in programs if not shutil.which(it)]
    for program in lacking:
        told = f"it needs {program}, of Debian's package {PACKAGES[program]}: apt-get install {PACKAGES[program]}"
        print(f"{os.path.basename(sys.argv[0])}: {told}", file=sys.stderr)
    if lacking:
        sys.exit(2)
    if given.cg:
        os.environ["CG"] = given.cg
    nodes.program()
    agent_nodes.end_as_by_interrupt()


class Checks:
    """Counts what is as it is to be, and prints what is not."""

    def __init__(self):
        self.passed = self.failed = 0

    def that(self, what, is_so, shown=""):
        """Counts whether something is so. `shown` is what was found."""
        if is_so:
            self.passed += 1
        else:
            self.failed += 1
            print(f"FAILED {what}: {shown}", flush=True)

    def equal(self, what, found, due):
        """Counts whether what was found is what is due."""
        self.that(what, found == due, f"{short(found)}, and not {short(due)}")

    def end(self):
        """Prints how many there were, and returns the status."""
        print(f"{self.passed} passed, {self.failed} failed")
        return 1 if self.failed else 0


def short(value):
    """Returns a value as text, cut if it is long."""
    text = repr(value)
    return text if len(text) <= 400 else f"{text[:300]} .. {text[-80:]} ({len(text):,} characters)"


def played(checks, *plays):
    """Plays each part with the checks, and counts one that could not be played to its end. Returns the status."""
    for play in plays:
        try:
            play(checks)
        except (nodes.Failed, OSError, subprocess.SubprocessError, LookupError, TypeError, ValueError) as why:
            checks.that(f"{play.__name__} is played to its end", False, f"{type(why).__name__} {why}")
        except KeyboardInterrupt:
            sys.exit(f"{os.path.basename(sys.argv[0])}: stopped")
    return checks.end()


# --- Agents ---------------------------------------------------------------------------------------------------------------------


def serve_http(agent, writes):
    """Has an agent serve HTTP in its next life, at a port of its own."""
    agent.http = f"127.0.0.1:{agent.port + ABOVE}"
    with open(agent.settings, "a") as settings:
        settings.write(f'http = "{agent.http}"\nhttp_writes = {"true" if writes else "false"}\n')


@contextlib.contextmanager
def made(count, writes=True, **keys):
    """Has agents in a folder of their own, and ends them. They are not started."""
    with tempfile.TemporaryDirectory(prefix="http-") as folder:
        agents = agent_nodes.made(count, folder, **keys)
        try:
            for agent in agents:
                serve_http(agent, writes)
            yield agents
        finally:
            for agent in agents:
                agent.kill()


@contextlib.contextmanager
def running(count, writes=True, **keys):
    """Runs agents in a folder of their own, whose first rounds are done, and ends them."""
    with made(count, writes, **keys) as agents:
        for agent in agents:
            agent.start()
        for agent in agents:
            nodes.wait_until(lambda agent=agent: fetched(agent, "/health").status == 200, 20, f"{agent.http}: not healthy")
        yield agents


def generation(agent):
    """Returns the generation of an agent's life."""
    return int(agent.told[0].split()[2])


def bring(agent, frame):
    """Has an agent handle the frame of an ACK2, and waits until it has."""
    with socket.create_connection((agent.host, agent.port), timeout=20) as link:
        link.sendall(nodes.OPENING)
        nodes.frame_from(link)
        link.sendall(frame)
        link.shutdown(socket.SHUT_WR)
        if link.recv(1):
            raise nodes.Failed(f"{agent.listen}: answers an ACK2")


def processor_time(agent):
    """Returns the seconds for which an agent's threads ran."""
    with open(f"/proc/{agent.process.pid}/stat") as stat:
        fields = stat.read().rpartition(")")[2].split()
    return (int(fields[11]) + int(fields[12])) / TICKS


# --- Answers --------------------------------------------------------------------------------------------------------------------


class Answer(NamedTuple):
    """A status, headers with names in small letters, and a body."""

    status: int
    headers: Tuple[Tuple[str, str], ...]
    body: bytes

    def header(self, name):
        """Returns the values of a header, empty if there is none."""
        return ", ".join(value for it, value in self.headers if it == name)

    def lines(self):
        return self.body.decode("utf-8", "replace").splitlines()


def answer_in(data):
    """Reads an answer, behind those with a status below 200."""
    while True:
        head, _, rest = data.partition(b"\r\n\r\n")
        first, *fields = head.decode("latin-1").split("\r\n")
        status = re.fullmatch(r"HTTP/1\.[01] ([1-5]\d\d)( .*)?", first)
        if not status:
            raise nodes.Failed(f"no answer over HTTP: {short(data)}")
        if not status[1].startswith("1"):
            break
        data = rest
    pairs = (field.partition(":") for field in fields)
    return Answer(int(status[1]), tuple((name.lower(), value.strip()) for name, _, value in pairs), rest)


def ask(agent, target, *flags, method="GET", body=None):
    """Returns what curl gets. `flags` are further words for it."""
    how = ["--head"] if method == "HEAD" else ["-X", method]
    how += [] if body is None else ["--data-binary", "@-"]
    said = subprocess.run([*CURL, *how, *flags, f"http://{agent.http}{target}"], input=body, capture_output=True, timeout=60)
    if said.returncode and not said.stdout:
        raise nodes.Failed(f"{method} {target}: {said.stderr.decode().strip()}")
    return answer_in(said.stdout)


def sent(agent, data, seconds=20, is_all=False):
    """Returns what comes for bytes that are sent as they stand, until the connection is closed. The input is ended behind them if
    they are all."""
    host, port = agent.http.split(":")
    found, end = b"", time.monotonic() + seconds
    with socket.create_connection((host, int(port)), timeout=seconds) as link:
        # (it may be closed before all is sent or read)
        with contextlib.suppress(ConnectionError):
            link.sendall(data)
        if is_all:
            with contextlib.suppress(OSError):
                link.shutdown(socket.SHUT_WR)
        with contextlib.suppress(ConnectionError):
            while True:
                link.settimeout(max(0.001, end - time.monotonic()))
                part = link.recv(1 << 16)
                if not part:
                    break
                found += part
    return found


def fetched(agent, target):
    """Returns the answer to a GET, without curl."""
    return answer_in(sent(agent, f"GET {target} HTTP/1.1\r\nhost: {agent.http}\r\n\r\n".encode()))


def metrics(agent):
    """Returns the values of an agent's metrics by their names, with labels."""
    pairs = (line.rpartition(" ") for line in fetched(agent, "/metrics").lines() if not line.startswith("#"))
    return {name: int(value) for name, _, value in pairs}


def exchanges_a_second(agents, seconds, meanwhile=None):
    """Returns how many exchanges agents answered a second, and what was done meanwhile. Without it, nothing is done for so many
    seconds."""

    def answered():
        return sum(metrics(agent)["cg_exchanges_answered_total"] for agent in agents)

    before, begun = answered(), time.monotonic()
    done = meanwhile() if meanwhile else time.sleep(seconds)
    lasted = time.monotonic() - begun
    return (answered() - before) / lasted, done
