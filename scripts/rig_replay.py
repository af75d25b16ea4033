"""Messages that come again, late and to others: frames that agents sent, as journals of those that handled them have them,
brought to an agent that is cut off. Deltas of such a message may be above what the agent holds, which is a gap."""

import contextlib
import os
import socket

import nodes

# Bytes at the end of a journal that are looked at, messages that are brought at most, and seconds for each.
END, BROUGHT, LIMIT = 1 << 18, 12, 2


def frames_in(path):
    """Returns the frames of the last SYNs and the last ACK2s that a journal has."""
    with open(path, "rb") as lines:
        lines.seek(max(0, os.path.getsize(path) - END))
        rows = [line.split() for line in lines.read().split(b"\n")[1:-1]]
    found = {b"syn": [], b"ack2": []}
    for row in rows:
        if row and row[0] in found:
            found[row[0]].append(bytes.fromhex(row[-1].decode()))
    return found[b"syn"], found[b"ack2"]


def bring(agent, syn, ack2):
    """Has an agent handle two frames in one exchange."""
    with socket.create_connection((agent.host, agent.port), timeout=LIMIT) as link:
        link.sendall(syn)
        nodes.frame_from(link)
        link.sendall(ack2)
        link.shutdown(socket.SHUT_WR)
        link.recv(1)


def replay(agent, agents, number):
    """Brings an agent the last messages that others handled."""
    pairs = [frames_in(it.journals()[-1]) for it in agents if it is not agent and it.journals()]
    syns = [syn for found, _ in pairs for syn in found[-2:]]
    ack2s = [ack2 for _, found in pairs for ack2 in found[-4:] if len(ack2) > len(nodes.NOTHING)]
    for place in range(min(BROUGHT, len(syns), len(ack2s))):
        with contextlib.suppress(OSError, nodes.Failed):
            frames = syns[(place + number) % len(syns)], ack2s[(place * 7 + number) % len(ack2s)]
            agent.host_of.do(lambda frames=frames: bring(agent, *frames))
