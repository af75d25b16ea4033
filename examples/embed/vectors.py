"""Nodes of the library play the stale story and the conformance vectors, in the place of the model's nodes of
scripts/check-vectors. Each line says of how many vectors a file has what is expected was found."""

import os
import sys

from cg import HERE, Node, Refused

TOP = os.path.join(HERE, "..", "..")
sys.path.insert(0, os.path.join(TOP, "scripts"))
import command  # noqa: E402 (it is in the folder that was just added)

model = command.loaded("check-vectors")
ModelNode = model.Node
OWN, OTHER = model.endpoint("10.0.0.1:7000"), model.endpoint("10.0.0.2:7000")
VERDICTS = ("Alive", "Silent", "Unheard")


def due(call, *words):
    """Makes a call. Its fault is raised as the model's."""
    try:
        return call(*words)
    except Refused as fault:
        raise model.Refused(fault.number) from None


class LibraryNode:
    """A node of the library, as the model has nodes: messages are tuples, which go to it and come from it as frames."""

    def __init__(self, own, start, cluster, seeds=(), numbers=model.DEFAULTS):
        self.cluster = cluster
        self.held = due(Node, model.shown(own), start, cluster.decode(), [model.shown(at) for at in seeds], numbers)

    def beat(self):
        return due(self.held.beat)

    def set(self, key, text):
        return due(self.held.set, key, text.decode())

    def remove(self, key):
        return due(self.held.remove, key)

    def open(self):
        return read(self.held.opening())

    def tick(self, now, words):
        peers, frame = due(self.held.tick, now, words)
        return [model.endpoint(at) for at in peers], read(frame)

    def handle(self, now, message):
        sent = model.encode(message)
        taken, outcomes, frame = due(self.held.handle, now, sent + b"what follows")
        assert taken == len(sent) == Node.frame_length(sent[:5])
        pairs = [line.split(" ") for line in outcomes]
        return [(outcome, model.endpoint(at)) for outcome, at in pairs], read(frame) if frame else None

    def answer(self, syn):
        return self.handle(0, syn)[1]


def read(frame):
    """The message of a frame, which is its one spelling in the layout that is written."""
    message, size = model.decode(frame)
    assert size == len(frame) and model.encode(message) == frame
    return message


class LibraryWorld(model.World):
    """A script's nodes, whose texts are the library's."""

    def do_gossipinfo(self, words, rest, first):
        return self.node(words[0]).held.gossipinfo().splitlines()

    def do_ring(self, words, rest, first):
        return self.node(words[0]).held.ring().splitlines()

    def do_digests(self, words, rest, first):
        return self.node(words[0]).held.digests().splitlines()

    def do_replicas(self, words, rest, first):
        if len(words) < 3:
            raise model.Refused(2)
        at, count, key = model.endpoint(words[0]), model.number(words[1]), rest.split(" ", 2)[2].encode()
        return self.node_at(at).held.replicas(key, count)


def ring_of(given):
    """The ring of the claims of a vector, which one ACK2 brings. A question for a token's replicas is not asked: calls name keys."""
    words = given.split(" ")
    if words[-1] != "ring":
        return None
    claims = sorted((model.endpoint(words[at]), *words[at + 1 : at + 4]) for at in range(0, len(words) - 1, 4))
    node = LibraryNode(model.endpoint("1.1.1.1:1"), 1, b"c1")
    node.handle(0, ("ack2", [(at, int(g), 0, 1, [(1, 2, s.encode()), (2, 3, t.encode())]) for at, g, s, t in claims]))
    return " ".join(node.held.ring().split()) or "none"


def verdict_of(given):
    """The verdict of a vector's arrivals, each the heartbeat of an ACK2."""
    words = given.split(" ")
    node = LibraryNode(OWN, 1, b"c1", (), tuple(int(word) for word in words[:4]))
    arrivals, now = words[4:-2], int(words[-1])
    for place, arrival in enumerate(arrivals, 1):
        node.handle(int(arrival), ("ack2", [(OTHER, 1, 0, place, [])]))
    return VERDICTS[node.held.verdict(model.shown(OTHER), now)]


def handled(node, message):
    """The outcomes and the answer's frame, or the fault's number, of a node of the model or the library."""
    try:
        outcomes, answer = node.handle(1000, message)
        return outcomes, model.encode(answer) if answer else b""
    except model.Refused as fault:
        return fault.args[0]


def number_of(call, *words):
    """What a call returns, or the number of its fault."""
    try:
        return call(*words)
    except model.BadFrame:
        return 12
    except Refused as fault:
        return fault.number


def length_due(head):
    """The length that five bytes or fewer announce, or the number of the fault."""
    read_of_head = number_of(model.decode, head)
    if len(head) < 4 or read_of_head == 12:
        return 12 if read_of_head == 12 else 13
    return 4 + int.from_bytes(head[:4], "big")


def frames_of(given):
    """What differs between the two nodes at the frames of a vector, one after another; nothing if none does."""
    data, ours, its = model.data_of(given), ModelNode(OWN, 5, b"c1"), LibraryNode(OWN, 5, b"c1")
    while True:
        found = number_of(model.decode, data)
        first = (length_due(data[:5]), number_of(Node.frame_length, data))
        if first[0] != first[1]:
            return f"length {first[0]}, and not {first[1]}"
        if found == 12 or found[0] is None:
            fault, told = 12 if found == 12 else 13, number_of(its.held.handle, 1000, data)
            return "" if told == fault else f"fault {fault}, and not {told}"
        mine, other = handled(ours, found[0]), handled(its, found[0])
        if mine != other:
            return f"{mine}, and not {other}"
        data = data[found[1] :]


def lines_of(vectors, file):
    """The pairs of a file of vectors."""
    lines = [line for line in vectors.text(file).split("\n") if line and not line.startswith("#")]
    return [line.partition(" = ")[::2] for line in lines]


def told(what, held):
    print(f"{what}: {sum(held)} of {len(held)}")
    return all(held)


def main():
    vectors = model.Vectors(os.path.join(TOP, "crates", "cg_vectors", "data"))
    model.Node, model.World = LibraryNode, LibraryWorld
    story = [open(os.path.join(TOP, "examples", "stale_delta", name), "rb").read() for name in ("script", "output")]
    well = [told("the stale story", [model.printed(story[0]) == story[1]])]
    well += [vectors.hold(file) for file in ("answers.txt", "scripts.txt", "journals.txt")]
    rings = [ring_of(given) == expected for given, expected in lines_of(vectors, "rings.txt") if given.endswith(" ring")]
    well.append(told("rings.txt, where a ring is asked for", rings))
    well.append(told("silences.txt", [verdict_of(given) == expected for given, expected in lines_of(vectors, "silences.txt")]))
    differing = [(given, frames_of(given)) for given, _ in lines_of(vectors, "frames.txt")]
    for given, what in differing:
        if what:
            print(f"frames.txt: {given[:200]}: {what}")
    well.append(told("frames.txt, by the answers of a node", [not what for _, what in differing]))
    return 0 if all(well) else 1


if __name__ == "__main__":
    sys.exit(main())
