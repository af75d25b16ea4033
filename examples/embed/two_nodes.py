"""Two nodes in one process exchange what they hold, as bytes. The last line is `both hold the same`."""

from cg import Node, Refused


def exchange(opener, answerer, now):
    """A SYN, its ACK and its ACK2. Returns the outcomes of the deltas at both."""
    _, _, ack = answerer.handle(now, opener.opening())
    _, at_opener, ack2 = opener.handle(now, ack)
    _, at_answerer, nothing = answerer.handle(now, ack2)
    assert not nothing
    return at_opener + at_answerer


def refused(call):
    """The number of the fault of a call."""
    try:
        call()
    except Refused as fault:
        return fault.number
    return 0


def main():
    first = Node("10.0.0.1:7000", 1, "c1")
    second = Node("10.0.0.2:7000", 1, "c1", ["10.0.0.1:7000"])
    print("versions", first.set(3, "1234567"), first.set(2, f"{1:032x}"), first.set(1, "NORMAL"), second.beat())
    print("a text of no key", refused(lambda: first.set(17, "")), "and none to remove", refused(lambda: first.remove(9)))
    print("peers of the second", second.tick(1000, (1, 2, 3, 4))[0])
    print("half a frame", refused(lambda: first.handle(1000, second.opening()[:9])))
    print("outcomes", exchange(second, first, 1000))
    print(second.gossipinfo(), end="")
    print("entry", second.entry("10.0.0.1:7000"), "text", second.state("10.0.0.1:7000", 3), end=" ")
    print("verdict", second.verdict("10.0.0.1:7000", 1000), second.verdict("10.0.0.9:7000", 1000))
    print("replicas", second.replicas(b"some key", 2), "ring", second.ring().split())
    assert first.digests() == second.digests()
    assert first.owners() == second.owners() == ["10.0.0.1:7000", "10.0.0.2:7000"]
    second.close()
    print("a node that is freed", refused(second.beat))
    print("both hold the same")


if __name__ == "__main__":
    main()
