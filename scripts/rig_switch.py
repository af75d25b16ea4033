#!/usr/bin/env python3
"""The switch between the namespaces of the rig: a process that carries the packets of their TUN devices, and cuts, delays and
drops them as the rig says. It is started by rig_network, which hands it the devices and a pipe, whose end ends it."""
import heapq
import json
import os
import random
import select
import signal
import sys
import time

# The greatest packet of a device, and the packets that wait for their time at most: those past it are dropped, as by a router.
PACKET, WAITING = 65_536, 100_000


class Switch:
    """The devices by place, and what happens to packets between two places: the faults that hold now."""

    def __init__(self, devices, seed):
        self.devices, self.chance = devices, random.Random(seed)
        self.cut, self.dropped, self.delayed = set(), {}, {}
        self.waiting, self.count = [], 0
        self.carried, self.lost, self.late = 0, 0, 0

    def obey(self, said):
        """Takes the faults that hold from now on: pairs that are cut, and pairs with a share that is dropped, and with the least
        and the greatest seconds of a delay."""
        self.cut = {tuple(pair) for pair in said["cut"]}
        self.dropped = {(one, other): share for one, other, share in said["drop"]}
        self.delayed = {(one, other): (least, most) for one, other, least, most in said["delay"]}

    def route(self, place, packet, now):
        """Carries a packet that came from a place."""
        # (the last byte of an IPv4 packet's destination is the place, counted from 1)
        if len(packet) < 20 or packet[0] >> 4 != 4 or not 1 <= packet[19] <= len(self.devices):
            return
        pair = place, packet[19] - 1
        if pair in self.cut or self.chance.random() < self.dropped.get(pair, 0):
            self.lost += 1
        elif pair in self.delayed and len(self.waiting) < WAITING:
            self.late, self.count = self.late + 1, self.count + 1
            due = now + self.chance.uniform(*self.delayed[pair])
            heapq.heappush(self.waiting, (due, self.count, pair, packet))
        else:
            self.hand_over(pair, packet)

    def hand_over(self, pair, packet):
        """Writes a packet to its device, unless that is full or the pair was cut meanwhile."""
        try:
            if pair in self.cut:
                self.lost += 1
            else:
                os.write(self.devices[pair[1]], packet)
                self.carried += 1
        except OSError:
            self.lost += 1

    def hand_over_due(self, now):
        """Writes the delayed packets whose time has come, and returns the milliseconds until the next one's."""
        while self.waiting and self.waiting[0][0] <= now:
            _, _, pair, packet = heapq.heappop(self.waiting)
            self.hand_over(pair, packet)
        return 1000 * (self.waiting[0][0] - now) if self.waiting else None

    def read(self, place, device):
        """Carries what waits at a device, but not all of it, so that others have their turn."""
        for _ in range(64):
            try:
                packet = os.read(device, PACKET)
            except OSError:
                return
            self.route(place, packet, time.monotonic())

    def run(self, control):
        """Carries packets until the pipe ends."""
        poll, places, held = select.poll(), {device: place for place, device in enumerate(self.devices)}, b""
        for device in [control, *self.devices]:
            os.set_blocking(device, False)
            poll.register(device, select.POLLIN)
        while True:
            for device, _ in poll.poll(self.hand_over_due(time.monotonic())):
                if device != control:
                    self.read(places[device], device)
                    continue
                said = os.read(control, 1 << 16)
                if not said:
                    return
                *lines, held = (held + said).split(b"\n")
                for line in lines:
                    self.obey(json.loads(line))


def main():
    # (Ctrl-C goes to the rig, which ends the switch behind all that needs it)
    signal.signal(signal.SIGINT, signal.SIG_IGN)
    seed, *devices = map(int, sys.argv[1:])
    switch = Switch(devices, seed)
    switch.run(sys.stdin.fileno())
    print(json.dumps({"carried": switch.carried, "lost": switch.lost, "late": switch.late}))


if __name__ == "__main__":
    main()
