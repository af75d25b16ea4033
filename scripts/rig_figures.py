"""Figures of a rig, of what its clients read and when: how long a set took until all showed it, and how long all took to heal."""

import bisect
import collections


def in_order(seconds):
    """Returns median, 99th part of a hundred and greatest of some seconds, as a text."""
    if not seconds:
        return "none"
    ranked = sorted(seconds)
    median, late = ranked[len(ranked) // 2], ranked[min(len(ranked) - 1, len(ranked) * 99 // 100)]
    return f"median {median:.2f} s, 99th {late:.2f} s, greatest {ranked[-1]:.2f} s, of {len(ranked):,}"


class Figures:
    """What clients read, and when agents of which place were away: killed, stopped or cut off."""

    def __init__(self, clients, away):
        self.clients, self.away = clients, collections.defaultdict(list)
        for place, begun, over in away:
            self.away[place].append((begun, over))

    def was_away(self, place, begun, over):
        """Tells if a place was away at any time between two."""
        return any(at < over and begun < until for at, until in self.away[place])

    def first_shown(self, place, owner, key, since):
        """Returns when the client of a place first read an owner at a generation and version, or later ones, after a time."""
        when, keys = self.clients[place].seen[owner]
        for row in range(bisect.bisect_left(when, since), len(when)):
            if keys[row] >= key:
                return when[row]
        return None

    def spread(self, change, is_all):
        """Returns the seconds from the answer to a change until each agent showed it, or None if there is nothing to tell. Unless
        all are wanted, those count that were not away meanwhile, as was not the owner."""
        lasted = []
        for place in range(len(self.clients)):
            shown = self.first_shown(place, change.place, change.key, change.when)
            if shown is None:
                if is_all:
                    return None
            elif is_all or not any(self.was_away(it, change.when, shown) for it in (place, change.place)):
                lasted.append(shown - change.when)
        return max(lasted, default=None)

    def spreads(self, is_all):
        """Returns the seconds of all changes, and how many were never shown by all."""
        changes = [change for client in self.clients for change in client.answered]
        found = [self.spread(change, is_all) for change in changes]
        return [it for it in found if it is not None], found.count(None)

    def heal(self, places, when):
        """Returns the seconds from the end of a fault until its places and the others show each other as they are then, but those
        that went away again; None if all did."""
        lasted = []
        others = [place for place in range(len(self.clients)) if place not in places]
        for owner, place in [(one, other) for one in places for other in others] + [(it, one) for it in others for one in places]:
            own_when, own = self.clients[owner].seen[owner]
            row = bisect.bisect_left(own_when, when)
            shown = self.first_shown(place, owner, own[row], when) if row < len(own) else None
            if shown is not None and not any(self.was_away(it, when, shown) for it in (place, owner)):
                lasted.append(shown - when)
        return max(lasted, default=None)

    def tell_spread(self, is_calm, period):
        print(f"each client reads every {period * 1000:.0f} ms; a change that was answered is shown by all others:")
        seconds, _ = self.spreads(is_all=False)
        print(f"    that were not away, nor the owner: {in_order(seconds)}" if not is_calm else f"    {in_order(seconds)}")
        if not is_calm:
            seconds, never = self.spreads(is_all=True)
            print(f"    away or not: {in_order(seconds)}; {never:,} did not reach all before a newer life of the owner or the end")

    def tell_heal(self, healed):
        """Prints how long it took after faults of each kind."""
        by_kind = collections.defaultdict(list)
        for kind, places, when in healed:
            by_kind[kind].append(self.heal(places, when))
        for kind, seconds in sorted(by_kind.items()):
            print(f"healed after {kind}: {in_order([it for it in seconds if it is not None])}")
