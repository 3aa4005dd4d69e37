"""The coordinator of a city: which fleet each rider is given to, and who goes to another."""

from bisect import bisect_left
from dataclasses import dataclass, field
from typing import Any, Callable, Dict, List, Optional, Sequence

import numpy as np

from ridepool.city.hands import MOST_TAKEN_UP, Died, Hands, Together
from ridepool.city.one_fleet import Ask, Batch, Sealed
from ridepool.faults import ProgramFailed
from ridepool.inputs.checks import Numbers
from ridepool.inputs.fleet import Fleet
from ridepool.inputs.network import NO_WAY, Network
from ridepool.settings import Settings

# So many seconds later a vehicle counts for each rider whom it has or may get: others come first.
A_RIDER = 60
NEVER = 1 << 40

Said = Callable[[str], None]


@dataclass
class Asked:
    """A rider, and the fleets that have had the request, in order. `is_left` says that no vehicle is promised, `refused`
    what the last book said that didn't take the request."""

    ask: Ask
    fleets: List[int] = field(default_factory=list)
    is_left: bool = False
    refused: str = ""


class Standing:
    """All vehicles of the city at a seal, one fleet behind the other."""

    def __init__(self, net: Network, fleets: Sequence[Fleet]) -> None:
        self.net = net
        self.firsts = np.cumsum([0, *(len(fleet) for fleet in fleets)])[:-1]
        self.places = np.searchsorted(net.names, np.concatenate([ordered(fleet, fleet.nodes(net)) for fleet in fleets]))
        self.ready: Numbers = np.concatenate([ordered(fleet, fleet.seconds) for fleet in fleets])
        self.riders: Numbers = np.zeros(len(self.ready), dtype=np.int64)

    def take(self, sealed: Sequence[Sealed]) -> None:
        """The vehicles after a batch."""
        self.places = np.searchsorted(self.net.names, np.concatenate([it.nodes for it in sealed]))
        self.ready = np.concatenate([it.ready for it in sealed]).astype(np.int64)
        self.riders = np.concatenate([it.load for it in sealed]).astype(np.int64)

    def pickups(self, origin: int) -> Numbers:
        """The second at which each vehicle could be at a node, if it set out at once."""
        seconds = self.net.seconds_to(origin)[self.places]
        return np.where(seconds == NO_WAY, NEVER, self.ready + seconds)

    def choose(self, ask: Ask, among: Sequence[int], latest: int) -> Optional[int]:
        """The fleet whose vehicles can pick the rider up soonest, where each rider whom a vehicle has or may get counts as
        some time; None where none of these fleets has a vehicle that comes in time. The vehicle that is the soonest
        counts as spoken for."""
        seconds = self.pickups(ask[1])
        weighed = np.where(seconds > latest, NEVER, seconds + A_RIDER * self.riders)
        best = np.minimum.reduceat(weighed, self.firsts)
        chosen = min(among, key=lambda at: (int(best[at]), at), default=None)
        if chosen is None or best[chosen] == NEVER:
            return None
        end = self.firsts[chosen + 1] if chosen + 1 < len(self.firsts) else len(weighed)
        self.riders[self.firsts[chosen] + int(np.argmin(weighed[self.firsts[chosen]:end]))] += 1
        return chosen


def ordered(fleet: Fleet, column: Numbers) -> Numbers:
    """A column of a fleet by rising number of the vehicle, as a fleet's vehicles stand in what comes of a batch."""
    return np.asarray(column, dtype=np.int64)[np.argsort(fleet.vehicles, kind="stable")]


class Coordinator:
    """Drives the day of a city: seal by seal it gives riders to fleets, and lets all fleets plan at the same time."""

    def __init__(self, net: Network, fleets: Sequence[Fleet], settings: Settings, hands: Hands, say: Said) -> None:
        self.fleets, self.settings, self.hands, self.say = list(fleets), settings, hands, say
        self.standing = Standing(net, fleets)
        self.told: "list[list[Batch]]" = [[] for _ in fleets]
        self.sealed: "list[list[Sealed]]" = [[] for _ in fleets]
        self.texts: "list[list[str]]" = [[] for _ in fleets]
        self.riders: Dict[int, Asked] = {}
        self.taken_up = 0
        self.together = Together(len(self.fleets))

    def drive(self, asks: Sequence[Ask], seals: Sequence[int]) -> List[str]:
        """The whole day; requests stand by rising second. Gives the report of each fleet."""
        try:
            numbers, seconds, first = range(len(self.fleets)), [ask[3] for ask in asks], 0
            self.together.all(self.hands.begin, numbers, self.fleets)
            for seal in seals:
                last = bisect_left(seconds, seal)
                self.batch(asks[first:last], seal)
                first = last
            rests = self.together.all(self.close, numbers)
            return ["".join([*texts, rest]) for texts, rest in zip(self.texts, rests)]
        finally:
            self.hands.end()
            self.together.close()

    def batch(self, new: Sequence[Ask], seal: int) -> None:
        """A batch of all fleets."""
        cancels: "list[list[int]]" = [[] for _ in self.fleets]
        asks: "list[list[Ask]]" = [[] for _ in self.fleets]
        for rider in [it for it in self.riders.values() if it.is_left]:
            self.move(rider, cancels, asks)
        for ask in new:
            rider = self.riders[ask[0]] = Asked(ask)
            self.give(rider, self.standing.choose(ask, range(len(self.fleets)), self.latest(ask)), asks)
        told = [Batch(tuple(gone), tuple(come), seal) for gone, come in zip(cancels, asks)]
        sealed = self.together.all(self.one_batch, range(len(self.fleets)), told)
        for at, (batch, found) in enumerate(zip(told, sealed)):
            self.told[at].append(batch)
            self.texts[at].append(found.text)
            self.sealed[at].append(found._replace(text=""))
            self.take(found)
        self.standing.take(sealed)

    def latest(self, ask: Ask) -> int:
        """The second until which a rider waits."""
        return ask[3] + self.settings.wait

    def give(self, rider: Asked, chosen: Optional[int], asks: "list[list[Ask]]") -> None:
        """Gives a rider to a fleet; to the one with the fewest riders where no vehicle comes in time, so that each request
        stands in a book."""
        at = chosen if chosen is not None else min(range(len(asks)), key=lambda it: len(asks[it]))
        rider.fleets.append(at)
        rider.is_left, rider.refused = False, ""
        asks[at].append(rider.ask)

    def move(self, rider: Asked, cancels: "list[list[int]]", asks: "list[list[Ask]]") -> None:
        """Moves a rider who was left out to a fleet that hasn't had the request, where one has a vehicle in time. The
        request keeps its second, and so its limits. A book takes a rider's number once, so nobody comes back."""
        others = [at for at in range(len(self.fleets)) if at not in rider.fleets]
        chosen = self.standing.choose(rider.ask, others, self.latest(rider.ask))
        if chosen is not None:
            if not rider.refused:
                cancels[rider.fleets[-1]].append(rider.ask[0])
            self.give(rider, chosen, asks)

    def take(self, sealed: Sealed) -> None:
        """What came of a fleet's batch."""
        for number, reply in sealed.refused:
            self.riders[number].refused, self.riders[number].is_left = reply, reply.endswith("pool-full")
        for number in sealed.out:
            self.riders[number].is_left = True
        for number in (*sealed.promised, *sealed.expired):
            self.riders[number].is_left = False

    def one_batch(self, at: int, told: Batch) -> Sealed:
        """A fleet's batch. Where its worker ends the fleet goes on elsewhere, behind the plans that it had."""
        while True:
            try:
                return self.hands.batch(at, told)
            except Died as fault:
                self.go_on(at, fault)

    def go_on(self, at: int, fault: Died) -> None:
        """A fleet goes on elsewhere. What came of each batch must be what came of it before."""
        while True:
            self.taken_up += 1
            if self.taken_up > MOST_TAKEN_UP:
                raise ProgramFailed(f"fleet {at + 1} can't go on: {fault}")
            self.say(f"fleet {at + 1}: {fault}; it goes on elsewhere from its {len(self.told[at])} batches")
            try:
                again = self.hands.go_on(at, self.fleets[at], self.told[at], "".join(self.texts[at]))
            except Died as another:
                fault = another
                continue
            if [it.plan for it in again] != [it.plan for it in self.sealed[at]]:
                raise ProgramFailed(f"fleet {at + 1} came to something else behind its own transcript")
            return

    def close(self, at: int) -> str:
        """The last part of a fleet's report."""
        while True:
            try:
                return self.hands.close(at)
            except Died as fault:
                self.go_on(at, fault)

    def batch_seconds(self) -> "list[float]":
        """How long all fleets took for each batch: the slowest one's seconds."""
        return [max(it.seconds for it in batch) for batch in zip(*self.sealed)]

    def moved(self) -> int:
        """How often riders went to another fleet."""
        return sum(len(rider.fleets) - 1 for rider in self.riders.values())
