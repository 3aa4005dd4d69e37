"""What a report tells of each rider: when they were promised, picked up and dropped, how their request ended, and why
nobody took them."""

from dataclasses import dataclass
from typing import Iterable, Mapping, Optional, Set

from ridepool.report.reader import Batch, Entry, Report

SERVED = ("aboard", "delivered")
NO_VEHICLE = "no vehicle in time"
ELSEWHERE = "worth more elsewhere"
LEFT_OUT = "left out"
EXPIRED, CANCELLED, OVERFLOW = "expired", "cancelled", "overflow"


@dataclass
class Rider:
    """A rider's request and what came of it. Seconds are None where the thing didn't happen."""

    rider: int
    persons: int
    origin: int
    destination: int
    request: int
    promised: Optional[int] = None
    pickup: Optional[int] = None
    dropoff: Optional[int] = None
    vehicle: Optional[int] = None
    state: str = "waiting"
    planned: int = 0
    overflows: int = 0
    reached: int = 0
    is_known: bool = True

    def why_out(self) -> Optional[str]:
        """Why the rider wasn't picked up, None where they were, or may still be.

        Cancelled; all batches overflowed; the wait ran out before any batch; no vehicle could come in time in any
        batch; or some could, and each was worth more elsewhere. Where it isn't known whom a vehicle could serve, the
        rider is only left out.
        """
        if self.state in SERVED or self.state == "promised":
            return None
        if self.state == "cancelled":
            return CANCELLED
        if not self.planned:
            return OVERFLOW if self.overflows else EXPIRED if self.state == "expired" else None
        if self.promised is not None:
            return EXPIRED if self.state == "expired" else ELSEWHERE
        if not self.is_known:
            return LEFT_OUT
        return ELSEWHERE if self.reached else NO_VEHICLE


class Riders:
    """Goes through a report's commands and batches, in their order. `reached` says whom some vehicle could serve in each
    batch, None where that isn't known."""

    def __init__(self, reached: Optional[Mapping[int, Set[int]]]) -> None:
        self.riders: "dict[int, Rider]" = {}
        self.reached = reached
        self.pool: "dict[int, Rider]" = {}
        self.sealed: "list[Rider]" = []

    def walk(self, report: Report) -> "dict[int, Rider]":
        """All riders of a report by number."""
        batches = {batch.position: batch for batch in report.batches}
        for entry in report.entries:
            if not entry.reply.startswith("refused"):
                self.enter(entry)
            if entry.position in batches:
                self.close(batches[entry.position])
        return self.riders

    def enter(self, entry: Entry) -> None:
        """A command that was taken."""
        if entry.command == "submit":
            number, origin, destination, second = entry.fields
            rider = Rider(number, entry.party, origin, destination, second, is_known=self.reached is not None)
            self.riders[rider.rider] = self.pool[rider.rider] = rider
        elif entry.command == "cancel":
            self.pool.pop(entry.fields[0]).state = "cancelled"
        elif entry.command == "pickup":
            rider = self.pool.pop(entry.fields[1])
            rider.state, rider.vehicle, rider.pickup = "aboard", entry.fields[0], entry.fields[2]
        elif entry.command == "dropoff":
            rider = self.riders[entry.fields[1]]
            rider.state, rider.dropoff = "delivered", entry.fields[2]
        elif entry.command == "seal":
            self.sealed = [it for it in self.pool.values() if it.request <= entry.fields[0]]

    def close(self, batch: Batch) -> None:
        """A batch's block."""
        for number in batch.expired:
            if number in self.pool:
                self.pool.pop(number).state = "expired"
        inside = [it for it in self.sealed if it.state != "expired"]
        if batch.overflow:
            for rider in inside:
                rider.overflows += 1
            return
        self.plan(batch, inside)

    def plan(self, batch: Batch, inside: Iterable[Rider]) -> None:
        """A batch that was closed with a plan. Who got in or gave up meanwhile keeps that state."""
        picked = {stop.rider: (trip.vehicle, stop.second)
                  for trip in batch.trips for stop in trip.stops if stop.kind == "pick"}
        reached = (self.reached or {}).get(batch.number, set())
        for rider in inside:
            rider.planned += 1
            rider.reached += rider.rider in reached or rider.rider in picked
            if rider.rider in self.pool:
                promise = picked.get(rider.rider)
                rider.state, rider.vehicle = ("waiting", None) if promise is None else ("promised", promise[0])
                if promise is not None and rider.promised is None:
                    rider.promised = promise[1]
