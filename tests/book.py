"""The book of riders and vehicles, command by command, over plain lists."""

from dataclasses import dataclass, field, replace
from typing import Optional

MOST_IN_POOL, MOST_RIDERS = 1_000, 100_000


@dataclass
class Rider:
    id: int
    origin: int
    destination: int
    second: int
    party: int
    status: str = "waiting"  # or promised, aboard, cancelled, delivered, expired
    vehicle: Optional[int] = None  # who holds the promise, or has the rider aboard
    pickup: Optional[int] = None  # the promised second

    @property
    def promise(self):
        return (self.vehicle, self.pickup) if self.status == "promised" else None


@dataclass
class Vehicle:
    id: int
    seats: int
    node: int
    second: int
    aboard: list = field(default_factory=list)  # riders, in the order in which they got in


@dataclass
class Snapshot:
    batch: int
    now: int
    vehicles: list
    riders: list
    expired: list


class Book:
    def __init__(self, nodes, fleet, wait):
        self.nodes, self.wait = nodes, wait
        self.vehicles = {it.id: replace(it, aboard=[]) for it in sorted(fleet, key=lambda it: it.id)}
        self.riders = {}
        self.pool = set()  # who is waiting or promised
        self.last_seal = None
        self.sealed = None
        self.batches = 0

    def step(self, command):
        """Takes a command, a word and its numbers, and gives the reply. A command that is refused changes nothing."""
        return getattr(self, command[0])(*command[1:])

    def submit(self, rider, origin, destination, second, party):
        if rider in self.riders:
            return "refused duplicate-rider"
        if not {origin, destination} <= self.nodes:
            return "refused unknown-node"
        if origin == destination:
            return "refused same-place"
        if len(self.pool) >= MOST_IN_POOL:
            return "refused pool-full"
        if len(self.riders) >= MOST_RIDERS:
            return "refused book-full"
        self.riders[rider] = Rider(rider, origin, destination, second, party)
        self.pool.add(rider)
        return "accepted"

    def unavailable(self, rider):
        """Why a rider can neither be cancelled nor picked up, if so."""
        if rider not in self.riders:
            return "refused unknown-rider"
        it = self.riders[rider]
        if it.status == "aboard":
            return f"refused is-aboard {it.vehicle}"
        return None if rider in self.pool else f"refused ended {it.status}"

    def cancel(self, rider):
        why = self.unavailable(rider)
        if not why:
            self.change(rider, "cancelled")
        return why or "cancelled"

    def report(self, vehicle, node, second):
        if vehicle not in self.vehicles:
            return "refused unknown-vehicle"
        if node not in self.nodes:
            return "refused unknown-node"
        if second < self.vehicles[vehicle].second:
            return f"refused time-back {self.vehicles[vehicle].second}"
        self.place(vehicle, node, second)
        return "placed"

    def pickup(self, vehicle, rider, second):
        if vehicle not in self.vehicles:
            return "refused unknown-vehicle"
        why = self.unavailable(rider)
        if why:
            return why
        at, who = self.vehicles[vehicle], self.riders[rider]
        if who.status == "waiting":
            return "refused not-promised none"
        if who.vehicle != vehicle:
            return f"refused not-promised {who.vehicle}"
        if second < at.second:
            return f"refused time-back {at.second}"
        if sum(self.riders[it].party for it in at.aboard) + who.party > at.seats:
            return "refused vehicle-full"
        self.change(rider, "aboard", vehicle)
        at.aboard.append(rider)
        self.place(vehicle, who.origin, second)
        return "picked"

    def dropoff(self, vehicle, rider, second):
        if vehicle not in self.vehicles:
            return "refused unknown-vehicle"
        if rider not in self.riders:
            return "refused unknown-rider"
        at, who = self.vehicles[vehicle], self.riders[rider]
        if rider not in at.aboard:
            return "refused not-aboard"
        if second < at.second:
            return f"refused time-back {at.second}"
        self.change(rider, "delivered")
        at.aboard.remove(rider)
        self.place(vehicle, who.destination, second)
        return "dropped"

    def seal(self, now):
        if self.sealed:
            return f"refused batch-open {self.sealed.batch}"
        if self.last_seal is not None and now < self.last_seal:
            return f"refused clock-back {self.last_seal}"
        expired = sorted(it for it in self.pool if self.riders[it].second + self.wait < now)
        for rider in expired:
            self.change(rider, "expired")
        asking = [self.riders[it] for it in sorted(self.pool) if self.riders[it].second <= now]
        vehicles = [replace(it, aboard=[self.riders[who] for who in it.aboard]) for it in self.vehicles.values()]
        self.last_seal = now
        self.batches += 1
        self.sealed = Snapshot(self.batches, now, vehicles, [replace(it) for it in asking], expired)
        return f"sealed {self.batches}"

    def close(self, batch, trips):
        """Takes the trips of a batch, each a vehicle and its stops; None after an overflow."""
        if not self.sealed or self.sealed.batch != batch:
            return f"refused not-this-batch {self.sealed.batch if self.sealed else 'none'}"
        for rider in self.sealed.riders if trips is not None else ():
            if rider.id in self.pool:
                picks = [(vehicle, it.second) for vehicle, stops in trips for it in stops if it.pick and it.rider == rider.id]
                self.change(rider.id, *(("promised", *picks[0]) if picks else ("waiting",)))
        self.sealed = None
        return "closed"

    def change(self, rider, status, vehicle=None, pickup=None):
        it = self.riders[rider]
        it.status, it.vehicle, it.pickup = status, vehicle, pickup
        if status not in ("waiting", "promised"):
            self.pool.discard(rider)

    def place(self, vehicle, node, second):
        it = self.vehicles[vehicle]
        it.node, it.second = node, second
