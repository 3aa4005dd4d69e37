"""What a transcript says line by line: each ride, each vehicle with its next stops, each batch."""

from dataclasses import dataclass, field
from typing import Any, Dict, Iterable, List, Optional, Sequence, Set, Tuple, Union

from ridepool.report.reader import Batch, Entry, Reader, Stop

ENDED = ("delivered", "cancelled", "expired")
STATES = ("waiting", "promised", "aboard", *ENDED)


@dataclass
class Ride:
    """A rider's request. `pickup` and `dropoff` are the planned seconds, or those that were entered."""

    ride: int
    origin: int
    destination: int
    second: int
    party: int
    state: str = "waiting"
    vehicle: Optional[int] = None
    pickup: Optional[int] = None
    dropoff: Optional[int] = None
    left_out: bool = False

    def view(self) -> Dict[str, Any]:
        """The ride in the words of the desk's answers."""
        return {
            "ride": self.ride, "state": self.state, "from": self.origin, "to": self.destination,
            "persons": self.party, "time": self.second, "vehicle": self.vehicle,
            "pickup_second": self.pickup, "drop_off_second": self.dropoff, "left_out": self.left_out,
        }


@dataclass
class Vehicle:
    """A vehicle where it was last placed, who is aboard, and the stops of its last plan that are left."""

    vehicle: int
    seats: int
    node: int
    second: int
    aboard: List[int] = field(default_factory=list)
    stops: List[Stop] = field(default_factory=list)
    move: Optional[int] = None


@dataclass
class Change:
    """What a line changed: an entry or a closed batch, with the rides and vehicles that are different now."""

    entry: Optional[Entry] = None
    batch: Optional[Batch] = None
    rides: Set[int] = field(default_factory=set)
    vehicles: Set[int] = field(default_factory=set)


class Lines(Reader):
    """Reads a transcript as it grows, and keeps no more of it than the last entry and batch."""

    def __init__(self) -> None:
        super().__init__()
        self.count = 0
        self.first: List[str] = []
        self.last_entry: Optional[Entry] = None
        self.closed: Optional[Batch] = None

    def line(self, text: str) -> Union[Entry, Batch, None]:
        """A line of the transcript. Gives the entry or the closed batch that it completes, if so."""
        self.last_entry = self.closed = None
        if self.report is None:
            self.first.append(text)
            if len(self.first) == 4:
                self.head(self.first)
            return None
        super().line(text)
        if self.report.batches:
            self.closed = self.report.batches.pop()
        return self.last_entry or self.closed

    def follow(self, position: int) -> None:
        """Counts a command's line, whose position must be the next one."""
        if position != self.count:
            raise ValueError
        self.count += 1

    def entry(self, entry: Entry) -> None:
        """A command's line."""
        self.follow(entry.position)
        if entry.command == "seal" and entry.reply.startswith("sealed "):
            self.seals = {int(entry.reply.split(" ")[1]): entry.fields[0]}
        self.begun.entries = [entry]
        self.last_entry = entry


class State:
    """The book as the transcript tells it. Nothing is decided here: only what was answered is taken over."""

    def __init__(self, fleet: Iterable[Vehicle]) -> None:
        self.lines = Lines()
        self.rides: Dict[int, Ride] = {}
        self.asked: List[int] = []  # the rides' numbers in the order in which they were taken
        self.vehicles = {it.vehicle: it for it in fleet}
        self.pool: Set[int] = set()
        self.batches: Dict[int, Dict[str, Any]] = {}
        self.sealing: Optional[Tuple[int, Set[int]]] = None  # the open batch and its riders

    def line(self, text: str) -> Optional[Change]:
        """Takes a line of the transcript. Gives the Change, or None where nothing changed."""
        found = self.lines.line(text)
        if found is None:
            return None
        if isinstance(found, Batch):
            return self.closed(found)
        change = Change(entry=found)
        if not found.reply.startswith("refused"):
            getattr(self, found.command)(change, *found.fields)
        return change

    def placed(self, position: str, lane: str, vehicle: str, node: str, second: str) -> str:
        """Takes the line of a report that wasn't refused, as `line` does. Gives its row. It is many times as fast, and most of
        a day's lines are such."""
        self.lines.follow(int(position))
        it = self.vehicles[int(vehicle)]
        it.node, it.second = int(node), int(second)
        return f"{self.lines.round},{lane},report,{vehicle},{node},{second},,\n"

    def submit(self, change: Change, rider: int, origin: int, destination: int, second: int) -> None:
        assert change.entry is not None
        self.asked.append(rider)
        self.rides[rider] = Ride(rider, origin, destination, second, change.entry.party)
        self.pool.add(rider)
        change.rides.add(rider)

    def cancel(self, change: Change, rider: int) -> None:
        self.end(change, rider, "cancelled")

    def report(self, change: Change, vehicle: int, node: int, second: int) -> None:
        self.place(change, vehicle, node, second)

    def pickup(self, change: Change, vehicle: int, rider: int, second: int) -> None:
        ride = self.rides[rider]
        self.pool.discard(rider)
        ride.state, ride.vehicle, ride.pickup, ride.left_out = "aboard", vehicle, second, False
        self.vehicles[vehicle].aboard.append(rider)
        self.place(change, vehicle, ride.origin, second)
        change.rides.add(rider)

    def dropoff(self, change: Change, vehicle: int, rider: int, second: int) -> None:
        ride = self.rides[rider]
        ride.state, ride.dropoff = "delivered", second
        self.vehicles[vehicle].aboard.remove(rider)
        self.place(change, vehicle, ride.destination, second)
        change.rides.add(rider)

    def seal(self, change: Change, second: int) -> None:
        assert change.entry is not None
        riders = {it for it in self.pool if self.rides[it].second <= second}
        self.sealing = (int(change.entry.reply.split(" ")[1]), riders)

    def close(self, change: Change, batch: int) -> None:
        """The close's own line. What it changes stands in the block behind it."""

    def place(self, change: Change, vehicle: int, node: int, second: int) -> None:
        it = self.vehicles[vehicle]
        it.node, it.second = node, second
        change.vehicles.add(vehicle)

    def end(self, change: Change, rider: int, how: str) -> None:
        """A ride that is over before the rider got in."""
        ride = self.rides[rider]
        self.pool.discard(rider)
        if ride.vehicle is not None:
            change.vehicles.add(ride.vehicle)
        ride.state, ride.vehicle, ride.pickup, ride.dropoff = how, None, None, None
        change.rides.add(rider)

    def closed(self, batch: Batch) -> Change:
        """A batch's whole block: who expired, and, but for an overflow, every vehicle's next stops."""
        if self.sealing is None:
            raise ValueError("a block without its seal")
        change, (_, riders) = Change(batch=batch), self.sealing
        for rider in batch.expired:
            if rider in self.pool:
                self.end(change, rider, "expired")
        if not batch.overflow:
            self.promise(change, batch, riders & self.pool)
            self.drive(change, batch)
        self.batches[batch.number], self.sealing = batch_view(batch, self.waits(batch)), None
        return change

    def waits(self, batch: Batch) -> List[int]:
        """The seconds from request to pickup of those whom the plan picks up."""
        return [stop.second - self.rides[stop.rider].second
                for trip in batch.trips for stop in trip.stops if stop.kind == "pick"]

    def promise(self, change: Change, batch: Batch, riders: Set[int]) -> None:
        """Those who still wait are promised to whose trip picks them up; the others wait on."""
        picks = {stop.rider: (trip.vehicle, stop.second)
                 for trip in batch.trips for stop in trip.stops if stop.kind == "pick"}
        for rider in riders:
            ride = self.rides[rider]
            ride.state = "promised" if rider in picks else "waiting"
            ride.vehicle, ride.pickup = picks.get(rider, (None, None))
            ride.dropoff, ride.left_out = None, rider not in picks
            change.rides.add(rider)

    def drive(self, change: Change, batch: Batch) -> None:
        """Each vehicle's stops and moves are those of this plan alone."""
        for vehicle in self.vehicles.values():
            if vehicle.stops or vehicle.move:
                change.vehicles.add(vehicle.vehicle)
            vehicle.stops, vehicle.move = [], None
        for trip in batch.plans():
            self.vehicles[trip.vehicle].stops = list(trip.stops)
            change.vehicles.add(trip.vehicle)
            for stop in trip.stops:
                ride = self.rides[stop.rider]
                if stop.kind == "drop" and ride.vehicle == trip.vehicle and ride.state not in ENDED:
                    ride.dropoff = stop.second
                    change.rides.add(stop.rider)
        for move in batch.moves:
            self.vehicles[move.vehicle].move = self.rides[move.rider].origin
            change.vehicles.add(move.vehicle)

    def stops(self, number: int) -> List[Tuple[str, int, int, Optional[int]]]:
        """A vehicle's next stops as (kind, rider, node, second). A passenger whose drop-off no plan has comes last."""
        vehicle = self.vehicles[number]
        vehicle.stops = [it for it in vehicle.stops if self.lies_ahead(vehicle, it)]
        stops: List[Tuple[str, int, int, Optional[int]]] = [(it.kind, it.rider, it.node, it.second) for it in vehicle.stops]
        planned = {it.rider for it in vehicle.stops}
        return stops + [("drop", it, self.rides[it].destination, None) for it in vehicle.aboard if it not in planned]

    def lies_ahead(self, vehicle: Vehicle, stop: Stop) -> bool:
        """Whether a planned stop is still to be made."""
        ride = self.rides[stop.rider]
        if ride.vehicle != vehicle.vehicle:
            return False
        return ride.state == "promised" or (stop.kind == "drop" and ride.state == "aboard")

    def persons(self, number: int) -> int:
        """How many persons are aboard a vehicle."""
        return sum(self.rides[it].party for it in self.vehicles[number].aboard)

    def vehicle_view(self, number: int) -> Dict[str, Any]:
        """A vehicle in the words of the desk's answers."""
        it = self.vehicles[number]
        stops = [{"kind": kind, "ride": ride, "node": node, "second": second}
                 for kind, ride, node, second in self.stops(number)]
        return {
            "vehicle": number, "max_capacity": it.seats, "node": it.node, "second": it.second,
            "persons": self.persons(number), "aboard": list(it.aboard), "stops": stops, "move": it.move,
        }


def batch_view(batch: Batch, waits: Sequence[int]) -> Dict[str, Any]:
    """A batch in the words of the desk's answers, with the seconds that those whom it picks up wait."""
    if batch.overflow:
        return {"batch": batch.number, "second": batch.second, "overflow": True, "expired": batch.expired}
    if batch.cost is None or batch.bound is None:
        raise ValueError("a block without its cost")
    return {
        "batch": batch.number, "second": batch.second, "overflow": False, "served": len(waits),
        "left_out": batch.out, "expired": batch.expired, "lapsed": batch.lapsed,
        "late": [it.vehicle for it in batch.late], "cost": batch.cost, "bound": batch.bound,
        "gap": batch.cost - batch.bound, "rows": batch.counts["row"], "nodes": batch.nodes,
        "mean_wait": round(sum(waits) / len(waits)) if waits else None, "worst_wait": max(waits, default=None),
    }
