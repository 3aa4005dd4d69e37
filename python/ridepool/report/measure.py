"""What a driven day's report tells of its riders and vehicles, in numbers that can be added up.

Stands on Python and reader.py alone, since it is also sent to other machines.
"""

from collections import Counter, defaultdict
from dataclasses import dataclass, field
from typing import Any, Counter as Counts, Dict, List, Mapping, NamedTuple, Optional, Set

from ridepool.report.reader import Batch, Entry, Report, Trip

MINUTE = 60


class Leg(NamedTuple):
    """A part of a vehicle's plan, from second to second: persons aboard, whether it drives or stands at a stop, and whether
    it is a move, towards a rider who was left out."""

    start: int
    end: int
    persons: int
    drives: bool
    moves: bool = False


def legs_of(trip: Trip, second: int, persons: int, parties: Mapping[int, int], dwell: int) -> List[Leg]:
    """The legs of a chosen trip, for a vehicle that sets out at a second with so many persons aboard."""
    legs = []
    for stop in trip.stops:
        legs.append(Leg(second, stop.second, persons, True))
        persons += parties[stop.rider] if stop.kind == "pick" else -parties[stop.rider]
        second = stop.second + dwell
        legs.append(Leg(stop.second, second, persons, False))
    return legs


@dataclass
class Driven:
    """What vehicles drove so far: seconds in all, those without a person aboard, and those of moves. Then seconds of each
    person aboard up to the last seal, in all and by minute of the day."""

    last_seal: int
    driven: int = 0
    empty: int = 0
    moved: int = 0
    aboard: int = 0
    minutes: Counts[int] = field(default_factory=Counter)

    def add(self, legs: List[Leg], start: int, end: Optional[int] = None) -> None:
        """Adds what of these legs lies between two seconds."""
        for leg in legs:
            first, last = max(leg.start, start), leg.end if end is None else min(leg.end, end)
            took = max(0, last - first)
            if leg.drives:
                self.driven += took
                self.empty += took if leg.persons == 0 else 0
                self.moved += took if leg.moves else 0
            self.ride(leg.persons, first, min(last, self.last_seal))

    def ride(self, persons: int, first: int, last: int) -> None:
        """Adds persons who are aboard from one second to another, minute by minute."""
        while persons and first < last:
            end = min(last, (first // MINUTE + 1) * MINUTE)
            self.minutes[first // MINUTE] += persons * (end - first)
            self.aboard += persons * (end - first)
            first = end


@dataclass
class Vehicle:
    """A vehicle on its way: its plan, whether that is a trip, up to which second it is counted, who is aboard."""

    second: int = 0
    legs: List[Leg] = field(default_factory=list)
    on_trip: bool = False
    aboard: Set[int] = field(default_factory=set)


class Day:
    """Goes through a report, command by command and batch by batch."""

    def __init__(self, report: Report) -> None:
        self.report, self.dwell = report, report.settings.get("dwell", 0)
        self.requests = report.requests()
        self.parties = {rider: request.party for rider, request in self.requests.items()}
        self.vehicles: Dict[int, Vehicle] = defaultdict(Vehicle)
        last = max((batch.second for batch in report.batches), default=0)
        self.by_vehicle: Dict[int, Driven] = defaultdict(lambda: Driven(last))
        self.picked: Dict[int, int] = {}
        self.dropped: Dict[int, int] = {}
        self.shared: Set[int] = set()

    def walk(self) -> "Day":
        """The whole report. At its end trips are driven to their last stops; nobody waits for moves any more."""
        batches = {batch.position: batch for batch in self.report.batches}
        for entry in self.report.entries:
            self.enter(entry)
            if entry.position in batches:
                self.close(batches[entry.position])
        for number, vehicle in self.vehicles.items():
            if vehicle.on_trip:
                self.by_vehicle[number].add(vehicle.legs, vehicle.second)
        return self

    def total(self, name: str) -> int:
        """What all vehicles did of a kind, in seconds."""
        return sum(getattr(driven, name) for driven in self.by_vehicle.values())

    def enter(self, entry: Entry) -> None:
        """A command that was taken."""
        if entry.reply == "placed":
            vehicle, second = self.vehicles[entry.fields[0]], entry.fields[2]
            self.by_vehicle[entry.fields[0]].add(vehicle.legs, vehicle.second, second)
            vehicle.second = second
        elif entry.reply == "picked":
            number, rider, second = entry.fields
            aboard = self.vehicles[number].aboard
            if aboard:
                self.shared |= aboard | {rider}
            aboard.add(rider)
            self.picked[rider] = second
        elif entry.reply == "dropped":
            number, rider, second = entry.fields
            self.vehicles[number].aboard.discard(rider)
            self.dropped[rider] = second

    def close(self, batch: Batch) -> None:
        """A plan, which ends all that were before it; after an overflow these go on."""
        if batch.overflow:
            return
        for vehicle in self.vehicles.values():
            vehicle.legs, vehicle.on_trip = [], False
        for trip in batch.trips:
            vehicle = self.vehicles[trip.vehicle]
            persons = sum(self.parties[rider] for rider in vehicle.aboard)
            vehicle.legs, vehicle.on_trip = legs_of(trip, vehicle.second, persons, self.parties, self.dwell), True
        for move in batch.moves:
            vehicle = self.vehicles[move.vehicle]
            vehicle.legs, vehicle.on_trip = [Leg(vehicle.second, vehicle.second + move.seconds, 0, True, True)], False


def gap_of(batch: Batch) -> float:
    """How far a batch's bound lies below its cost, in percent of the cost."""
    return 100 * (batch.cost - batch.bound) / batch.cost if batch.cost and batch.bound is not None else 0.0


def refused_of(report: Report) -> Dict[str, int]:
    """How many requests were refused, by the book's reason."""
    submits = (entry.reply for entry in report.entries if entry.command == "submit")
    return dict(Counter(reply.split(" ")[1] for reply in submits if reply.startswith("refused ")))


def minutes_of(day: Day, seals: List[int]) -> List[int]:
    """Seconds of each person aboard a vehicle, for each minute from second 0 to the last seal."""
    total: Counts[int] = Counter()
    for driven in day.by_vehicle.values():
        total.update(driven.minutes)
    return [total[minute] for minute in range(-(-max(seals, default=0) // MINUTE))]


def riders_of(day: Day, direct: Mapping[int, float]) -> Dict[str, Any]:
    """The facts of the riders: who asked, who was refused, and the seconds of each one who was served."""
    requests, submits = day.requests, [entry for entry in day.report.entries if entry.command == "submit"]
    ideal = {rider: requests[rider].second + direct[rider] for rider in day.dropped}
    return {
        "requests": len(submits),
        "persons": sum(entry.party for entry in submits),
        "persons_served": sum(requests[rider].party for rider in day.picked),
        "refused": refused_of(day.report),
        "parties": dict(Counter(str(entry.party) for entry in submits)),
        "waits": [second - requests[rider].second for rider, second in day.picked.items()],
        "delays": [max(0, second - ideal[rider]) for rider, second in day.dropped.items()],
        "rides": [max(0, second - day.picked[rider] - direct[rider]) for rider, second in day.dropped.items()],
        "shared": len(day.shared),
    }


def measure(report: Report, direct: Mapping[int, float]) -> Dict[str, Any]:
    """The facts of a driven day. `direct` has the least seconds of each rider's ride."""
    day = Day(report).walk()
    planned = [batch for batch in report.batches if not batch.overflow]
    seals = [batch.second for batch in report.batches]
    gaps = [gap_of(batch) for batch in planned if batch.bound is not None and batch.bound != batch.cost]
    empty, moved = day.total("empty"), day.total("moved")
    return {
        **riders_of(day, direct),
        "vehicles": report.vehicles,
        "aboard_seconds": day.total("aboard"),
        "minutes": minutes_of(day, seals),
        "vehicle_seconds": report.vehicles * (max(seals, default=0) - min(seals, default=0)),
        "empty_seconds": empty,
        "approach_seconds": empty - moved,
        "rebalancing_seconds": moved,
        "driven_seconds": day.total("driven"),
        "batches": len(report.batches),
        "overflows": len(report.batches) - len(planned),
        "open": len(gaps),
        "gap": max(gaps, default=0.0),
    }
