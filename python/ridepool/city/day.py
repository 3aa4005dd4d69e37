"""A day of a city with many fleets: its frames, its measures, and the checks of its reports."""

from collections import Counter
from functools import cached_property
from typing import Any, Dict, List, NamedTuple, Optional, Sequence

import pandas as pd

from ridepool.city.check import Meeting, meetings
from ridepool.city.coordinator import Asked, Coordinator
from ridepool.city.hands import Hands, Here, There
from ridepool.city.one_fleet import Ask
from ridepool.days.calls import Audit, audit
from ridepool.days.day import Day, measures_of
from ridepool.faults import RefusedInput
from ridepool.inputs import limits
from ridepool.inputs.checks import Path
from ridepool.inputs.fleet import Fleet
from ridepool.inputs.network import Network
from ridepool.inputs.requests import Requests
from ridepool.report.marks import marks_of
from ridepool.settings import Settings

SUMS = ("persons_served", "shared", "vehicles", "aboard_seconds", "vehicle_seconds", "empty_seconds", "approach_seconds",
        "rebalancing_seconds", "driven_seconds", "batches", "overflows", "open")
LISTS = ("waits", "delays", "rides")


class Told(NamedTuple):
    """What the coordinator knows that no report says: each rider with the fleets that had the request, how long each batch
    took, and how often a fleet went on elsewhere."""

    riders: Dict[int, Asked]
    batch_seconds: List[float]
    taken_up: int


class CityDay:
    """A day of a city. `days` has the Day of each fleet, `batch_seconds` how long all fleets took for each batch, and
    `taken_up` how often a fleet went on on another worker."""

    def __init__(self, net: Network, days: Sequence[Day], told: Told) -> None:
        self.net, self.days, self.asked = net, list(days), told.riders
        self.batch_seconds, self.taken_up = told.batch_seconds, told.taken_up

    def __repr__(self) -> str:
        return f"<CityDay of {len(self.asked)} riders in {len(self.days)} fleets>"

    @cached_property
    def riders(self) -> Any:
        """Each accepted request once, with the columns of `Day.riders` and two more: `fleet`, from 1, which had the rider
        last, and `fleets`, how many had the request."""
        frames = [day.riders.assign(fleet=at) for at, day in enumerate(self.days, 1)]
        last = {rider: it.fleets[-1] + 1 for rider, it in self.asked.items()}
        count = {rider: len(it.fleets) for rider, it in self.asked.items()}
        every = pd.concat(frames, ignore_index=True)
        mine = every[every["fleet"] == every["rider"].map(last)]
        return mine.assign(fleets=mine["rider"].map(count)).sort_values("rider", ignore_index=True)

    @property
    def moved(self) -> int:
        """How often a rider went to another fleet."""
        return sum(len(it.fleets) - 1 for it in self.asked.values())

    @cached_property
    def facts(self) -> "dict[str, Any]":
        """The facts of all fleets together. Each request counts once, in how many fleets it ever was."""
        of = [day.facts for day in self.days]
        found: "dict[str, Any]" = {name: sum(it[name] for it in of) for name in SUMS}
        found.update({name: [value for it in of for value in it[name]] for name in LISTS})
        length = max(len(it["minutes"]) for it in of)
        found["minutes"] = [sum(it["minutes"][at] for it in of if at < len(it["minutes"])) for at in range(length)]
        found["gap"] = max(it["gap"] for it in of)
        parties = [it.ask[4] for it in self.asked.values()]
        refused = (it.refused.split(" ")[1] for it in self.asked.values() if it.refused)
        return {**found, "requests": len(parties), "persons": sum(parties), "refused": dict(Counter(refused)),
                "parties": dict(Counter(map(str, parties))), "moved": self.moved, "batch_seconds": self.batch_seconds}

    def measures(self) -> "dict[str, float]":
        """The measures of `Day.measures`, of the whole city, and `moved`, how often a rider went to another fleet."""
        seats = max((int(day.fleet.seats.max()) for day in self.days if len(day.fleet)), default=0)
        return {**measures_of(self.facts, seats), "moved": self.moved}

    @property
    def marks(self) -> "list[str]":
        """Why the measures must not be taken as they stand, as `Day.marks` says it."""
        facts = self.facts
        return marks_of(facts["requests"], facts["refused"], facts["batches"], facts["overflows"])

    def meetings(self) -> "list[Meeting]":
        """The riders who were in two fleets at once, of which there must be none. Told by the reports alone."""
        return meetings([day.report for day in self.days])

    def audit(self, program: Optional[Path] = None) -> "list[Audit]":
        """Has each fleet's report judged by `ridepool audit`. The day needs the setting proof=True. An AuditFailed names
        the first line that no run prints."""
        return [audit(self.net, day.fleet, day.script, day, program=program) for day in self.days]


def parted(net: Network, vehicles: int, fleets: int, seats: int = 4, seed: int = 1) -> "list[Fleet]":
    """So many vehicles at drawn nodes, parted into fleets of about equal size, of at most 500 each. Vehicles count from 1
    through all fleets, and each fleet is drawn by a seed of its own.

    >>> [len(fleet) for fleet in parted(Network.made(side=3, seed=1), vehicles=7, fleets=3)]
    [3, 2, 2]
    """
    if not 1 <= fleets <= vehicles:
        raise RefusedInput("fleets", None, "fleets", fleets, f"a whole number from 1 to {vehicles}")
    sizes = [vehicles // fleets + (at < vehicles % fleets) for at in range(fleets)]
    if sizes[0] > limits.MOST_VEHICLES:
        raise RefusedInput("fleets", None, "fleets", fleets, f"so many that none has more than {limits.MOST_VEHICLES} vehicles")
    found, first = [], 1
    for at, size in enumerate(sizes):
        frame = Fleet.drawn(net, size, seats, seed=seed * 1000 + at).frame
        found.append(Fleet.from_frame(frame.assign(vehicle=range(first, first + size))))
        first += size
    return found


def told_of(coordinator: Coordinator) -> Told:
    """What a coordinator knows at the end of a day."""
    return Told(coordinator.riders, coordinator.batch_seconds(), coordinator.taken_up)


def driven(net: Network, fleets: Sequence[Fleet], asks: Sequence[Ask], seals: Sequence[int], settings: Settings,
           hands: Hands, say: Any = print) -> CityDay:
    """The day of a city by these hands."""
    coordinator = Coordinator(net, fleets, settings, hands, say)
    texts = coordinator.drive(asks, seals)
    days = [Day.from_bytes(text.encode("ascii"), net, fleet) for text, fleet in zip(texts, fleets)]
    return CityDay(net, days, told_of(coordinator))


def drive_fleets(net: Network, fleets: Sequence[Fleet], requests: Requests, settings: Optional[Settings] = None, *,
                 client: Any = None, program: Optional[Path] = None, say: Any = print) -> CityDay:
    """Drives a day of a city with many fleets, of at most 500 vehicles each. Each is planned by a session of its own, all at
    the same time.

    A coordinator gives each request to the fleet whose vehicles can pick up soonest. Riders who were left out of a batch go
    to another fleet with the next, with the same second, so that their limits stay. Who has a promise stays. With
    `client`, a client of Dask, each fleet is an actor on a worker; a fleet whose worker ends goes on on another, and
    `say` is told. The workers need numpy, pandas and scipy. A fleet may have no vehicle number that another one has.

    >>> net = Network.made(side=4, seed=1)
    >>> asked = pd.DataFrame({"from": [1, 2, 15], "to": [9, 9, 1], "time": [0, 5, 6]})
    >>> fleets = parted(net, vehicles=4, fleets=2)
    >>> day = drive_fleets(net, fleets, Requests.from_frame(asked, every=30), Settings(wait=300))
    >>> day.riders["state"].tolist(), day.meetings()
    (['delivered', 'delivered', 'delivered'], [])
    """
    settings = settings or Settings()
    numbers = [int(number) for fleet in fleets for number in fleet.vehicles]
    if not fleets or len(set(numbers)) < len(numbers):
        raise RefusedInput("fleets", reason="each vehicle must be in one fleet, and there must be one fleet at least")
    placed = requests.placed(net)[["rider", "origin", "destination", "second", "persons"]]
    asks: "list[Ask]" = [(int(r), int(o), int(d), int(s), int(p)) for r, o, d, s, p in placed.itertuples(index=False, name=None)]
    return driven(net, fleets, asks, requests.seals.tolist(), settings, hands_of(client, net, settings, program, say), say)


def hands_of(client: Any, net: Network, settings: Settings, program: Optional[Path], say: Any) -> Hands:
    """Where the fleets are planned."""
    if client is None:
        return Here(net, settings, program)
    import pathlib
    import zlib

    from ridepool.days.calls import program_path
    from ridepool.study.workers import Workers

    bytes_of_program = pathlib.Path(program_path(program)).read_bytes()
    return There(Workers(client, zlib.compress(bytes_of_program), zlib.compress(net.csv().encode()), say), net, settings)
