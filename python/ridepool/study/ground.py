"""What all days of a study have in common: the network, and the requests with their least seconds."""

import hashlib
import math
import os
import pathlib
import random
from collections import Counter, OrderedDict
from dataclasses import dataclass, field
from typing import Any, Callable, Iterator, List, Mapping, Optional, Sequence, Tuple, Union

from ridepool.inputs import from_trips
from ridepool.inputs import made_city
from ridepool.inputs import tables
from ridepool.inputs.moments import zone_of
from ridepool.inputs.streets import Streets
from ridepool.inputs.tables import Node
from ridepool.study.plan import Cell, Plan
from ridepool.study.zones import at_most, parts_of, zones_of
from ridepool.words import Fault, number

CITY_COLUMNS = dict(zip(("time", "from_lon", "from_lat", "to_lon", "to_lat", "persons"), made_city.TRIPS))
PART_SEED = "which riders a part of the demand has"


MOST_KEPT = 64


class Recent:
    """Keeps what was made last, by what it is made of."""

    def __init__(self) -> None:
        self.made: "OrderedDict[Tuple[object, ...], Any]" = OrderedDict()

    def get(self, key: Tuple[object, ...], make: Callable[[], Any]) -> Any:
        """What is kept under a key, made where it isn't there."""
        if key not in self.made:
            self.made[key] = make()
            if len(self.made) > MOST_KEPT:
                self.made.popitem(last=False)
        self.made.move_to_end(key)
        return self.made[key]


@dataclass(frozen=True)
class Part:
    """What a fleet has: the positions of its riders, the nodes where its vehicles begin, and how many these are."""

    riders: List[int]
    nodes: List[Node]
    vehicles: int


@dataclass(frozen=True)
class Ground:
    """A city and its requests by rising second, over a span of so many seconds. Each request has its least seconds,
    and a drawn number from 0 to 1 that tells which parts of the demand it belongs to."""

    path: str
    network: str
    plane: from_trips.Plane
    requests: List[from_trips.Request]
    length: int
    direct: List[float]
    ranks: List[float]
    recent: Recent = field(default_factory=Recent, compare=False)

    def riders(self, percent: int) -> List[int]:
        """Which requests a part of the demand has. A smaller part lies in each larger one."""
        return [at for at, rank in enumerate(self.ranks) if rank * 100 < percent]

    def days(self, cell: Cell) -> Iterator[Tuple[str, str, List[float]]]:
        """The days of a cell: fleet and script as texts, and the riders' least seconds. It has one, or one for each of its
        zones or fleets that know nothing of each other."""
        parts = self.parts(cell)
        for at, part in enumerate(parts):
            fleet = from_trips.fleet_rows(part.nodes, part.vehicles, cell.seats, fleet_seed(cell.seed, at, len(parts)))
            key = "script", cell.demand, count_of(cell), split_of(cell), seed_of(cell), cell.every, at
            script, direct = self.recent.get(key, lambda: self.script(part.riders, cell.every))
            yield tables.table_text(tables.FLEET, fleet), script, direct

    def city(self, cell: Cell) -> Tuple[Tuple[str, ...], str, List[float]]:
        """The fleets of a city whose riders go from fleet to fleet, with vehicles counted through, then as `days`."""
        fleets: List[str] = []
        first = 0
        for at, part in enumerate(self.parts(cell)):
            rows = from_trips.fleet_rows(part.nodes, part.vehicles, cell.seats, fleet_seed(cell.seed, at, cell.fleets))
            fleets.append(tables.table_text(tables.FLEET, [(first + vehicle, *rest) for vehicle, *rest in rows]))
            first += part.vehicles
        key = "script", cell.demand, 1, "nearest", None, cell.every, 0
        script, direct = self.recent.get(key, lambda: self.script(self.riders(cell.demand), cell.every))
        return tuple(fleets), script, direct

    def script(self, riders: Sequence[int], every: int) -> Tuple[str, List[float]]:
        """The script of these riders as from_trips.py makes it, and their least seconds."""
        requests = [self.requests[at] for at in riders]
        script = from_trips.input_rows(requests, self.length, every)
        from_trips.check_limits(self.path, len(requests), len(script), self.last_seal(every))
        return tables.table_text(tables.SCRIPT, script), [self.direct[at] for at in riders]

    def last_seal(self, every: int) -> int:
        """The second of the script's last seal."""
        return every * math.ceil(self.length / every)

    def parts(self, cell: Cell) -> List[Part]:
        """What each fleet of a cell has."""
        if cell.vehicles < count_of(cell):
            raise Fault(f"{cell.vehicles} vehicles are too few for {counted(cell)}")
        key = "riders", cell.demand, count_of(cell), split_of(cell), seed_of(cell)
        riders, nodes = self.recent.get(key, lambda: self.split(cell))
        # Of one demand each fleet gets its share, as far as one process takes it; where riders go to any fleet, all get as many.
        weights = [1] * count_of(cell) if split_of(cell) == "nearest" else [len(mine) for mine in riders]
        fleets = at_most(parts_of(cell.vehicles, weights), tables.MOST_VEHICLES)
        if max(fleets) > tables.MOST_VEHICLES:
            raise Fault(f"vehicles={cell.vehicles} {counted(cell)}: {max(fleets)} vehicles in one, and ridepool "
                        f"takes {tables.MOST_VEHICLES}")
        return [Part(*part) for part in zip(riders, nodes, fleets)]

    def split(self, cell: Cell) -> Tuple[List[List[int]], List[List[Node]]]:
        """The riders of each fleet, and the nodes at which its vehicles may begin. Where riders go to the nearest fleet none
        has riders beforehand."""
        riders, count = self.riders(cell.demand), count_of(cell)
        if split_of(cell) == "zones":
            return self.zones(riders, count, cell.seed)
        draw = random.Random(f"the fleet of each rider, {count} fleets, seed {cell.seed}")
        fleets: List[List[int]] = [[] for _ in range(count)]
        for at in riders if split_of(cell) == "random" else ():
            fleets[int(draw.random() * count)].append(at)
        return [riders] if count == 1 else fleets, [self.plane.nodes] * count

    def zones(self, riders: Sequence[int], count: int, seed: int) -> Tuple[List[List[int]], List[List[Node]]]:
        """The riders who begin in each zone, and its nodes."""
        nodes = self.plane.nodes
        begin = Counter(self.requests[at].origin for at in riders)
        demand = [begin[node.node] for node in nodes]
        zones = zones_of(self.plane.places(), demand, count, stream(f"zones of seed {seed}"))
        zone_of = {node.node: zone for node, zone in zip(nodes, zones)}
        of_zones = [[at for at in riders if zone_of[self.requests[at].origin] == zone] for zone in range(count)]
        return of_zones, [[node for node in nodes if zone_of[node.node] == zone] for zone in range(count)]


def split_of(cell: Cell) -> str:
    """How the riders of a cell are parted. `zones=` says zones."""
    return "zones" if cell.zones > 1 else cell.split


def count_of(cell: Cell) -> int:
    """Into how many fleets a cell is parted."""
    return max(cell.zones, cell.fleets)


def counted(cell: Cell) -> str:
    """The parts of a cell, as they are named in a message."""
    return f"zones={cell.zones}" if cell.zones > 1 else f"fleets={cell.fleets}"


def seed_of(cell: Cell) -> Optional[int]:
    """The seed that the parting of riders stands on: none where there is one fleet."""
    return cell.seed if count_of(cell) > 1 else None


def fleet_seed(seed: int, at: int, count: int) -> Union[int, str]:
    """The seed of a fleet. One fleet is that of from_trips.py; of several each has a stream of its own, which no other
    seed has."""
    return seed if count == 1 else f"fleet {at} of {count}, seed {seed}"


def stream(name: str) -> int:
    """A whole number for what takes no text as a seed."""
    return int.from_bytes(hashlib.sha256(name.encode()).digest()[:4], "big")


def read_ground(network: str, nodes: str, trips: str, columns: Mapping[str, str], values: Mapping[str, str]) -> Ground:
    """The ground of three files. `values` has the span and how far a trip may begin from a street."""
    far, zone = number(values, "far", 0, tables.MOST_NUMBER, 500), zone_of(values.get("zone"))
    span, plane = from_trips.span_of(values, zone), from_trips.Plane.of(tables.read_nodes(nodes))
    read = from_trips.read_trips(trips, columns, plane.degrees, span, zone)
    requests = from_trips.nearest(plane, read.trips, far, read.left_out)
    from_trips.tell(trips, read, requests, tables.MOST_SEATS)
    if not requests:
        raise Fault(f"{trips}: none of the {read.count} trips can be used")
    requests, length = from_trips.from_span_start(requests, span)
    from_trips.check_length(trips, span, length)
    pairs = [(request.origin, request.destination) for request in requests]
    times = Streets(tables.read_network(network)).times(set(pairs))
    draw = random.Random(PART_SEED)
    ranks = [draw.random() for _ in requests]
    text = pathlib.Path(network).read_text(encoding="utf-8")
    return Ground(trips, text, plane, requests, length, [times[pair] for pair in pairs], ranks)


def ground_of(plan: Plan, here: str, out: str) -> Ground:
    """The ground of a study whose file lies in the folder `here`. A made city is written into OUT."""
    if plan.files is not None:
        network, nodes, trips = (os.path.join(here, plan.files[name]) for name in ("network", "nodes", "trips"))
        columns = {key: plan.files.get(key, name) for key, name in from_trips.COLUMNS.items()}
        return read_ground(network, nodes, trips, columns, plan.files)
    city = plan.city or {}
    made_city.write_city(os.path.join(out, "city"), city)
    network, nodes, trips = (os.path.join(out, "city", f"{name}.csv") for name in ("network", "nodes", "trips"))
    return read_ground(network, nodes, trips, CITY_COLUMNS, {"from": "0", "to": city.get("seconds", "3600")})
