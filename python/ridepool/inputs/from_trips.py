"""Makes fleet.csv and script.csv of past trips, one row of a CSV file each.

A trip becomes a request between the nodes nearest to its ends. Second 0 of the script is the beginning of
the span. Every so many seconds the batch is sealed, in a round of its own. Vehicles stand at drawn nodes.
"""

from __future__ import annotations

import csv
import math
import os
import random
from collections import Counter
from dataclasses import dataclass
from datetime import tzinfo
from typing import List, Mapping, NamedTuple, Optional, Sequence, Tuple, Union

from ridepool.inputs import tables
from ridepool.inputs.moments import Moments, zone_of
from ridepool.words import Fault, need, number, run_tool, split_words

USAGE = ("use: %(prog)s TRIPS.csv nodes.csv OUT/ [time= from_lon= from_lat= to_lon= to_lat= persons=] "
         "[vehicles= seats= seed= every= from= to= zone= far=]")
COLUMNS = {
    "time": "tpep_pickup_datetime",
    "from_lon": "pickup_longitude",
    "from_lat": "pickup_latitude",
    "to_lon": "dropoff_longitude",
    "to_lat": "dropoff_latitude",
    "persons": "passenger_count",
}
WORDS = (*COLUMNS, "vehicles", "seats", "seed", "every", "from", "to", "zone", "far")
TWO_DAYS = 2 * 86_400
EARTH = 6_371_000.0
Point = Tuple[float, float]
Span = Tuple[float, float]  # the first second, and the one after the last; infinite where no word says it

NO_TIME = "without a time"
OUTSIDE = "outside the span"
NO_PLACE = "without coordinates"
NO_PERSONS = "without a number of persons"
MANY_PERSONS = f"of more than {tables.MOST_PARTY} persons"
FAR = "too far from a street"
NO_LENGTH = "that begin and end at one node"


@dataclass(frozen=True)
class PastTrip:
    """A row of the trips' file: seconds as the file counts them, ends as (lon, lat) or (x, y)."""

    second: int
    start: Point
    end: Point
    persons: int


@dataclass(frozen=True)
class Request:
    """A trip as the script has it."""

    second: int
    origin: int
    destination: int
    persons: int


@dataclass(frozen=True)
class Plane:
    """Where the nodes lie, in metres, and how a trip's coordinates become metres."""

    nodes: List[tables.Node]
    degrees: bool
    shrink: float

    @staticmethod
    def of(nodes: List[tables.Node]) -> Plane:
        """The plane of these nodes: over longitude and latitude where all have them, else x and y."""
        latitudes = [node.lat for node in nodes if node.lon is not None and node.lat is not None]
        degrees = len(latitudes) == len(nodes)
        latitude = sum(latitudes) / len(nodes) if degrees else 0.0
        return Plane(nodes, degrees, math.cos(math.radians(latitude)))

    def metres(self, point: Point) -> Point:
        """A point's metres east and north."""
        if not self.degrees:
            return point
        east, north = (math.radians(angle) * EARTH for angle in point)
        return east * self.shrink, north

    def places(self) -> List[Point]:
        """The nodes' metres, in order."""
        return [self.metres((n.lon or 0.0, n.lat or 0.0) if self.degrees else (n.x, n.y)) for n in self.nodes]


def point(row: Mapping[str, str], columns: Tuple[str, str], degrees: bool) -> Optional[Point]:
    """A trip's end, or None where the row has none. Records write 0, 0 for an unknown place."""
    east, north = (tables.finite(row[column]) for column in columns)
    if east is None or north is None or degrees and (east == north == 0.0 or abs(east) > 180 or abs(north) > 90):
        return None
    return east, north


def persons_of(row: Mapping[str, str], column: str) -> Optional[int]:
    """How many persons a trip has, 1 where no column says so; None where the column says nothing."""
    if not column:
        return 1
    value = tables.finite(row[column])
    return int(value) if value is not None and value >= 1 else None


class How(NamedTuple):
    """How rows are read: the columns, whether places are in degrees, the span, and what times mean."""

    columns: Mapping[str, str]
    degrees: bool
    span: Span
    moments: Moments


def judge(row: Mapping[str, str], how: How) -> Union[PastTrip, str]:
    """The trip of a row, or the reason why it can't be used."""
    columns, span = how.columns, how.span
    second = how.moments.second(row[columns["time"]])
    if second is None:
        return NO_TIME
    if second < span[0] or second >= span[1]:
        return OUTSIDE
    start = point(row, (columns["from_lon"], columns["from_lat"]), how.degrees)
    end = point(row, (columns["to_lon"], columns["to_lat"]), how.degrees)
    if start is None or end is None:
        return NO_PLACE
    persons = persons_of(row, columns["persons"])
    if persons is None:
        return NO_PERSONS
    return PastTrip(second, start, end, persons) if persons <= tables.MOST_PARTY else MANY_PERSONS


def judged(path: str, count: int, row: Mapping[str, str], how: How) -> Union[PastTrip, str]:
    """The same; a Fault names the row."""
    try:
        return judge(row, how)
    except Fault as fault:
        raise Fault(f"{path}: row {count}: {fault}") from None


def check_columns(path: str, there: Sequence[str], columns: Mapping[str, str]) -> None:
    """Refuses a file in which a column is missing."""
    for key, column in columns.items():
        if column and column not in there:
            raise Fault(f"{path}: no column {column} ({key}=NAME says another); there are: {', '.join(there)}")


@dataclass
class Read:
    """What was read of a trips' file: the trips that can be used so far, how many rows it has, the others counted by reason,
    and what is told beside."""

    trips: List[PastTrip]
    count: int
    left_out: Counter[str]
    notes: List[str]


def read_trips(path: str, columns: Mapping[str, str], degrees: bool, span: Span, zone: Optional[tzinfo]) -> Read:
    """The trips of a file. A time of day that can't be taken is a Fault with its row."""
    trips, count, moments = [], 0, Moments(zone)
    left_out: Counter[str] = Counter()
    rows: Counter[int] = Counter()
    how = How(columns, degrees, span, moments)
    try:
        with open(path, newline="", encoding="utf-8-sig") as file:
            table = csv.DictReader(file)
            names = [name.strip() for name in table.fieldnames or ()]
            table.fieldnames = names
            check_columns(path, names, columns)
            for count, row in enumerate(table, 1):
                rows[hash(tuple(map(str, row.values())))] += 1
                trip = judged(path, count, row, how)
                if isinstance(trip, PastTrip):
                    trips.append(trip)
                else:
                    left_out[trip] += 1
    except (UnicodeDecodeError, csv.Error) as fault:
        raise Fault(f"{path}: not a CSV file: {fault}") from None
    again = sum(times - 1 for times in rows.values())
    notes = moments.notes() + ([f"{again} are exact duplicates of another row, and are used like it"] if again else [])
    return Read(trips, count, left_out, notes)


def nearest(plane: Plane, trips: List[PastTrip], far: int, left_out: Counter[str]) -> List[Request]:
    """The trips as requests between nodes, by rising second. Distances are taken by a k-d tree."""
    from scipy.spatial import cKDTree

    if not trips:
        return []
    tree = cKDTree(plane.places())
    from_far, origins = tree.query([plane.metres(trip.start) for trip in trips])
    to_far, destinations = tree.query([plane.metres(trip.end) for trip in trips])
    requests = []
    for trip, origin, destination, *distances in zip(trips, origins, destinations, from_far, to_far):
        if max(distances) > far:
            left_out[FAR] += 1
        elif origin == destination:
            left_out[NO_LENGTH] += 1
        else:
            ends = plane.nodes[origin].node, plane.nodes[destination].node
            requests.append(Request(trip.second, *ends, trip.persons))
    return sorted(requests, key=lambda request: request.second)


def input_rows(requests: Sequence[Request], length: int, every: int) -> List[Tuple[object, ...]]:
    """The script: a round of requests, then one of their seal, and so on to the end of the span."""
    rows: List[Tuple[object, ...]] = []
    rider = 0
    for batch in range(math.ceil(length / every)):
        seal = (batch + 1) * every
        while rider < len(requests) and requests[rider].second < seal:
            r = requests[rider]
            rider += 1
            rows.append((2 * batch, 0, "submit", rider, r.origin, r.destination, r.second, r.persons))
        rows.append((2 * batch + 1, 0, "seal", seal, "", "", "", ""))
    return rows


def fleet_rows(nodes: Sequence[tables.Node], vehicles: int, seats: int, seed: Union[int, str]) -> List[Tuple[int, int, int, int]]:
    """The fleet: each vehicle free from second 0 on, at a drawn node."""
    drawn = random.Random(seed)
    places = (nodes[int(drawn.random() * len(nodes))] for _ in range(vehicles))
    return [(vehicle, seats, place.node, 0) for vehicle, place in enumerate(places, 1)]


def span_of(values: Mapping[str, str], zone: Optional[tzinfo]) -> Span:
    """The span's first second and the second after its last; infinite where no word says it."""
    span: List[float] = []
    for key, default in (("from", -math.inf), ("to", math.inf)):
        try:
            second: Optional[float] = Moments(zone).second(values[key]) if key in values else default
        except Fault as fault:
            raise Fault(f"{key}={fault}") from None
        if second is None:
            raise Fault(f"{key}={values[key]} is neither a date (2015-01-15T19:00:00) nor a number of seconds")
        span.append(second)
    if span[0] >= span[1]:
        raise Fault("from= is not before to=")
    return span[0], span[1]


def check_length(path: str, span: Span, length: int) -> None:
    """Refuses trips of more than two days, where the words don't ask for them: mostly a file of a month was given."""
    if math.inf in (abs(span[0]), abs(span[1])) and length > TWO_DAYS:
        raise Fault(f"{path}: the trips are of {length / 86_400:.1f} days: say which are to be used by from= and to=, both, even "
                    "where it is all of them")


def from_span_start(requests: Sequence[Request], span: Span) -> Tuple[List[Request], int]:
    """The requests with their seconds counted from the span's beginning, and the span's length."""
    seconds = [request.second for request in requests]
    start = int(span[0]) if span[0] > -math.inf else min(seconds)
    end = int(span[1]) if span[1] < math.inf else max(seconds) + 1
    shifted = [Request(r.second - start, r.origin, r.destination, r.persons) for r in requests]
    return shifted, end - start


def check_limits(path: str, riders: int, rows: int, last: int) -> None:
    """Refuses what ridepool doesn't take, with the figure. `last` is the last seal's second."""
    shorter = "take a shorter span by from= and to="
    if riders > tables.MOST_RIDERS:
        raise Fault(f"{path}: {riders} trips, and ridepool's book takes {tables.MOST_RIDERS} riders: {shorter}")
    if rows > tables.MOST_ROWS:
        raise Fault(f"{path}: {rows} rows, and ridepool's script takes {tables.MOST_ROWS}: {shorter}")
    if last > tables.MOST_NUMBER:
        figure = f"second {last}, and ridepool takes {tables.MOST_NUMBER}"
        raise Fault(f"{path}: the last seal is at {figure}: {shorter}")


def tell(path: str, read: Read, requests: Sequence[Request], seats: int) -> None:
    """Says how many trips are used, and how many aren't for which reason."""
    print(f"{path}: {read.count} trips, {len(requests)} used")
    for reason, times in sorted(read.left_out.items()):
        print(f"  left out: {times} {reason}")
    for note in read.notes:
        print(f"  note: {note}")
    large = sum(1 for request in requests if request.persons > seats)
    if large:
        print(f"  note: {large} of those used have more persons than the {seats} seats of a vehicle")


def convert(arguments: List[str]) -> None:
    """The tool."""
    plain, values = split_words(arguments, WORDS, USAGE)
    if len(plain) != 3:
        raise Fault(USAGE)
    path, nodes_path, out = plain
    vehicles = number(values, "vehicles", 1, tables.MOST_VEHICLES, 10)
    seats = number(values, "seats", 1, tables.MOST_SEATS, 4)
    seed = number(values, "seed", 0, tables.MOST_NUMBER, 1)
    every = number(values, "every", 1, tables.MOST_NUMBER, 60)
    far = number(values, "far", 0, tables.MOST_NUMBER, 500)
    columns = {key: values.get(key, name) for key, name in COLUMNS.items()}
    zone = zone_of(values.get("zone"))
    span = span_of(values, zone)
    need("scipy")
    plane = Plane.of(tables.read_nodes(nodes_path))
    read = read_trips(path, columns, plane.degrees, span, zone)
    requests = nearest(plane, read.trips, far, read.left_out)
    tell(path, read, requests, seats)
    if not requests:
        raise Fault(f"{path}: none of the {read.count} trips can be used")
    requests, length = from_span_start(requests, span)
    check_length(path, span, length)
    seals = math.ceil(length / every)
    check_limits(path, len(requests), len(requests) + seals, seals * every)
    fleet, script = os.path.join(out, "fleet.csv"), os.path.join(out, "script.csv")
    tables.write_table(fleet, tables.FLEET, fleet_rows(plane.nodes, vehicles, seats, seed))
    tables.write_table(script, tables.SCRIPT, input_rows(requests, length, every))
    print(f"{fleet}: {vehicles} vehicles of {seats} seats")
    print(f"{script}: {len(requests)} riders, {seals} seals, the last at second {seals * every}")


def main() -> None:
    """The command."""
    run_tool(convert, USAGE)
