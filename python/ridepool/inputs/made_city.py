"""Makes a city like Manhattan in size and shape, and the trips of a rush hour in it, all by a seed.

Avenues run along an island and streets across it, most of them one-way, by turns in either direction; a
park lies in the middle, and a road leads along the shore. Riders are drawn to a few centres, where streets
are slower, too. Nobody's data is needed: the same words give the same city.
"""

import math
import os
import random
from bisect import bisect
from dataclasses import dataclass
from functools import cached_property
from itertools import accumulate
from typing import Dict, Generic, Iterable, Iterator, List, Mapping, Sequence, Tuple, TypeVar

from ridepool.inputs import tables
from ridepool.words import Fault, number, run_tool, split_words

USAGE = "use: %(prog)s OUT/ [seed= avenues= streets= requests= seconds= alone=]"
WORDS = ("seed", "avenues", "streets", "requests", "seconds", "alone")
TRIPS = ("second", "from_x", "from_y", "to_x", "to_y", "persons")

AVENUE_APART, STREET_APART = 215.0, 80.0
WIDE_AVENUE, WIDE_STREET = 6, 12
SHORES = ((0.0, 0.4), (0.15, 1.0), (0.65, 1.0), (0.85, 0.45), (1.0, 0.35))
PARK_ALONG, PARK_ACROSS = (0.46, 0.63), (0.42, 0.62)
SPEEDS = {("avenue", True): 30.0, ("avenue", False): 25.0, ("street", True): 22.0, ("street", False): 15.0}
SLOWER = 0.4

CENTRES = ((0.5, 0.40, 0.6), (0.5, 0.07, 0.3), (0.3, 0.75, 0.1))
CENTRE_SIZE = 0.05
WAYS = (("centre", "home", 0.45), ("home", "centre", 0.15), ("home", "home", 0.4))
LEAST_RIDE, LIKELY_RIDE = 400.0, 3000.0
PARTIES = (50, 20, 15, 8, 7)
Crossing = Tuple[int, int]  # an avenue and a street
Road = Tuple[str, bool, int, Crossing, Crossing, bool, bool]
MadeTrip = Tuple[int, float, float, float, float, int]
Drawn = TypeVar("Drawn")


def width_at(along: float) -> float:
    """Which part of the island's full width it has there, from 0 at the south end to 1 at the north end."""
    for (south, before), (north, after) in zip(SHORES, SHORES[1:]):
        if along <= north:
            return before + (after - before) * (along - south) / (north - south)
    return SHORES[-1][1]


@dataclass(frozen=True)
class City:
    """The crossings of avenues and streets, both counted from 0, and what is drawn of the seed."""

    avenues: int
    streets: int
    draw: random.Random

    def shore(self, street: int) -> Tuple[int, int]:
        """The first and the last avenue that a street has."""
        cut = (1.0 - width_at(street / (self.streets - 1))) * (self.avenues - 1) / 2
        first = min(math.floor(cut), (self.avenues - 2) // 2)
        return first, self.avenues - 1 - first

    def in_park(self, avenue: int, street: int) -> bool:
        """Whether a crossing would lie in the park; the park's own streets go on through it."""
        across, along = avenue / (self.avenues - 1), street / (self.streets - 1)
        inside = PARK_ACROSS[0] <= across <= PARK_ACROSS[1] and PARK_ALONG[0] <= along <= PARK_ALONG[1]
        return inside and street % WIDE_STREET != 0

    @cached_property
    def crossings(self) -> List[Crossing]:
        """All crossings (avenue, street), street by street."""
        rows = ((street, *self.shore(street)) for street in range(self.streets))
        places = ((avenue, street) for street, first, last in rows for avenue in range(first, last + 1))
        return [place for place in places if not self.in_park(*place)]

    def metres(self, place: Crossing) -> Tuple[float, float]:
        """Metres east and north."""
        return AVENUE_APART * place[0], STREET_APART * place[1]

    @cached_property
    def length(self) -> float:
        """The length of the island in metres."""
        return STREET_APART * (self.streets - 1)

    def pull(self, place: Crossing) -> float:
        """How much a place is part of a centre, at most about 1 by strength."""
        east, north = self.metres(place)
        total = 0.0
        for across, along, strength in CENTRES:
            far = math.hypot(east - across * AVENUE_APART * (self.avenues - 1), north - along * self.length)
            total += strength * math.exp(-0.5 * (far / (CENTRE_SIZE * self.length)) ** 2)
        return total

    @cached_property
    def pulls(self) -> Dict[Crossing, float]:
        """The pull of each crossing."""
        return {place: self.pull(place) for place in self.crossings}


def directions(at: int, wide: int) -> Tuple[bool, bool]:
    """Which of forth and back a road has: every so many-th both, the others by turns."""
    return (True, True) if at % wide == 0 else (at % 2 == 0, at % 2 == 1)


def roads_of(city: City) -> Iterator[Road]:
    """Each piece of road between two crossings: kind, whether it is wide, number, ends, forth and back."""
    there = set(city.crossings)
    for avenue, street in city.crossings:
        beside, above = (avenue + 1, street), (avenue, street + 1)
        if beside in there:
            wide = street % WIDE_STREET == 0
            yield "street", wide, street, (avenue, street), beside, *directions(street, WIDE_STREET)
        if above in there:
            wide = avenue % WIDE_AVENUE == 0
            yield "avenue", wide, avenue, (avenue, street), above, *directions(avenue, WIDE_AVENUE)
    for street in range(city.streets - 1):
        for side in (0, 1):
            here, there_next = (city.shore(at)[side] for at in (street, street + 1))
            yield "avenue", True, -1 - side, (here, street), (there_next, street + 1), True, True


def arcs_of(city: City) -> Dict[Tuple[Crossing, Crossing], int]:
    """The seconds of each arc between crossings. Each road has a speed of its own, slower in the centres."""
    roads = [("street", street) for street in range(city.streets)]
    roads += [("avenue", avenue) for avenue in range(-2, city.avenues)]
    own = {road: 0.8 + 0.4 * city.draw.random() for road in roads}
    arcs: Dict[Tuple[Crossing, Crossing], int] = {}
    for kind, wide, at, start, end, forth, back in roads_of(city):
        busy = SLOWER * max(city.pulls[start], city.pulls[end])
        speed = SPEEDS[kind, wide] * own[kind, at] * (1.0 - busy) / 3.6
        seconds = max(1, math.ceil(math.dist(city.metres(start), city.metres(end)) / speed))
        for arc, there in (((start, end), forth), ((end, start), back)):
            if there:
                arcs[arc] = min(seconds, arcs.get(arc, seconds))
    return arcs


class Draws(Generic[Drawn]):
    """Draws crossings by weights."""

    def __init__(self, draw: random.Random, places: Sequence[Drawn], weights: Iterable[float]) -> None:
        self.draw, self.places, self.sums = draw, places, list(accumulate(weights))

    def one(self) -> Drawn:
        """A crossing."""
        return self.places[min(bisect(self.sums, self.draw.random() * self.sums[-1]), len(self.places) - 1)]


def rush(draw: random.Random, seconds: int) -> int:
    """A second of the rush, which is twice as busy in the middle as at both ends."""
    while True:
        second = draw.random() * seconds
        if draw.random() < 0.5 + 0.5 * math.sin(math.pi * second / seconds):
            return int(second)


def party(draw: random.Random, alone: int) -> int:
    """How many persons travel together, where `alone` of a hundred requests are of one person."""
    if draw.random() * 100 < alone:
        return 1
    return 2 + bisect(list(accumulate(PARTIES)), draw.random() * sum(PARTIES))


def trips_of(city: City, requests: int, seconds: int, alone: int) -> List[MadeTrip]:
    """The trips as rows of trips.csv, by rising second. Long rides are rarer than short ones."""
    draw, places = city.draw, city.crossings
    ends = {"centre": Draws(draw, places, [city.pulls[place] for place in places]),
            "home": Draws(draw, places, [1.0 - min(0.8, city.pulls[place]) for place in places])}
    ways = Draws(draw, WAYS, [share for _, _, share in WAYS])
    trips: List[MadeTrip] = []
    while len(trips) < requests:
        kinds = ways.one()
        start, end = (city.metres(ends[kind].one()) for kind in kinds[:2])
        far = math.dist(start, end)
        if far >= LEAST_RIDE and draw.random() < math.exp((LEAST_RIDE - far) / LIKELY_RIDE):
            trips.append((rush(draw, seconds), *start, *end, party(draw, alone)))
    return sorted(trips, key=lambda trip: trip[0])


def write_city(out: str, values: Mapping[str, str]) -> Tuple[int, int, int]:
    """Makes the city of these words and writes its three files. Gives how many nodes, arcs and trips."""
    seed = number(values, "seed", 0, tables.MOST_NUMBER, 1)
    avenues = number(values, "avenues", 4, 100, 18)
    streets = number(values, "streets", 4, 900, 256)
    requests = number(values, "requests", 1, tables.MOST_RIDERS, 4000)
    seconds = number(values, "seconds", 60, 86_400, 3600)
    alone = number(values, "alone", 0, 100, 70)
    city = City(avenues, streets, random.Random(seed))
    arcs = arcs_of(city)
    node = {place: at for at, place in enumerate(city.crossings, 1)}
    nodes = [tables.Node(at, *city.metres(place), name=f"avenue {place[0] + 1} street {place[1] + 1}")
             for place, at in node.items()]
    rows = sorted((node[start], node[end], took) for (start, end), took in arcs.items())
    trips = trips_of(city, requests, seconds, alone)
    tables.write_table(os.path.join(out, "network.csv"), tables.NETWORK, rows)
    tables.write_nodes(os.path.join(out, "nodes.csv"), nodes)
    tables.write_table(os.path.join(out, "trips.csv"), TRIPS, trips)
    return len(nodes), len(rows), len(trips)


def convert(arguments: List[str]) -> None:
    """The tool."""
    plain, values = split_words(arguments, WORDS, USAGE)
    if len(plain) != 1:
        raise Fault(USAGE)
    out = plain[0]
    nodes, arcs, trips = write_city(out, values)
    print(f"{os.path.join(out, 'network.csv')}: {arcs} arcs")
    print(f"{os.path.join(out, 'nodes.csv')}: {nodes} nodes")
    print(f"{os.path.join(out, 'trips.csv')}: {trips} trips")


def main() -> None:
    """The command."""
    run_tool(convert, USAGE)
