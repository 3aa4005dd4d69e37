"""Makes network.csv and nodes.csv of a street network of the SUMO simulator.

A node is a crossing, and each street that cars may use is an arc whose seconds are its length by its
speed, rounded up. With edges=1 a node is the middle of a street, and each turn that the map allows is an
arc: half of the one street, the way over the crossing, half of the other. Only the largest part in which
every node reaches every other is kept.
"""

import math
import os
import re
from collections import Counter
from dataclasses import dataclass
from typing import Any, Dict, Iterable, List, Optional, Sequence, Tuple

from ridepool.inputs import tables
from ridepool.words import Fault, need, number, run_tool, split_words

USAGE = "use: %(prog)s NET.net.xml OUT/ [edges=1]"
CARS = "passenger"
Net = Any  # sumolib has no types
Streets = Dict[Any, float]  # its streets with their seconds


@dataclass(frozen=True)
class Place:
    """What becomes a node: a crossing or the middle of a street."""

    name: str
    x: float
    y: float


@dataclass(frozen=True)
class Arc:
    """What becomes a row of network.csv: a street or a turn, between places by name."""

    start: str
    end: str
    seconds: int
    street: str


def read_map(path: str) -> Net:
    """The map as sumolib reads it, with the lanes that lead over crossings."""
    import sumolib

    open(path, "rb").close()
    try:
        network = sumolib.net.readNet(path, withInternal=True)
    except Exception as fault:
        raise Fault(f"{path}: not a network of SUMO: {' '.join(str(fault).split())}") from None
    if not network.getEdges(withInternal=False):
        raise Fault(f"{path}: not a network of SUMO: it has no streets")
    return network


def natural(name: str) -> List[Tuple[int, int, str]]:
    """Sorts names with numbers in them by the numbers."""
    return [(0, int(part), "") if part.isdigit() else (1, 0, part) for part in re.split(r"([0-9]+)", name)]


def street_seconds(edge: Any) -> Optional[float]:
    """How long a car takes along a street, None where no car may use it."""
    speeds = [lane.getSpeed() for lane in edge.getLanes() if lane.allows(CARS) and lane.getSpeed() > 0]
    return edge.getLength() / max(speeds) if speeds else None


def rounded_up(seconds: float) -> int:
    """Whole seconds, without counting what is lost or won in a division."""
    return math.ceil(round(seconds, 6))


def car_streets(network: Net) -> Tuple[Streets, int]:
    """Streets that cars may use with their seconds, by name; and how many streets there are in all."""
    edges = [edge for edge in network.getEdges(withInternal=False) if not edge.isSpecial()]
    edges.sort(key=lambda edge: natural(edge.getID()))
    timed = ((edge, street_seconds(edge)) for edge in edges)
    return {edge: seconds for edge, seconds in timed if seconds is not None}, len(edges)


def crossings(streets: Streets) -> Tuple[List[Place], List[Arc]]:
    """Crossings as places, streets as arcs."""
    ends = {end for edge in streets for end in (edge.getFromNode(), edge.getToNode())}
    places = [Place(end.getID(), *end.getCoord()) for end in ends]
    places.sort(key=lambda place: natural(place.name))
    arcs = [
        Arc(edge.getFromNode().getID(), edge.getToNode().getID(), rounded_up(seconds), edge.getID())
        for edge, seconds in streets.items()
    ]
    return places, arcs


def crossing_seconds(network: Net, connection: Any) -> float:
    """How long a turn takes over the crossing, from lane to lane."""
    seconds, way = 0.0, connection.getViaLaneID()
    while way:
        lane = network.getLane(way)
        seconds += lane.getLength() / lane.getSpeed()
        onward = lane.getOutgoing()
        way = onward[0].getViaLaneID() if onward else None
    return seconds


def turns(network: Net, streets: Streets) -> Tuple[List[Place], List[Arc]]:
    """Middles of streets as places, turns as arcs."""
    import sumolib

    places: List[Place] = []
    arcs: List[Arc] = []
    for edge, seconds in streets.items():
        lane = next(lane for lane in edge.getLanes() if lane.allows(CARS))
        half = sumolib.geomhelper.polyLength(lane.getShape()) / 2
        places.append(Place(edge.getID(), *sumolib.geomhelper.positionAtShapeOffset(lane.getShape(), half)))
        for onward, connections in edge.getAllowedOutgoing(CARS).items():
            if onward in streets:
                over = min(crossing_seconds(network, connection) for connection in connections)
                way = rounded_up(seconds / 2 + over + streets[onward] / 2)
                arcs.append(Arc(edge.getID(), onward.getID(), way, edge.getID()))
    return places, arcs


def largest_part(places: List[Place], arcs: List[Arc]) -> Tuple[List[Place], List[Arc]]:
    """The places and arcs of the largest part in which every place reaches every other."""
    from scipy.sparse import coo_matrix
    from scipy.sparse.csgraph import connected_components

    index = {place.name: at for at, place in enumerate(places)}
    ends = [[index[arc.start] for arc in arcs], [index[arc.end] for arc in arcs]]
    graph = coo_matrix(([1] * len(arcs), ends), shape=(len(places), len(places)))
    _, part = connected_components(graph, directed=True, connection="strong")
    largest, _ = Counter(part).most_common(1)[0]
    kept = [place for place, label in zip(places, part) if label == largest]
    names = {place.name for place in kept}
    return kept, [arc for arc in arcs if arc.start in names and arc.end in names]


def check_limits(path: str, nodes: int, arcs: int, slowest: Arc) -> None:
    """Refuses what ridepool doesn't take, with the figure. `slowest` is the arc of most seconds."""
    if nodes > tables.MOST_NODES:
        raise Fault(f"{path}: {nodes} nodes, and ridepool takes {tables.MOST_NODES}: cut a smaller map")
    if arcs > tables.MOST_ARCS:
        raise Fault(f"{path}: {arcs} arcs, and ridepool takes {tables.MOST_ARCS}: cut a smaller map")
    if slowest.seconds > tables.MOST_SECONDS:
        figure = f"{slowest.seconds} seconds, and ridepool takes {tables.MOST_SECONDS}"
        raise Fault(f"{path}: street {slowest.street} takes {figure}")


def degrees_of(path: str, network: Net, places: List[Place]) -> List[Tuple[Optional[float], Optional[float]]]:
    """Longitude and latitude of each place, None for each where the map says nothing of them."""
    projection = network._location.get("projParameter", "!")
    if projection in ("!", "-", ""):
        return [(None, None)] * len(places)
    need("pyproj")
    try:
        return [network.convertXY2LonLat(place.x, place.y) for place in places]
    except Exception:
        raise Fault(f"{path}: not a projection: {projection}") from None


def as_nodes(places: Iterable[Place], degrees: Iterable[Tuple[Optional[float], Optional[float]]]) -> List[tables.Node]:
    """Places as nodes from 1 on."""
    numbered = enumerate(zip(places, degrees), 1)
    return [tables.Node(at, place.x, place.y, *lonlat, place.name) for at, (place, lonlat) in numbered]


@dataclass(frozen=True)
class Part:
    """What is kept of a map's places and arcs, and how many there were of both."""

    places: List[Place]
    arcs: List[Arc]
    all_places: int
    all_arcs: int


def tell(path: str, streets: int, cars: int, part: Part, names: Tuple[str, str]) -> None:
    """Says what was left out and why. `names` are what places and arcs are called."""
    print(f"{path}: {streets} streets")
    print(f"  left out: {streets - cars} that cars may not use")
    print(f"  left out: {part.all_arcs - len(part.arcs)} {names[1]} and {part.all_places - len(part.places)} "
          f"{names[0]} outside the largest part in which each reaches every other")


def kept_part(path: str, network: Net, by_turns: bool) -> Part:
    """What becomes the network, after it was said what doesn't."""
    streets, count = car_streets(network)
    if not streets:
        raise Fault(f"{path}: none of the {count} streets may be used by cars")
    places, arcs = turns(network, streets) if by_turns else crossings(streets)
    part = Part(*largest_part(places, arcs), len(places), len(arcs))
    tell(path, count, len(streets), part, ("streets", "turns") if by_turns else ("crossings", "streets"))
    if not part.arcs:
        raise Fault(f"{path}: no two of its {part.all_places} nodes reach each other by car")
    return part


def write(out: str, nodes: Sequence[tables.Node], rows: Sequence[Tuple[int, int, int]]) -> None:
    """Writes the two files and says what is in them."""
    network, places = os.path.join(out, "network.csv"), os.path.join(out, "nodes.csv")
    tables.write_table(network, tables.NETWORK, rows)
    tables.write_nodes(places, nodes)
    seconds = [row[2] for row in rows]
    print(f"{network}: {len(rows)} arcs of {min(seconds)} to {max(seconds)} seconds")
    degrees = "without" if nodes[0].lon is None else "with"
    print(f"{places}: {len(nodes)} nodes, {degrees} longitude and latitude")


def network_of(path: str, by_turns: bool) -> Tuple[List[tables.Node], List[Tuple[int, int, int]]]:
    """The nodes and the rows of the network that a map gives, after it was said what is left out."""
    need("sumolib", "scipy")
    network = read_map(path)
    part = kept_part(path, network, by_turns)
    check_limits(path, len(part.places), len(part.arcs), max(part.arcs, key=lambda arc: arc.seconds))
    nodes = as_nodes(part.places, degrees_of(path, network, part.places))
    node = {at.name: at.node for at in nodes}
    return nodes, sorted((node[arc.start], node[arc.end], arc.seconds) for arc in part.arcs)


def convert(arguments: List[str]) -> None:
    """The tool."""
    plain, values = split_words(arguments, ("edges",), USAGE)
    if len(plain) != 2:
        raise Fault(USAGE)
    path, out = plain
    write(out, *network_of(path, number(values, "edges", 0, 1, 0) == 1))


def main() -> None:
    """The command."""
    run_tool(convert, USAGE)
