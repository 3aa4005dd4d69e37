"""Where nodes lie on the map, which is nearest to a place, and shortest ways between them."""

import heapq
import math
from typing import Collection, Dict, Iterable, List, Mapping, Optional, Sequence, Tuple

from ridepool.inputs.tables import Node

METRES_OF_A_DEGREE = 111_320.0
Place = Tuple[float, float]  # latitude and longitude in degrees, or y and x in metres


class Places:
    """The nodes of a network on the map: in degrees where all of them have longitude and latitude, else in metres."""

    def __init__(self, nodes: Sequence[Node], far: int) -> None:
        on_map = {it.node: (it.lat, it.lon) for it in nodes if it.lat is not None and it.lon is not None}
        self.degrees = len(on_map) == len(nodes)
        self.at = on_map if self.degrees else {it.node: (it.y, it.x) for it in nodes}
        self.names = {it.node: it.name for it in nodes if it.name}
        self.far = far
        middle = sum(lat for lat, _ in self.at.values()) / len(self.at)
        self.scale = self.scales(middle) if self.degrees else (1.0, 1.0)
        self.cells: Dict[Tuple[int, int], List[int]] = {}
        for node, place in self.at.items():
            self.cells.setdefault(self.cell(place), []).append(node)

    def keep(self, nodes: Collection[int]) -> None:
        """Forgets all nodes but these."""
        self.at = {node: place for node, place in self.at.items() if node in nodes}
        self.cells = {cell: [it for it in inside if it in nodes] for cell, inside in self.cells.items()}

    def scales(self, lat: float) -> Place:
        """Metres of a degree of latitude and of longitude."""
        return METRES_OF_A_DEGREE, METRES_OF_A_DEGREE * max(0.01, math.cos(math.radians(lat)))

    def metres(self, place: Place, other: Place) -> float:
        """The distance of two places, good enough for a town."""
        return math.hypot((place[0] - other[0]) * self.scale[0], (place[1] - other[1]) * self.scale[1])

    def cell(self, place: Place) -> Tuple[int, int]:
        """The square of the map with sides of `far` metres in which a place lies."""
        return (math.floor(place[0] * self.scale[0] / self.far), math.floor(place[1] * self.scale[1] / self.far))

    def nearest(self, place: Place) -> Optional[int]:
        """The node nearest to a place; None where none is within `far` metres."""
        row, column = self.cell(place)
        near = [node for i in (-1, 0, 1) for j in (-1, 0, 1) for node in self.cells.get((row + i, column + j), ())]
        distance, node = min(((self.metres(place, self.at[node]), node) for node in near), default=(math.inf, 0))
        return node if distance <= self.far else None


class Roads:
    """The streets of a network, each with its least seconds."""

    def __init__(self, rows: Iterable[Tuple[int, int, int]]) -> None:
        self.out: Dict[int, Dict[int, int]] = {}
        for start, end, seconds in rows:
            ends = self.out.setdefault(start, {})
            ends[end] = min(seconds, ends.get(end, seconds))
            self.out.setdefault(end, {})

    def way(self, start: int, goal: int) -> Optional[List[int]]:
        """The nodes of a shortest way by Dijkstra's search, both ends included; None where there is none."""
        before: Dict[int, int] = {}
        least, queue = {start: 0}, [(0, start)]
        while queue:
            seconds, node = heapq.heappop(queue)
            if node == goal:
                return self.walked(before, start, goal)
            if seconds > least[node]:
                continue
            for end, more in self.out[node].items():
                if end not in least or seconds + more < least[end]:
                    least[end], before[end] = seconds + more, node
                    heapq.heappush(queue, (seconds + more, end))
        return None

    def walked(self, before: Mapping[int, int], start: int, goal: int) -> List[int]:
        """The way that a search found."""
        way = [goal]
        while way[-1] != start:
            way.append(before[way[-1]])
        return way[::-1]
