"""Shortest ways over the streets, each searched once: for the pages' maps and for the demo's drivers."""

from __future__ import annotations

from typing import Dict, Iterable, List, Optional, Tuple

from ridepool.inputs.roads import Roads

MOST_KEPT = 100_000


class Ways:
    """The ways over roads that were asked for so far. What is left of a shortest way from each node on it is kept with it."""

    def __init__(self, roads: Roads) -> None:
        self.roads = roads
        self.kept: Dict[Tuple[int, int], Tuple[List[int], int]] = {}

    def way(self, start: int, goal: int) -> Optional[List[int]]:
        """The nodes of a shortest way, both ends included; None where there is none."""
        way, at = self.kept.get((start, goal), (None, 0))
        if way is None:
            way = self.roads.way(start, goal)
            if way is not None:
                self.keep(way)
        return None if way is None else way[at:]

    def keep(self, way: List[int]) -> None:
        """Keeps a way that was found."""
        if len(self.kept) >= MOST_KEPT:
            self.kept.clear()
        self.kept.update({(node, way[-1]): (way, at) for at, node in enumerate(way[:-1])})

    def all(self, pairs: Iterable[Tuple[int, int]]) -> List[Optional[List[int]]]:
        """The ways of these pairs in their order."""
        return [self.way(start, goal) for start, goal in pairs]
