"""Shortest ways over the streets of a network, by scipy's Dijkstra search."""

import math
from typing import Any, Dict, Iterable, List, Sequence, Tuple

from ridepool.words import Fault

CHUNK = 64


class Streets:
    """A network as a graph of least seconds."""

    def __init__(self, rows: Sequence[Tuple[int, int, int]]) -> None:
        from scipy.sparse import csr_matrix

        self.names = sorted({node for start, end, _ in rows for node in (start, end)})
        self.index = {node: at for at, node in enumerate(self.names)}
        least: Dict[Tuple[int, int], int] = {}
        for start, end, seconds in rows:
            arc = self.index[start], self.index[end]
            least[arc] = min(seconds, least.get(arc, seconds))
        starts, ends = [start for start, _ in least], [end for _, end in least]
        count = len(self.names)
        self.graph: Any = csr_matrix((list(map(float, least.values())), (starts, ends)), shape=(count, count))

    def at(self, node: int) -> int:
        """The index of a node."""
        if node not in self.index:
            raise Fault(f"node {node} of the report is not in the network")
        return self.index[node]

    def times(self, pairs: Iterable[Tuple[int, int]]) -> Dict[Tuple[int, int], float]:
        """The least seconds of each pair of nodes; infinite where there is no way."""
        from scipy.sparse.csgraph import dijkstra

        ends: Dict[int, List[Tuple[int, int]]] = {}
        for start, end in pairs:
            ends.setdefault(self.at(start), []).append((start, end))
        starts = sorted(ends)
        times: Dict[Tuple[int, int], float] = {}
        for first in range(0, len(starts), CHUNK):
            chunk = starts[first:first + CHUNK]
            for here, seconds in zip(chunk, dijkstra(self.graph, indices=chunk)):
                times.update({pair: float(seconds[self.at(pair[1])]) for pair in ends[here]})
        return times

    def way(self, start: int, end: int, limit: float = math.inf) -> List[int]:
        """The nodes of a shortest way, both ends included; nothing where none has `limit` seconds or less."""
        from scipy.sparse.csgraph import dijkstra

        seconds, before = dijkstra(
            self.graph, indices=self.at(start), return_predecessors=True, limit=limit)
        here, goal = self.at(start), self.at(end)
        if seconds[goal] > limit or math.isinf(seconds[goal]):
            return []
        way = [goal]
        while way[-1] != here:
            way.append(int(before[way[-1]]))
        return [self.names[at] for at in reversed(way)]
