"""The class Network: streets with their seconds, and where their nodes lie."""

import contextlib
import heapq
import importlib.util
import io
import os
import pathlib
import subprocess
import tempfile
from collections import OrderedDict
from functools import cached_property
from typing import Any, Mapping, Optional, Sequence

import numpy as np
import pandas as pd

from ridepool.faults import ProgramFailed, RefusedInput
from ridepool.inputs import limits
from ridepool.inputs.checks import Decimals, Numbers, Path, Table, read_csv

NO_WAY = -1
KEPT_NUMBERS = 50_000_000
EARTH = 6_371_000.0


def sumo_environment() -> "dict[str, str]":
    """The environment for SUMO's programs, which look for their files under SUMO_HOME."""
    return {"SUMO_HOME": "/usr/share/sumo", **os.environ}


class Network:
    """The streets of a town. Each leads one way and takes whole seconds.

    Make one by `from_csv`, `from_frame`, `from_sumo`, `from_osm_xml`, `from_networkx` or `made`.

    >>> net = Network.made(side=3, seed=1)
    >>> len(net), net.route(1, 3)
    (9, [1, 2, 3])
    >>> net.seconds(1, 3) == net.seconds(1, 2) + net.seconds(2, 3)
    True
    """

    def __init__(self, arcs: Table, nodes: Optional[Table] = None) -> None:
        arcs.need(limits.NETWORK)
        arcs.at_most(limits.MOST_ARCS, "streets")
        self.starts = arcs.whole("from", 0, limits.MOST_NUMBER)
        self.ends = arcs.whole("to", 0, limits.MOST_NUMBER)
        self.durations = arcs.whole("seconds", 0, limits.MOST_SECONDS)
        self.names: Numbers = np.unique(np.concatenate([self.starts, self.ends]))
        if len(self.names) > limits.MOST_NODES:
            raise RefusedInput(arcs.file, None, None, len(self.names), f"at most {limits.MOST_NODES} nodes")
        self.nodes = None if nodes is None else self._placed(nodes)
        self._kept: "OrderedDict[int, Numbers]" = OrderedDict()

    def __len__(self) -> int:
        """How many nodes there are."""
        return len(self.names)

    def __contains__(self, node: int) -> bool:
        """Whether a number is a node."""
        return node in self._positions

    @cached_property
    def _positions(self) -> "dict[int, int]":
        """The position of each node in `names`."""
        return {node: at for at, node in enumerate(self.names.tolist())}

    def __repr__(self) -> str:
        return f"<Network of {len(self)} nodes and {len(self.starts)} streets>"

    @classmethod
    def from_csv(cls, path: Path, nodes: Optional[Path] = None) -> "Network":
        """Reads network.csv (from, to, seconds), and nodes.csv (node, x, y, lon, lat, name) where it is named.

        A RefusedInput names file, line and column of what isn't taken.
        """
        return cls(read_csv(path, limits.NETWORK), None if nodes is None else read_csv(nodes, limits.NODES))

    @classmethod
    def from_frame(cls, arcs: Any, nodes: Any = None) -> "Network":
        """Takes a frame with the columns from, to, seconds (one row for each one-way street), and one with the columns
        node and lat, lon (degrees), or node and x, y (metres); name may stand there, too.

        >>> import pandas as pd
        >>> Network.from_frame(pd.DataFrame({"from": [1, 2], "to": [2, 1], "seconds": [60, 60]}))
        <Network of 2 nodes and 2 streets>
        """
        return cls(Table(arcs, "network"), None if nodes is None else Table(nodes, "nodes"))

    @classmethod
    def from_sumo(cls, path: Path, edges: bool = False) -> "Network":
        """Reads a street network of the SUMO simulator. With `edges` the middle of each street is a node, and each turn
        that is allowed is an arc. Needs the extra `maps`."""
        from ridepool.inputs import from_sumo

        with contextlib.redirect_stdout(io.StringIO()):
            nodes, rows = from_sumo.network_of(str(path), edges)
        arcs = pd.DataFrame(rows, columns=list(limits.NETWORK))
        return cls(Table(arcs, str(path)), Table(pd.DataFrame([vars(it) for it in nodes]), str(path)))

    @classmethod
    def from_osm_xml(cls, path: Path, edges: bool = False) -> "Network":
        """Reads an extract of OpenStreetMap. Needs SUMO's netconvert and the extra `maps`."""
        with tempfile.TemporaryDirectory(prefix="ridepool-map-") as folder:
            made = pathlib.Path(folder, "map.net.xml")
            words = ["netconvert", "--osm-files", str(path), "--output-file", str(made)]
            try:
                ran = subprocess.run(words, capture_output=True, text=True, check=False, env=sumo_environment())
            except FileNotFoundError:
                raise ProgramFailed("there is no netconvert: apt-get install sumo") from None
            if ran.returncode != 0 or not made.exists():
                said = [line for line in ran.stderr.splitlines() if line.startswith("Error")]
                raise RefusedInput(str(path), reason=f"netconvert: {said[0] if said else ran.returncode}")
            return cls.from_sumo(made, edges)

    @classmethod
    def from_networkx(cls, graph: Any, seconds: str = "seconds") -> "Network":
        """Takes a directed graph of networkx. `seconds` names the edges' attribute. Nodes are whole numbers; where they
        have lat and lon, or x and y, these are taken."""
        arcs = pd.DataFrame(list(graph.edges(data=seconds)), columns=list(limits.NETWORK))
        rows = [{"node": node, **data} for node, data in graph.nodes(data=True)]
        nodes = pd.DataFrame(rows)
        has_places = {"lat", "lon"} <= set(nodes.columns) or {"x", "y"} <= set(nodes.columns)
        return cls.from_frame(arcs, nodes if has_places else None)

    @classmethod
    def made(cls, side: int = 20, seed: int = 1) -> "Network":
        """A made town: a square of `side` by `side` crossings (2 to 100), a hundred metres apart, with 20 to 60 seconds
        from each to its neighbours, drawn by a seed."""
        if not 2 <= side <= 100:
            raise RefusedInput("network", None, "side", side, "a whole number from 2 to 100")
        node = np.arange(side * side).reshape(side, side)
        pairs = np.concatenate([np.stack([node[:, :-1].ravel(), node[:, 1:].ravel()], 1),
                                np.stack([node[:-1].ravel(), node[1:].ravel()], 1)]) + 1
        drawn = np.random.default_rng(seed).integers(20, 61, len(pairs))
        arcs = pd.DataFrame(np.concatenate([pairs, pairs[:, ::-1]]), columns=["from", "to"])
        arcs["seconds"] = np.concatenate([drawn, drawn])
        places = pd.DataFrame({"node": node.ravel() + 1, "x": 100.0 * (node.ravel() % side),
                               "y": -100.0 * (node.ravel() // side)})
        return cls.from_frame(arcs, places)

    def _placed(self, nodes: Table) -> Any:
        """The frame of places, by node, in the order of `names`."""
        nodes.need(["node"])
        number = nodes.whole("node", 0, limits.MOST_NUMBER)
        nodes.only_once("node", number)
        frame = pd.DataFrame(index=pd.Index(number, name="node"))
        for column in ("x", "y", "lon", "lat"):
            frame[column] = nodes.decimal(column) if column in nodes.frame.columns else np.nan
        frame["name"] = nodes.frame["name"].astype(str).to_numpy() if "name" in nodes.frame.columns else ""
        missing = np.setdiff1d(self.names, number)
        if len(missing):
            raise RefusedInput(nodes.file, None, "node", int(missing[0]), reason=f"node {missing[0]} isn't there")
        return frame.loc[self.names]

    @property
    def has_degrees(self) -> bool:
        """Whether each node has longitude and latitude."""
        return self.nodes is not None and not self.nodes[["lon", "lat"]].isna().to_numpy().any()

    @cached_property
    def plane(self) -> Decimals:
        """East and north of each node in metres, in the order of `names`. A RefusedInput where places aren't known."""
        if self.nodes is None:
            raise RefusedInput("network", reason="where the nodes lie isn't known: give nodes=")
        if self.has_degrees:
            return self.metres(self.nodes["lat"].to_numpy(), self.nodes["lon"].to_numpy())
        places = self.nodes[["x", "y"]].to_numpy(dtype=np.float64)
        if np.isnan(places).any():
            raise RefusedInput("nodes", reason="neither lat and lon nor x and y stand for each node")
        return np.asarray(places, dtype=np.float64)

    def metres(self, lat: Any, lon: Any) -> Decimals:
        """East and north in metres of places in degrees; of places in metres (y, x) these themselves."""
        lat, lon = np.atleast_1d(np.asarray(lat, float)), np.atleast_1d(np.asarray(lon, float))
        if not self.has_degrees:
            return np.stack([lon, lat], 1)
        middle = np.radians(self.nodes["lat"].mean()) if self.nodes is not None else 0.0
        places: Decimals = np.stack([np.radians(lon) * np.cos(middle), np.radians(lat)], 1) * EARTH
        return places

    def nearest(self, lat: float, lon: float) -> int:
        """The node nearest to a place, by degrees; by metres (y, x) where the nodes have no degrees.

        >>> Network.made(side=3, seed=1).nearest(-90.0, 210.0)
        6
        """
        apart = ((self.plane - self.metres(lat, lon)) ** 2).sum(axis=1)
        return int(self.names[int(np.argmin(apart))])

    def nearest_of(self, lat: Any, lon: Any) -> "tuple[Numbers, Decimals]":
        """The nearest node of each of many places, and how many metres it is away."""
        places = self.metres(lat, lon)
        if importlib.util.find_spec("scipy") is not None:
            from scipy.spatial import cKDTree

            apart, at = cKDTree(self.plane).query(places)
            return self.names[at], np.asarray(apart, dtype=np.float64)
        squares = [((self.plane - place) ** 2).sum(axis=1) for place in places]
        at = np.array([int(np.argmin(it)) for it in squares], dtype=np.int64)
        return self.names[at], np.sqrt(np.array([it[k] for it, k in zip(squares, at)]))

    def index(self, node: int) -> int:
        """The position of a node in `names`. A RefusedInput where there is no such node."""
        at = self._positions.get(node)
        if at is None:
            raise RefusedInput("network", None, "node", node, "a node of the network")
        return at

    def seconds(self, start: int, end: int) -> Optional[int]:
        """The least seconds from node to node along the streets; None where there is no way. It is exact.

        A RefusedInput where one of the two is no node.
        """
        found = int(self.seconds_from(start)[self.index(end)])
        return None if found == NO_WAY else found

    def seconds_from(self, start: int) -> Numbers:
        """The least seconds from a node to each node, in the order of `names`; -1 where there is no way."""
        at = self.index(start)
        if at in self._kept:
            self._kept.move_to_end(at)
            return self._kept[at]
        found = self._search([at])[0]
        self._keep(at, found)
        return found

    def seconds_to(self, end: int) -> Numbers:
        """The least seconds to a node from each node, in the order of `names`; -1 where there is no way. It is exact.

        >>> net = Network.made(side=3, seed=1)
        >>> int(net.seconds_to(9)[0]) == net.seconds(1, 9)
        True
        """
        at = self.index(end)
        if -1 - at not in self._kept:
            self._keep(-1 - at, self._back._search([at])[0])
        self._kept.move_to_end(-1 - at)
        return self._kept[-1 - at]

    @cached_property
    def _back(self) -> "Network":
        """The same streets the other way round. It has the same nodes in the same order."""
        columns = dict(zip(limits.NETWORK, (self.ends, self.starts, self.durations)))
        return Network.from_frame(pd.DataFrame(columns))

    @cached_property
    def islands(self) -> "list[Numbers]":
        """The parts of the network in each of which every node reaches every other, as their nodes, the largest first. A
        rider from one to another may have no way there, or none back. Needs scipy.

        >>> [len(island) for island in Network.made(side=3, seed=1).islands]
        [9]
        """
        from scipy.sparse.csgraph import connected_components

        count, labels = connected_components(self._graph, directed=True, connection="strong")
        return sorted((self.names[labels == label] for label in range(count)), key=lambda nodes: (-len(nodes), nodes[0]))

    def largest_island(self) -> "Network":
        """The network of the largest island alone: its nodes with their places, and the streets between them."""
        inside = np.isin(self.starts, self.islands[0]) & np.isin(self.ends, self.islands[0])
        arcs = pd.DataFrame(dict(zip(limits.NETWORK, (self.starts[inside], self.ends[inside], self.durations[inside]))))
        nodes = None if self.nodes is None else self.nodes.loc[self.islands[0]].reset_index()
        return Network.from_frame(arcs, nodes)

    def _keep(self, at: int, found: Numbers) -> None:
        """Keeps what a search found, and forgets what wasn't asked for longest. Searches to a node are below 0."""
        self._kept[at] = found
        if len(self._kept) > max(16, KEPT_NUMBERS // max(1, len(self))):
            self._kept.popitem(last=False)

    def seconds_of(self, starts: Sequence[int], ends: Sequence[int]) -> Numbers:
        """The least seconds of many pairs of nodes, -1 where there is no way."""
        froms, tos = (np.searchsorted(self.names, np.asarray(it, dtype=np.int64)) for it in (starts, ends))
        result = np.full(len(froms), NO_WAY, dtype=np.int64)
        order = np.argsort(froms, kind="stable")
        groups = np.split(order, np.flatnonzero(np.diff(froms[order])) + 1) if len(order) else []
        for group in groups:
            result[group] = self.seconds_from(int(self.names[froms[group[0]]]))[tos[group]]
        return result

    @cached_property
    def _least(self) -> "tuple[Numbers, Numbers, Numbers]":
        """Each pair of neighbours once, by positions, with its least seconds."""
        starts, ends = np.searchsorted(self.names, self.starts), np.searchsorted(self.names, self.ends)
        order = np.lexsort((self.durations, ends, starts))
        starts, ends, seconds = starts[order], ends[order], self.durations[order]
        first = np.ones(len(starts), dtype=bool)
        first[1:] = (np.diff(starts) != 0) | (np.diff(ends) != 0)
        return starts[first], ends[first], seconds[first]

    @cached_property
    def _graph(self) -> Any:
        """The streets for scipy's search."""
        from scipy.sparse import csr_matrix

        starts, ends, seconds = self._least
        return csr_matrix((seconds.astype(np.float64), (starts, ends)), shape=(len(self), len(self)))

    @cached_property
    def hops(self) -> "list[list[tuple[int, int]]]":
        """For each position the neighbours with their seconds, in the order of the rows."""
        found: "list[list[tuple[int, int]]]" = [[] for _ in range(len(self))]
        starts, ends = np.searchsorted(self.names, self.starts), np.searchsorted(self.names, self.ends)
        for start, end, seconds in zip(starts.tolist(), ends.tolist(), self.durations.tolist()):
            found[start].append((end, seconds))
        return found

    def _search(self, starts: Sequence[int]) -> "list[Numbers]":
        """The least seconds from positions to all."""
        if importlib.util.find_spec("scipy") is None:
            return [self._plain_search(start) for start in starts]
        from scipy.sparse.csgraph import dijkstra

        found = dijkstra(self._graph, indices=list(starts))
        return list(np.where(np.isinf(found), NO_WAY, found).astype(np.int64))

    def _plain_search(self, start: int) -> Numbers:
        """The least seconds from a position to all, where scipy isn't there."""
        least, queue = np.full(len(self), NO_WAY, dtype=np.int64), [(0, start)]
        while queue:
            seconds, at = heapq.heappop(queue)
            if least[at] != NO_WAY:
                continue
            least[at] = seconds
            for end, more in self.hops[at]:
                if least[end] == NO_WAY:
                    heapq.heappush(queue, (seconds + more, end))
        return least

    def walk(self, start: int, end: int) -> "list[tuple[int, int]]":
        """The nodes of the shortest way that a driven vehicle takes, each with its seconds from the start; nothing where
        there is no way."""
        least, first, last = self.seconds_from(start), self.index(start), self.index(end)
        if least[last] == NO_WAY:
            return []
        before = self._tree(least, first, last)
        way = [last]
        while way[-1] != first:
            way.append(before[way[-1]])
        return [(int(self.names[at]), int(least[at])) for at in reversed(way)]

    def _tree(self, least: Numbers, first: int, last: int) -> Mapping[int, int]:
        """Of each position on a shortest way from the first, the one before, as a search by breadth finds them until
        it has found the last. The program does the same, so that vehicles take the same ways."""
        before, queue = {first: first}, [first]
        for at in queue:
            if last in before:
                break
            for end, seconds in self.hops[at]:
                on_way = least[at] + seconds == least[end] <= least[last]
                if on_way and end not in before:
                    before[end] = at
                    queue.append(end)
        return before

    def route(self, start: int, end: int) -> "list[int]":
        """The nodes of a shortest way, both ends included; nothing where there is no way."""
        return [node for node, _ in self.walk(start, end)]

    def csv(self) -> str:
        """The network as a text of network.csv."""
        columns = (self.starts, self.ends, self.durations)
        return str(pd.DataFrame(dict(zip(limits.NETWORK, columns))).to_csv(index=False))

    def place(self, node: int) -> str:
        """A node with its name, where it has one."""
        name = "" if self.nodes is None else str(self.nodes.at[node, "name"])
        return f"node {node} ({name})" if name else f"node {node}"
