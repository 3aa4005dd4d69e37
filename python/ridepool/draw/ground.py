"""Where nodes lie, which streets join them, and where vehicles were, for the pictures that need it."""

from __future__ import annotations

from dataclasses import dataclass
from typing import Dict, List, Mapping, Optional, Sequence, Tuple

from ridepool.inputs import tables
from ridepool.inputs.streets import Streets
from ridepool.report.reader import Report
from ridepool.words import Fault, number

Point = Tuple[float, float]


def streets_of(report: Report, values: Mapping[str, str]) -> Optional[Streets]:
    """The streets of the word network=, None where it isn't there."""
    if "network" not in values:
        return None
    rows = tables.read_network(values["network"])
    count = len({node for start, end, _ in rows for node in (start, end)})
    if (count, len(rows)) != (report.nodes, report.arcs):
        raise Fault(f"{values['network']}: {count} nodes and {len(rows)} arcs, and the report's network "
                    f"has {report.nodes} and {report.arcs}")
    return Streets(rows)


def places_of(report: Report, values: Mapping[str, str]) -> Dict[int, Point]:
    """Where each node lies, by the word nodes= or made=1."""
    if number(values, "made", 0, 1, 0):
        if "nodes" in values:
            raise Fault("made=1 and nodes= stand there both")
        nodes = tables.square_nodes(report.nodes)
    elif "nodes" in values:
        nodes = tables.read_nodes(values["nodes"])
    else:
        raise Fault("a batch's map needs nodes=nodes.csv, or made=1 for a made network")
    return {node.node: (node.x, node.y) for node in nodes}


@dataclass(frozen=True)
class Ground:
    """All that a map stands on. `begin` are the nodes of a fleet's file."""

    places: Dict[int, Point]
    streets: Streets
    begin: Dict[int, int]

    @staticmethod
    def of(report: Report, values: Mapping[str, str]) -> Ground:
        """The ground that the words name."""
        places, streets = places_of(report, values), streets_of(report, values)
        if streets is None:
            raise Fault("a batch's map needs network=network.csv")
        for node in streets.names:
            if node not in places:
                raise Fault(f"{values.get('nodes', 'made=1')}: node {node} of the network is not there")
        return Ground(places, streets, tables.read_fleet(values["fleet"]) if "fleet" in values else {})

    def vehicles_before(self, report: Report, position: int) -> Dict[int, int]:
        """The node of each vehicle before a position, as far as the fleet's file and the report tell."""
        nodes, requests = dict(self.begin), report.requests()
        for entry in report.entries[:position]:
            if entry.reply == "placed":
                nodes[entry.fields[0]] = entry.fields[1]
            elif entry.reply == "picked":
                nodes[entry.fields[0]] = requests[entry.fields[1]].origin
            elif entry.reply == "dropped":
                nodes[entry.fields[0]] = requests[entry.fields[1]].destination
        return nodes

    def line(self, nodes: Sequence[int]) -> List[Point]:
        """A line along shortest ways through nodes, as points."""
        points = [self.places[node] for node in nodes[:1]]
        for start, end in zip(nodes, nodes[1:]):
            points += [self.places[node] for node in self.streets.way(start, end)[1:]]
        return points
