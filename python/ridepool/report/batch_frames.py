"""Frames of one batch: its edges, rows, trips and tree."""

from functools import cached_property
from typing import Any, Optional

import numpy as np
import pandas as pd

from ridepool.inputs.checks import Numbers
from ridepool.report.lines import Block, Lines, Table, key_of
from ridepool.report.reader import Batch, Trip

MOST_OF_ROW = 6
TREE_KEYS = {key_of(word): word for word in ("branch", "leaf", "dead")}
UNIT = 1024


def optional(values: Numbers) -> Any:
    """Whole numbers of which those below 0 are missing."""
    return pd.arrays.IntegerArray(np.where(values < 0, 0, values), values < 0)


def stops_frame(trips: "list[Trip]", kind: str = "trip") -> Any:
    """The stops of trips: vehicle, order from 1, stop (pick or drop), rider, node, second, cost."""
    rows = [(trip.vehicle, order, stop.kind, stop.rider, stop.node, stop.second, trip.delay)
            for trip in trips for order, stop in enumerate(trip.stops, 1)]
    return pd.DataFrame(rows, columns=["vehicle", "order", "stop", "rider", "node", "second", "cost"])


class BatchFrames:
    """A closed batch: `number`, `second` of the seal (seconds), `cost`, `bound` and `gap` (seconds), `nodes` of the tree,
    and its frames. They are made when they are asked for."""

    def __init__(self, batch: Batch, lines: Optional[Lines], block: Optional[Block]) -> None:
        self.batch, self._lines, self._block = batch, lines, block
        self.number, self.second, self.overflow = batch.number, batch.second, batch.overflow
        self.cost, self.bound, self.nodes = batch.cost, batch.bound, batch.nodes
        self.gap = None if self.cost is None or self.bound is None else self.cost - self.bound
        self.out, self.expired, self.lapsed = list(batch.out), list(batch.expired), list(batch.lapsed)

    def __repr__(self) -> str:
        return f"<batch {self.number} at second {self.second}>"

    def numbers(self, word: str) -> Table:
        """The numbers of the lines of a kind."""
        if self._lines is None or self._block is None:
            return Table(np.array([], dtype=np.int64), np.array([], dtype=np.int64))
        return self._lines.numbers(word, self._block)

    @cached_property
    def rv(self) -> Any:
        """Which vehicle can serve which rider alone: vehicle, rider."""
        table = self.numbers("rv")
        return pd.DataFrame({"vehicle": table.column(0), "rider": table.column(1)})

    @cached_property
    def rr(self) -> Any:
        """Which two riders an empty vehicle could serve together: rider, other."""
        table = self.numbers("rr")
        return pd.DataFrame({"rider": table.column(0), "other": table.column(1)})

    @cached_property
    def rows(self) -> Any:
        """Every trip that every vehicle can make: vehicle, cost (seconds of delay in all), size, and rider1 to rider6,
        missing behind the last. The position of a row counts from 0, as branches of the tree name it."""
        table = self.numbers("row")
        riders = {f"rider{k}": optional(table.column(k + 1)) for k in range(1, MOST_OF_ROW + 1)}
        return pd.DataFrame({"vehicle": table.column(0), "cost": table.column(1), "size": table.counts - 2, **riders})

    @cached_property
    def trips(self) -> Any:
        """The stops of the plan: vehicle, order, stop (pick or drop), rider, node, second, cost of the vehicle's trip
        (seconds)."""
        return stops_frame(self.batch.plans())

    @cached_property
    def moves(self) -> Any:
        """Idle vehicles that are sent towards riders who were left out: vehicle, rider, seconds of the way."""
        rows = [(move.vehicle, move.rider, move.seconds) for move in self.batch.moves]
        return pd.DataFrame(rows, columns=["vehicle", "rider", "seconds"])

    @cached_property
    def riders(self) -> Any:
        """The riders of the batch by rising number: those whom trips pick up, and those left out."""
        picked = {stop.rider for trip in self.batch.trips for stop in trip.stops if stop.kind == "pick"}
        return np.array(sorted(picked | set(self.batch.out)), dtype=np.int64)

    @cached_property
    def tree(self) -> Any:
        """The tree that shows the bound, where it was printed: node (from 0), parent (missing for the first), kind
        (branch, leaf or dead), and of a branch its vehicle and row. The part in which the vehicle takes the row comes
        right behind the branch."""
        if self._lines is None or self._block is None:
            return pd.DataFrame(columns=["node", "parent", "kind", "vehicle", "row"])
        keys = self._lines.keys[self._block.first:self._block.last].tolist()
        kinds = np.array([TREE_KEYS[key] for key in keys if key in TREE_KEYS], dtype=object)
        branch = self.numbers("branch")
        vehicle, row = np.full(len(kinds), -1), np.full(len(kinds), -1)
        vehicle[kinds == "branch"], row[kinds == "branch"] = branch.column(0), branch.column(1)
        return pd.DataFrame({"node": np.arange(len(kinds)), "parent": optional(parents(kinds)), "kind": kinds,
                             "vehicle": optional(vehicle), "row": optional(row)})

    @cached_property
    def multipliers(self) -> Any:
        """The multipliers of the tree's leaves: node of the tree, rider, multiplier (seconds)."""
        leaves = self.numbers("leaf")
        nodes = np.flatnonzero((self.tree["kind"] == "leaf").to_numpy())
        return pd.DataFrame({"node": np.repeat(nodes, leaves.counts),
                             "rider": np.tile(self.riders, len(leaves.counts))[:len(leaves.numbers)],
                             "multiplier": leaves.numbers / UNIT})


def parents(kinds: Any) -> Numbers:
    """The parent of each node of a tree that is told as a walk meets it, a branch before its two parts."""
    found, waiting = np.full(len(kinds), -1, dtype=np.int64), [-1]
    for node, kind in enumerate(kinds):
        found[node] = waiting.pop()
        if kind == "branch":
            waiting += [node, node]
    return found
