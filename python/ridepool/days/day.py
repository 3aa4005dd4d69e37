"""The class Day: what a report tells, as frames, figures and lists for drivers."""

import pathlib
from functools import cached_property
from typing import Any, Mapping, Optional, Sequence, Set

import numpy as np
import pandas as pd

from ridepool.faults import RefusedInput
from ridepool.inputs import tables
from ridepool.inputs.checks import Path
from ridepool.inputs.fleet import Fleet
from ridepool.inputs.network import Network
from ridepool.report.batch_frames import BatchFrames
from ridepool.report.lines import Lines
from ridepool.report.marks import marks_of
from ridepool.report.measure import Day as Walk, measure
from ridepool.report.reader import Entry, Report
from ridepool.report.riders import Rider, Riders
from ridepool.report.script_of import script_of

WHOLE = "Int64"
RIDER_COLUMNS = ("rider", "persons", "origin", "destination", "request", "promised", "pickup", "dropoff", "wait", "delay",
                 "vehicle", "state", "why_out")
STOP_COLUMNS = ("vehicle", "order", "stop", "rider", "node", "second", "persons", "aboard")
REPLY_COLUMNS = ("position", "round", "lane", "command", "rider", "vehicle", "origin", "destination", "node", "second",
                 "persons", "batch", "reply")
BATCH_COLUMNS = ("batch", "second", "overflow", "served", "left_out", "expired", "lapsed", "late", "moves", "rv", "rr",
                 "rows", "cost", "bound", "gap", "nodes")
MOVE_COLUMNS = ("batch", "vehicle", "rider", "seconds")
FIELDS = {
    "submit": ("rider", "origin", "destination", "second"),
    "cancel": ("rider",),
    "report": ("vehicle", "node", "second"),
    "pickup": ("vehicle", "rider", "second"),
    "dropoff": ("vehicle", "rider", "second"),
    "seal": ("second",),
    "close": ("batch",),
}


def frame_of(rows: "Sequence[tuple[Any, ...]]", columns: Sequence[str], texts: Sequence[str] = ()) -> Any:
    """A frame of whole numbers, which may be missing, and of texts in the columns named."""
    frame = pd.DataFrame(rows, columns=list(columns), dtype=object)
    return frame.astype({column: WHOLE for column in columns if column not in texts})


class Day:
    """A day that was driven, run or simulated, as frames. Each frame is made when it is first asked for.

    `net` and `fleet` are those of the day. `report` is the report, read. `text` is it as it was printed, None of a
    simulated day.
    """

    def __init__(self, net: Network, fleet: Fleet, report: Report, lines: Optional[Lines] = None, zero: Any = None,
                 policy: str = "ridepool", reached: "Optional[Mapping[int, Set[int]]]" = None) -> None:
        self.net, self.fleet, self.report, self.zero, self.policy = net, fleet, report, zero, policy
        self._lines, self._known = lines, reached
        self._batches = {batch.number: k for k, batch in enumerate(report.batches)}

    def __repr__(self) -> str:
        return f"<Day of {len(self.report.requests())} riders, {len(self.report.batches)} batches, by {self.policy}>"

    @classmethod
    def from_file(cls, path: Path, net: Network, fleet: Fleet) -> "Day":
        """Reads a printed report of `run` or `drive`. What is none is a RefusedInput with the line."""
        return cls.from_bytes(pathlib.Path(path).read_bytes(), net, fleet, str(path))

    @classmethod
    def from_bytes(cls, text: bytes, net: Network, fleet: Fleet, file: str = "report", zero: Any = None) -> "Day":
        """Reads a printed report."""
        lines = Lines(np.frombuffer(text, dtype=np.uint8), file)
        return cls(net, fleet, lines.report(), lines, zero)

    @property
    def text(self) -> Optional[str]:
        """The report as it was printed, None of a simulated day."""
        return None if self._lines is None else bytes(self._lines.text).decode("ascii")

    def save(self, path: Path) -> None:
        """Writes the report into a file."""
        if self._lines is None:
            raise RefusedInput("report", reason="a simulated day has no printed report")
        pathlib.Path(path).write_bytes(bytes(self._lines.text))

    @cached_property
    def script(self) -> str:
        """The script whose run the day is, as a text of script.csv, with the lanes of the report: `audit` judges the report
        by it."""
        return tables.table_text(*script_of(self.report, False))

    @cached_property
    def script_in_order(self) -> str:
        """The script in one lane: a `run` of it takes the commands in the order in which they stand in the report. Of a
        day that `drive` has driven from Requests both scripts are the same."""
        return tables.table_text(*script_of(self.report, True))

    def batch(self, number: int) -> BatchFrames:
        """The frames of a batch, by its number from 1. A RefusedInput where there is none."""
        if number not in self._batches:
            raise RefusedInput("report", None, "batch", number, f"a batch from 1 to {len(self._batches)}")
        at = self._batches[number]
        block = None if self._lines is None else self._lines.blocks[at]
        return BatchFrames(self.report.batches[at], self._lines, block)

    @cached_property
    def _riders(self) -> "dict[int, Rider]":
        """What came of each rider."""
        if self._lines is not None:
            self._known = {number: set(self.batch(number).rv["rider"].tolist()) for number in self._batches}
        return Riders(self._known).walk(self.report)

    @cached_property
    def _direct(self) -> "dict[int, int]":
        """The least seconds of each rider's ride; -1 where there is no way."""
        riders = list(self._riders.values())
        seconds = self.net.seconds_of([it.origin for it in riders], [it.destination for it in riders])
        return {it.rider: found for it, found in zip(riders, seconds.tolist())}

    def _row_of(self, it: Rider) -> "tuple[Any, ...]":
        """A rider's row."""
        wait = None if it.pickup is None else it.pickup - it.request
        delay = None if it.dropoff is None else max(0, it.dropoff - it.request - self._direct[it.rider])
        return (it.rider, it.persons, it.origin, it.destination, it.request, it.promised, it.pickup, it.dropoff, wait,
                delay, it.vehicle, it.state, it.why_out())

    @cached_property
    def riders(self) -> Any:
        """Each accepted request, in the order of the report: rider, persons, origin, destination, request (second),
        promised (the second of the pickup that was promised first), pickup, dropoff (seconds), wait, delay (seconds),
        vehicle, state, why_out. What didn't happen is missing."""
        rows = [self._row_of(it) for it in self._riders.values()]
        return frame_of(rows, RIDER_COLUMNS, ("state", "why_out"))

    @cached_property
    def stops(self) -> Any:
        """The stops that were made, by vehicle: vehicle, order from 1, stop (pick or drop), rider, node, second, persons
        of the rider, aboard (persons in the vehicle behind the stop)."""
        of: "dict[int, list[tuple[Any, ...]]]" = {}
        aboard: "dict[int, int]" = {}
        for entry in self.report.entries:
            if entry.reply not in ("picked", "dropped"):
                continue
            vehicle, number, second = entry.fields
            rider, is_pick, rows = self._riders[number], entry.reply == "picked", of.setdefault(vehicle, [])
            aboard[vehicle] = aboard.get(vehicle, 0) + (rider.persons if is_pick else -rider.persons)
            rows.append((vehicle, len(rows) + 1, "pick" if is_pick else "drop", number,
                         rider.origin if is_pick else rider.destination, second, rider.persons, aboard[vehicle]))
        return frame_of([row for vehicle in sorted(of) for row in of[vehicle]], STOP_COLUMNS, ("stop",))

    @cached_property
    def vehicles(self) -> Any:
        """Each vehicle of the fleet: vehicle, seats, node and second of its begin, riders and persons whom it took,
        driven and empty (seconds in all, and without a person aboard), last_node and last_second (where it was last
        reported or stopped)."""
        taken = self.stops[self.stops["stop"] == "pick"].groupby("vehicle")["persons"].agg(["count", "sum"])
        last = self._last()
        nodes = self.fleet.nodes(self.net).tolist()
        rows = []
        for vehicle, seats, node, second in zip(self.fleet.vehicles.tolist(), self.fleet.seats.tolist(), nodes,
                                                self.fleet.seconds.tolist()):
            riders, persons = taken.loc[vehicle] if vehicle in taken.index else (0, 0)
            driven, empty = self._driven.get(vehicle, (0, 0))
            rows.append((vehicle, seats, node, second, riders, persons, driven, empty, *last.get(vehicle, (node, second))))
        return frame_of(rows, ("vehicle", "seats", "node", "second", "riders", "persons", "driven", "empty", "last_node",
                               "last_second"))

    @cached_property
    def _driven(self) -> "dict[int, tuple[int, int]]":
        """What each vehicle drove, in seconds: in all, and empty."""
        walk = Walk(self.report).walk()
        return {vehicle: (it.driven, it.empty) for vehicle, it in walk.by_vehicle.items()}

    def _last(self) -> "dict[int, tuple[int, int]]":
        """Where each vehicle was last reported or stopped, and when."""
        last: "dict[int, tuple[int, int]]" = {}
        for entry in self.report.entries:
            if entry.reply == "placed":
                last[entry.fields[0]] = (entry.fields[1], entry.fields[2])
            elif entry.reply in ("picked", "dropped"):
                rider = self._riders[entry.fields[1]]
                node = rider.origin if entry.reply == "picked" else rider.destination
                last[entry.fields[0]] = (node, entry.fields[2])
        return last

    @cached_property
    def batches(self) -> Any:
        """Each closed batch: batch, second of its seal, overflow, served (riders whom trips pick up), left_out, expired,
        lapsed, late (vehicles), moves, rv, rr, rows (how many lines), cost, bound, gap (seconds), nodes of the tree."""
        rows = []
        for it in self.report.batches:
            served = sum(stop.kind == "pick" for trip in it.trips for stop in trip.stops)
            gap = None if it.cost is None or it.bound is None else it.cost - it.bound
            counts = [len(it.out), len(it.expired), len(it.lapsed), len(it.late), len(it.moves)]
            kinds = [it.counts[word] for word in ("rv", "rr", "row")]
            rows.append((it.number, it.second, it.overflow, served, *counts, *kinds, it.cost, it.bound, gap, it.nodes))
        return frame_of(rows, BATCH_COLUMNS, ("overflow",)).astype({"overflow": bool})

    @cached_property
    def replies(self) -> Any:
        """Each command with its reply: position, round, lane, command, then what the command names (rider, vehicle,
        origin, destination, node, second, persons, batch; missing where it names none), reply."""
        return frame_of([reply_row(entry) for entry in self.report.entries], REPLY_COLUMNS, ("command", "reply"))

    @cached_property
    def moves(self) -> Any:
        """Idle vehicles that were sent towards riders who were left out: batch, vehicle, rider, seconds of the way."""
        rows = [(batch.number, move.vehicle, move.rider, move.seconds)
                for batch in self.report.batches for move in batch.moves]
        return frame_of(rows, MOVE_COLUMNS)

    def measures(self) -> "dict[str, float]":
        """The day in numbers. Their units stand in docs/python/columns.md.

        Of requests: requests, served, share (of 1), refused, over_seats (of more persons than any vehicle has seats),
        shared (riders who shared a vehicle). Of persons: persons, persons_served, persons_share, aboard (the mean in a
        vehicle between the first and the last seal). Seconds of riders, not a number where nobody was served: mean_wait,
        p95_wait, mean_delay, p95_delay, mean_in_car, p95_in_car (the delay less the wait). Seconds of vehicles:
        empty_seconds, which are approach_seconds and rebalancing_seconds; driven_seconds; driven_a_vehicle. Of batches:
        batches, overflows, open (those whose bound is below the cost), largest_gap (percent of the cost)."""
        return measures_of(self.facts, int(self.fleet.seats.max()) if len(self.fleet) else 0)

    @cached_property
    def facts(self) -> "dict[str, Any]":
        """What the measures are made of: each rider's seconds, and counts that add up over days."""
        return measure(self.report, self._direct)

    @property
    def refusals(self) -> "dict[str, int]":
        """How many requests were refused, by the book's reason."""
        return dict(self.facts["refused"])

    @property
    def aboard_by_minute(self) -> "list[float]":
        """Persons in a vehicle, the mean over the fleet in each minute up to the last seal."""
        vehicles = max(1, self.facts["vehicles"])
        return [seconds / 60 / vehicles for seconds in self.facts["minutes"]]

    @property
    def marks(self) -> "list[str]":
        """Why the measures must not be taken as they stand: batches overflowed, or more than one of a hundred requests
        were refused. Nothing where neither is so."""
        facts = self.facts
        return marks_of(facts["requests"], facts["refused"], facts["batches"], facts["overflows"])

    def draw(self, batch: Optional[int] = None, service: bool = False) -> Any:
        """A figure of matplotlib: the day of the vehicles, or the map of a batch, or how well each batch serves its
        riders. The map needs the places of the nodes. Needs the extra `plots`."""
        from ridepool.days import figures

        return figures.figure_of(self, batch, service)

    def run_sheet(self, vehicle: int, zone: Optional[str] = None) -> str:
        """A driver's list of a vehicle's stops, to print. With `zone`, as "Europe/Zurich", and a day whose requests had
        moments, times are those of that zone; else they are hours, minutes and seconds from second 0."""
        from ridepool.days.run_sheet import sheet_of

        return sheet_of(self, vehicle, zone)


def reply_row(entry: Entry) -> "tuple[Any, ...]":
    """The row of a command."""
    named = dict(zip(FIELDS[entry.command], entry.fields))
    if entry.command == "submit":
        named["persons"] = entry.party
    return (entry.position, entry.round, entry.lane, entry.command, *(named.get(column) for column in REPLY_COLUMNS[4:12]),
            entry.reply)


def spread(name: str, values: Any) -> "dict[str, float]":
    """The mean of some seconds, and what 95 of 100 don't exceed."""
    values = np.sort(values)
    at = -(-len(values) * 95 // 100) - 1
    return {f"mean_{name}": float(values.mean()) if len(values) else float("nan"),
            f"p95_{name}": float(values[at]) if len(values) else float("nan")}


def part(some: float, whole: float, none: float = float("nan")) -> float:
    """A part of a whole."""
    return some / whole if whole else none


def measures_of(facts: Mapping[str, Any], seats: int) -> "dict[str, float]":
    """The facts of a day as single numbers. `seats` are those of the fleet's largest vehicle."""
    served, vehicles = len(facts["waits"]), facts["vehicles"]
    found = {"requests": facts["requests"], "served": served, "share": part(served, facts["requests"]),
             **spread("wait", facts["waits"]), **spread("delay", facts["delays"]), **spread("in_car", facts["rides"]),
             "shared": facts["shared"], "aboard": part(facts["aboard_seconds"], facts["vehicle_seconds"], 0.0)}
    names = ("empty_seconds", "approach_seconds", "rebalancing_seconds", "driven_seconds", "batches", "overflows", "open")
    found.update({name: facts[name] for name in names})
    found["driven_a_vehicle"] = part(facts["driven_seconds"], vehicles)
    found["largest_gap"] = facts["gap"]
    found.update({name: facts[name] for name in ("persons", "persons_served")})
    found["persons_share"] = part(facts["persons_served"], facts["persons"])
    found["refused"] = sum(facts["refused"].values())
    found["over_seats"] = sum(times for persons, times in facts["parties"].items() if int(persons) > seats)
    return found
