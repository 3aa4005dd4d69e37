"""Reads a printed report of ridepool, of `run` or `drive`.

`read_report(path)` gives a Report: the settings, every command with its reply, and every closed batch with
its plan. Edges, vehicle-trip pairs and tree lines are only counted. What is no whole report is a Fault
with the number of the line.
"""

from collections import Counter
from dataclasses import dataclass, field
from typing import Counter as Counts, Dict, List, Optional, Sequence, Tuple

from ridepool.words import Fault

FIRST_LINE = "ridepool report 1"
FIELDS = {"submit": 4, "cancel": 1, "report": 3, "pickup": 3, "dropoff": 3, "seal": 1, "close": 1}
REPLIES = {"accepted", "cancelled", "placed", "picked", "dropped", "sealed", "closed", "refused"}
COUNTED = ("rv", "rr", "row", "branch", "leaf", "dead")


@dataclass(frozen=True)
class Entry:
    """A command with its reply. `party` counts for a submit alone."""

    round: int
    position: int
    lane: int
    command: str
    fields: Tuple[int, ...]
    party: int
    reply: str


@dataclass(frozen=True)
class Request:
    """An accepted submit."""

    rider: int
    origin: int
    destination: int
    second: int
    party: int


@dataclass(frozen=True)
class Stop:
    """A stop of a plan; `kind` is `pick` or `drop`."""

    kind: str
    rider: int
    node: int
    second: int


@dataclass(frozen=True)
class Trip:
    """The stops of a vehicle in their order, with their total delay; None where a late one has no order."""

    vehicle: int
    delay: Optional[int]
    stops: Tuple[Stop, ...]


@dataclass(frozen=True)
class Move:
    """An idle vehicle that is sent to the origin of a rider who was left out."""

    vehicle: int
    rider: int
    seconds: int


@dataclass
class Batch:
    """A closed batch. Cost, bound and nodes of the tree are None after an overflow.

    `second` is the seal's, `position` the close's; `counts` are the lines of edges, rows and the tree.
    """

    number: int
    second: int
    position: int
    overflow: bool = False
    expired: List[int] = field(default_factory=list)
    lapsed: List[int] = field(default_factory=list)
    out: List[int] = field(default_factory=list)
    late: List[Trip] = field(default_factory=list)
    trips: List[Trip] = field(default_factory=list)
    moves: List[Move] = field(default_factory=list)
    counts: Counts[str] = field(default_factory=Counter)
    cost: Optional[int] = None
    bound: Optional[int] = None
    nodes: Optional[int] = None

    def plans(self) -> List[Trip]:
        """What each vehicle does: chosen trips, and the orders of late vehicles."""
        return self.trips + [trip for trip in self.late if trip.delay is not None]


@dataclass
class Report:
    """A whole report. `day` are the totals that `drive` prints, empty for `run`."""

    settings: Dict[str, int]
    nodes: int
    arcs: int
    vehicles: int
    entries: List[Entry] = field(default_factory=list)
    batches: List[Batch] = field(default_factory=list)
    day: Dict[str, int] = field(default_factory=dict)

    def requests(self) -> Dict[int, Request]:
        """The accepted requests by rider."""
        submits = (e for e in self.entries if e.command == "submit" and e.reply == "accepted")
        return {e.fields[0]: request_of(e) for e in submits}


def request_of(entry: Entry) -> Request:
    """What a submit asks for."""
    rider, origin, destination, second = entry.fields
    return Request(rider, origin, destination, second, entry.party)


def stop_of(text: str) -> Stop:
    """A stop such as pick:1@2:60."""
    kind, rest = text.split(":", 1)
    rider, place = rest.split("@")
    node, second = place.split(":")
    if kind not in ("pick", "drop"):
        raise ValueError
    return Stop(kind, int(rider), int(node), int(second))


def trip_of(vehicle: str, delay: str, *stops: str) -> Trip:
    """What stands behind `trip` and `late`."""
    return Trip(int(vehicle), None if delay == "none" else int(delay), tuple(map(stop_of, stops)))


def pairs_of(words: Sequence[str], names: Sequence[str]) -> List[int]:
    """The numbers of words such as nodes=5 arcs=8, in the order of the names."""
    values = {key: int(value) for key, value in (word.split("=") for word in words)}
    return [values[name] for name in names]


def days_totals(words: Sequence[str]) -> Dict[str, int]:
    """The totals of the line `day picked 1 dropped 1 ..`."""
    return dict(zip(words[::2], map(int, words[1::2])))


def entry_of(number: int, words: Sequence[str]) -> Entry:
    """A command's line in a round: position, lane, command, fields, party where it isn't 1, reply."""
    position, lane, command, *rest = words
    count = FIELDS[command]
    fields, reply, party = rest[:count], rest[count:], 1
    if command == "submit" and reply[0].isdigit():
        party, reply = int(reply[0]), reply[1:]
    if len(fields) < count or not reply or reply[0] not in REPLIES:
        raise ValueError
    return Entry(number, int(position), int(lane), command, tuple(map(int, fields)), party, " ".join(reply))


class Reader:
    """Takes the lines of a report one after the other."""

    def __init__(self) -> None:
        self.report: Optional[Report] = None
        self.round = -1
        self.batch: Optional[Batch] = None
        self.seals: Dict[int, int] = {}
        self.done: Optional[int] = None

    @property
    def begun(self) -> Report:
        """The report, whose head was read."""
        if self.report is None:
            raise ValueError
        return self.report

    def head(self, lines: Sequence[str]) -> None:
        """The first four lines."""
        words = [line.split(" ") for line in lines]
        kinds = [line[0] for line in words]
        if kinds != ["ridepool", "settings", "network", "fleet"]:
            raise ValueError
        settings = {key: int(value) for key, value in (word.split("=") for word in words[1][1:])}
        nodes, arcs = pairs_of(words[2][1:], ("nodes", "arcs"))
        (vehicles,) = pairs_of(words[3][1:], ("vehicles",))
        self.report = Report(settings, nodes, arcs, vehicles)

    def line(self, text: str) -> object:
        """A line after the first four."""
        words = text.split(" ")
        if self.done is not None:
            raise ValueError
        if self.batch is not None:
            self.batch_line(self.batch, *words)
        elif words[0] == "round":
            self.round = int(words[1])
        elif words[0] == "batch":
            self.batch = self.opened(int(words[1]))
        elif words[0] == "day":
            self.begun.day = days_totals(words[1:])
        elif words[0] == "done":
            self.done = int(words[1])
        else:
            self.entry(entry_of(self.round, words))
        return None

    def entry(self, entry: Entry) -> None:
        """A command's line, whose position must be the next one."""
        if entry.position != len(self.begun.entries):
            raise ValueError
        if entry.command == "seal" and entry.reply.startswith("sealed "):
            self.seals[int(entry.reply.split(" ")[1])] = entry.fields[0]
        self.begun.entries.append(entry)

    def opened(self, number: int) -> Batch:
        """The block that follows a close."""
        close = self.begun.entries[-1]
        if close.command != "close" or close.fields[0] != number:
            raise ValueError
        return Batch(number, self.seals[number], close.position)

    def batch_line(self, batch: Batch, kind: str, *words: str) -> None:
        """A line of a batch's block."""
        if kind in COUNTED:
            batch.counts[kind] += 1
        elif kind in ("trip", "late"):
            (batch.trips if kind == "trip" else batch.late).append(trip_of(*words))
        elif kind in ("expired", "lapsed", "out"):
            getattr(batch, kind).append(int(words[0]))
        elif kind == "move":
            vehicle, rider, seconds = map(int, words)
            batch.moves.append(Move(vehicle, rider, seconds))
        elif kind in ("cost", "bound", "nodes"):
            setattr(batch, kind, int(words[0]))
        elif kind == "overflow":
            batch.overflow = True
        elif kind == "end":
            self.begun.batches.append(batch)
            self.batch = None
        else:
            raise ValueError

    def ended(self) -> Report:
        """The whole report."""
        if self.batch is not None or self.done != len(self.begun.entries):
            raise ValueError
        return self.begun


def whole_lines(path: str) -> List[str]:
    """The lines of a report, refused where it is something else or was cut."""
    try:
        with open(path, encoding="ascii") as file:
            lines = file.read().split("\n")
    except UnicodeDecodeError:
        raise Fault(f"{path}: not a report of ridepool: it is not plain ASCII text") from None
    if lines[0].startswith("load "):
        raise Fault(f"{path}: a summary of `load`, which has no commands; take a report of `run`")
    if lines[0] != FIRST_LINE:
        raise Fault(f"{path}: not a report of ridepool: its first line is not `{FIRST_LINE}`")
    if len(lines) < 6 or lines[-1] or not lines[-2].startswith("done "):
        raise Fault(f"{path}: the report is cut: its last line is not `done N`")
    return lines[:-1]


def read_report(path: str) -> Report:
    """The report in a file."""
    lines, reader, count = whole_lines(path), Reader(), 4
    try:
        reader.head(lines[:4])
        for count, line in enumerate(lines[4:], 5):
            reader.line(line)
        return reader.ended()
    except (ValueError, KeyError, IndexError, TypeError):
        raise Fault(f"{path}: line {count} is not one of a report") from None
