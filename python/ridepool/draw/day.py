"""A day: vehicles down the side, seconds along, a bar as thick as the persons aboard.

Pickups and drop-offs are drawn as they were entered, and after them what the last plan of a vehicle still
holds. A report without any entered stop shows each batch's plan up to the next batch.
"""

from dataclasses import dataclass
from typing import Any, Dict, Iterable, Iterator, List, Mapping, Sequence, Tuple

from matplotlib.collections import LineCollection, PolyCollection
from matplotlib.lines import Line2D
from matplotlib.patches import Patch

from ridepool.draw import style
from ridepool.report.reader import Report, Request, Trip
from ridepool.words import Fault

WIDTH, MOST_HEIGHT, ROW_HEIGHT, HEAD = 10.0, 16.0, 0.34, 1.6
MOST_NAMED, LABEL_HEIGHT = 40, 0.17
BUSIEST = 20
BAR, ASIDE = 0.8, 0.2
Requests = Mapping[int, Request]


@dataclass(frozen=True)
class Mark:
    """A pickup or drop-off; `persons` is how many get in, below 0 how many get out."""

    kind: str
    rider: int
    second: int
    persons: int
    planned: bool


@dataclass(frozen=True)
class Run:
    """Marks of a vehicle in their order, with nobody aboard before them; it ends at `end` or after them."""

    vehicle: int
    marks: Tuple[Mark, ...]
    end: float


@dataclass(frozen=True)
class Bar:
    """A time at which the same persons are aboard."""

    start: int
    end: float
    persons: int
    planned: bool


def vehicles_of(report: Report) -> List[int]:
    """All vehicles that the report names, by rising id."""
    named = {e.fields[0] for e in report.entries if e.command in ("report", "pickup", "dropoff")
             and "unknown-vehicle" not in e.reply}
    planned = {trip.vehicle for batch in report.batches for trip in batch.trips + batch.late}
    return sorted(named | planned)


def planned_marks(trip: Trip, requests: Requests) -> Iterator[Mark]:
    """The stops of a plan as marks."""
    for stop in trip.stops:
        party = requests[stop.rider].party
        yield Mark(stop.kind, stop.rider, stop.second, party if stop.kind == "pick" else -party, True)


def entered_marks(report: Report, requests: Requests) -> Dict[int, List[Mark]]:
    """The pickups and drop-offs that were entered, by vehicle."""
    marks: Dict[int, List[Mark]] = {}
    for entry in report.entries:
        if entry.reply in ("picked", "dropped"):
            vehicle, rider, second = entry.fields
            kind, sign = ("pick", 1) if entry.reply == "picked" else ("drop", -1)
            mark = Mark(kind, rider, second, sign * requests[rider].party, False)
            marks.setdefault(vehicle, []).append(mark)
    return marks


def entered_runs(report: Report, marks: Mapping[int, List[Mark]], requests: Requests) -> List[Run]:
    """A run for each vehicle: what was entered, then what its last plan still holds."""
    done = {(mark.kind, mark.rider) for of_one in marks.values() for mark in of_one}
    gone = {e.fields[0] for e in report.entries if e.reply == "cancelled"}
    gone.update(rider for batch in report.batches for rider in batch.expired)
    solved = [batch for batch in report.batches if not batch.overflow]
    last = {trip.vehicle: trip for batch in solved[-1:] for trip in batch.plans()}
    runs = []
    for vehicle in sorted(set(last) | set(marks)):
        planned = planned_marks(last[vehicle], requests) if vehicle in last else ()
        left = [m for m in planned if (m.kind, m.rider) not in done and m.rider not in gone]
        runs.append(Run(vehicle, tuple(marks.get(vehicle, []) + left), 0))
    return runs


def planned_runs(report: Report, requests: Requests) -> List[Run]:
    """A run for each plan of each batch, up to the next batch that has a plan."""
    runs = []
    solved = [batch for batch in report.batches if not batch.overflow]
    ends = [*(batch.second for batch in solved[1:]), float("inf")]
    for batch, end in zip(solved, ends):
        for trip in batch.plans():
            marks = tuple(mark for mark in planned_marks(trip, requests) if mark.second < end)
            runs.append(Run(trip.vehicle, marks, end))
    return runs


def runs_of(report: Report) -> Tuple[List[Run], bool]:
    """What is drawn of the vehicles, and whether stops were entered."""
    requests = report.requests()
    marks = entered_marks(report, requests)
    if marks:
        return entered_runs(report, marks, requests), True
    return planned_runs(report, requests), False


def bars_of(run: Run) -> List[Bar]:
    """The times of a run with persons aboard."""
    bars, aboard = [], 0
    ends: List[float] = [mark.second for mark in run.marks[1:]]
    last = run.marks[-1].second if run.marks else 0
    ends.append(run.end if last < run.end < float("inf") else last)
    for mark, end in zip(run.marks, ends):
        aboard += mark.persons
        if aboard > 0 and end > mark.second:
            bars.append(Bar(mark.second, end, aboard, mark.planned))
    return bars


def named_rows(vehicles: Sequence[int], runs: Iterable[Run], row_height: float) -> List[int]:
    """The rows whose vehicles are named: all, or the busiest that stand far enough from each other."""
    if len(vehicles) <= MOST_NAMED:
        return list(range(len(vehicles)))
    picked = dict.fromkeys(vehicles, 0)
    for run in runs:
        picked[run.vehicle] += sum(mark.persons for mark in run.marks if mark.kind == "pick")
    apart = LABEL_HEIGHT / row_height
    named: List[int] = []
    for row in sorted(range(len(vehicles)), key=lambda row: (-picked[vehicles[row]], row)):
        if len(named) < BUSIEST and all(abs(row - other) >= apart for other in named):
            named.append(row)
    return sorted(named)


def bar_looks(planned: bool, few: bool) -> Dict[str, str]:
    """Planned bars are hatched; where there are many, all are darker, since they are thin."""
    if planned and few:
        return {"facecolor": style.MIST, "hatch": "//////", "edgecolor": style.SKY}
    return {"facecolor": style.SKY if few else style.DARK_SKY}


def draw_bars(axes: style.Axes, runs: Iterable[Run], rows: Mapping[int, int]) -> int:
    """The bars, as thick as the persons aboard. Gives the most persons."""
    bars = [(rows[run.vehicle], bar) for run in runs for bar in bars_of(run)]
    most = max((bar.persons for _, bar in bars), default=1)
    for planned, name in ((False, "aboard"), (True, "aboard-planned")):
        boxes = []
        for row, bar in bars:
            if bar.planned == planned:
                half = BAR / 2 * bar.persons / most
                low, high = row - half, row + half
                boxes.append([(bar.start, low), (bar.start, high), (bar.end, high), (bar.end, low)])
        looks = bar_looks(planned, len(rows) <= MOST_NAMED)
        axes.add_collection(PolyCollection(boxes, linewidths=0, gid=name, zorder=2, snap=False, **looks))
    return most


def draw_marks(axes: style.Axes, runs: Sequence[Run], rows: Mapping[int, int], size: float) -> None:
    """Pickups as triangles upward, above the middle; drop-offs downward, below; planned ones hollow."""
    for kind, shape, colour, name, aside in (
            ("pick", "^", style.BLUE, "pickups", -ASIDE), ("drop", "v", style.ORANGE, "dropoffs", ASIDE)):
        for planned in (False, True):
            places = [(mark.second, rows[run.vehicle] + aside) for run in runs for mark in run.marks
                      if mark.kind == kind and mark.planned == planned]
            if places:
                axes.scatter(
                    *zip(*places), s=size ** 2, marker=shape, zorder=3, linewidths=min(0.9, size / 6),
                    facecolors="white" if planned else colour, edgecolors=colour,
                    gid=name + ("-planned" if planned else ""))


def draw_lines(axes: style.Axes, count: int, seals: Sequence[int]) -> None:
    """A thin line for each vehicle where they are few, and one for each seal."""
    start, end = axes.get_xlim()
    rows = [[(start, row), (end, row)] for row in range(count if count <= MOST_NAMED else 0)]
    axes.add_collection(LineCollection(rows, colors=style.PALE, linewidths=0.6, zorder=0, gid="rows"))
    lines = [[(second, -0.7), (second, count - 0.3)] for second in seals]
    width = 0.7 if len(seals) <= 60 else 0.3
    axes.add_collection(LineCollection(lines, colors=style.SEAL, linewidths=width, zorder=1, gid="seals"))


def legend(axes: style.Axes, runs: Iterable[Run], most: int, few: bool) -> None:
    """What the shapes mean, above the picture."""
    planned = {it.planned for run in runs for it in run.marks}
    shown: List[Tuple[Any, str]] = []
    for hollow in sorted(planned):
        tail = ", planned" if hollow else ""
        shown.append((mark("^", style.BLUE, hollow), "pickup" + tail))
        shown.append((mark("v", style.ORANGE, hollow), "drop-off" + tail))
        bar = Patch(linewidth=0, **bar_looks(hollow, few))
        shown.append((bar, f"aboard{tail} (thickest: {style.counted(most, 'person')})"))
    shown.append((Line2D([], [], color=style.SEAL, linewidth=0.8), "seal"))
    axes.legend(*zip(*shown), loc="lower left", bbox_to_anchor=(0, 1.0), ncol=4, frameon=False,
                borderaxespad=0.2, handletextpad=0.5, columnspacing=1.4)


def mark(shape: str, colour: str, hollow: bool) -> Any:
    """A mark of the legend."""
    return Line2D([], [], linestyle="", marker=shape, markersize=6, markeredgecolor=colour,
                  markerfacecolor="white" if hollow else colour)


def title_of(report: Report, vehicles: Sequence[int], runs: Sequence[Run], entered: bool) -> str:
    """What the picture shows, in a line."""
    picks, drops = (sum(1 for run in runs for it in run.marks if it.kind == kind) for kind in ("pick", "drop"))
    until = ", each plan up to the next seal" if len(report.batches) > 1 else ""
    what = "Day" if entered else f"Planned day (no stop was entered{until})"
    return f"{what}: {style.counted(len(vehicles), 'vehicle')}, {style.counted(picks, 'pickup')}, " \
           f"{style.counted(drops, 'drop-off')}"


def draw(report: Report) -> style.Picture:
    """The picture."""
    vehicles = vehicles_of(report)
    if not vehicles:
        raise Fault("nothing to draw: the report names no vehicle")
    runs, entered = runs_of(report)
    rows = {vehicle: row for row, vehicle in enumerate(vehicles)}
    height = min(ROW_HEIGHT * len(vehicles), MOST_HEIGHT - HEAD)
    row_height = height / len(vehicles)
    picture = style.figure(WIDTH, max(height, 0.9) + HEAD, fine=len(vehicles) > MOST_NAMED)
    axes = picture.subplots()
    seals = sorted({batch.second for batch in report.batches})
    seconds = seals + [mark.second for run in runs for mark in run.marks]
    margin = max(1, (max(seconds) - min(seconds)) * 0.015) if seconds else 1
    axes.set_xlim(min(seconds, default=0) - margin, max(seconds, default=0) + margin)
    axes.set_ylim(len(vehicles) - 0.3, -0.7)
    most = draw_bars(axes, runs, rows)
    draw_marks(axes, runs, rows, max(1.2, min(6.0, row_height * 72 * 0.45)))
    draw_lines(axes, len(vehicles), seals)
    named = named_rows(vehicles, runs, row_height)
    axes.set_yticks(named, [str(vehicles[row]) for row in named])
    style.whole_ticks(axes.xaxis, steps=(1, 2, 3, 6, 10))
    axes.set_xlabel("second")
    axes.set_ylabel("vehicle" if len(named) == len(vehicles) else "vehicle (the busiest are named)")
    picture.suptitle(title_of(report, vehicles, runs, entered), x=0.01, ha="left")
    legend(axes, runs, most, len(vehicles) <= MOST_NAMED)
    return picture
