"""Cells as rows of cells.csv."""

from __future__ import annotations

import csv
import math
from collections import Counter
from typing import Any, Dict, Iterable, List, Mapping, Sequence, Tuple, Union

from ridepool.inputs import tables
from ridepool.report.marks import marks_of, refusals_text
from ridepool.study.plan import NEW_SETTINGS, OLD_SETTINGS, Cell

# The columns of version 1.3 stand first, so that its tables are still drawn.
OLD_RESULTS = ("state", "requests", "served", "share", "mean_wait", "p95_wait", "mean_delay", "p95_delay", "shared",
               "aboard", "empty_seconds", "driven_seconds", "batches", "overflows", "open", "largest_gap",
               "seconds", "megabytes", "program")
OLD_COLUMNS = (*OLD_SETTINGS, *OLD_RESULTS)
NEW_RESULTS = ("mark", "refused", "refusals", "over_seats", "persons", "persons_served", "persons_share", "mean_in_car",
               "p95_in_car", "driven_a_vehicle", "approach_seconds", "rebalancing_seconds", "wall_seconds", "median_batch",
               "p95_batch", "moved", "aboard_by_minute")
COLUMNS = (*OLD_COLUMNS, *NEW_SETTINGS, *NEW_RESULTS)
DONE, MARKED = "done", "marked"
Facts = Dict[str, Any]  # what is known of a day, by name, as JSON has it



def mean(values: Sequence[float]) -> str:
    """The mean, to a hundredth; nothing of nothing."""
    return f"{sum(values) / len(values):.2f}" if values else ""


def rank(values: Sequence[float], percent: int) -> float:
    """The least value that so many percent of the values don't exceed."""
    return sorted(values)[math.ceil(len(values) * percent / 100) - 1]


def percentile(values: Sequence[float], percent: int) -> str:
    """The same as a text, nothing of nothing."""
    return f"{rank(values, percent):.0f}" if values else ""


def part(some: float, whole: float) -> str:
    """A part of a whole, nothing of nothing."""
    return f"{some / whole:.4f}" if whole else ""


class Sum:
    """The facts of a cell's days together."""

    def __init__(self, days: Sequence[Facts]) -> None:
        self.days = days

    def total(self, name: str) -> Any:
        """The sum of a number."""
        return sum(day[name] for day in self.days)

    def all(self, name: str) -> List[Any]:
        """All values of a list."""
        return [value for day in self.days for value in day[name]]

    def counts(self, name: str) -> Counter[str]:
        """Counts by name, added up."""
        return sum((Counter(day[name]) for day in self.days), Counter[str]())

    def worst(self, name: str) -> Any:
        """The largest of those that are known, None where none is."""
        return max((day[name] for day in self.days if day.get(name) is not None), default=None)

    def seconds(self) -> str:
        """Processor seconds of the program; nothing where they aren't known of each day."""
        seconds = [day["seconds"] for day in self.days]
        return "" if None in seconds else f"{sum(seconds):.2f}"

    def minutes(self) -> str:
        """Persons aboard a vehicle, the mean over the fleet in each minute. What comes behind the last seal isn't
        counted."""
        vehicles, days = self.total("vehicles"), [day["minutes"] for day in self.days]
        length = max(map(len, days), default=0)
        sums = [sum(day[at] for day in days if at < len(day)) for at in range(length)]
        return " ".join(f"{value / 60 / vehicles:.2f}" for value in sums) if vehicles else ""


def old_results_of(days: Sum) -> Tuple[object, ...]:
    """Riders and seconds add up, the largest gap and the memory are the worst day's."""
    waits, delays, memory = days.all("waits"), days.all("delays"), days.worst("memory")
    served, vehicle_seconds = len(waits), days.total("vehicle_seconds")
    return (
        days.total("requests"), served, part(served, days.total("requests")),
        mean(waits), percentile(waits, 95), mean(delays), percentile(delays, 95),
        days.total("shared"), part(days.total("aboard_seconds"), vehicle_seconds),
        days.total("empty_seconds"), days.total("driven_seconds"),
        days.total("batches"), days.total("overflows"), days.total("open"), f"{days.worst('gap'):.4f}",
        days.seconds(), "" if memory is None else f"{memory:.0f}")


def new_results_of(cell: Cell, days: Sum, marks: Sequence[str]) -> Tuple[object, ...]:
    """What came with version 1.4."""
    refused, in_car = days.counts("refused"), days.all("rides")
    over = sum(times for persons, times in days.counts("parties").items() if int(persons) > cell.seats)
    batches = [value for day in days.days for value in day.get("batch_seconds") or ()]
    spread = [f"{rank(batches, percent):.3f}" for percent in (50, 95)] if batches else ["", ""]
    vehicles = days.total("vehicles")
    return (
        "; ".join(marks), sum(refused.values()), refusals_text(refused), over,
        days.total("persons"), days.total("persons_served"), part(days.total("persons_served"), days.total("persons")),
        mean(in_car), percentile(in_car, 95), f"{days.total('driven_seconds') / vehicles:.0f}" if vehicles else "",
        days.total("approach_seconds"), days.total("rebalancing_seconds"), f"{days.total('wall'):.2f}", *spread,
        sum(day.get("moved", 0) for day in days.days), days.minutes())


def marks(days: Sum) -> List[str]:
    """Why a cell is marked, nothing where it isn't."""
    return marks_of(days.total("requests"), days.counts("refused"), days.total("batches"), days.total("overflows"))


def row_of(cell: Cell, days: Sequence[Union[Facts, str]], program: str) -> Tuple[object, ...]:
    """The row of a cell. Each day has its facts, or is a text that says why there are none."""
    old, new = ([getattr(cell, name) for name in names] for names in (OLD_SETTINGS, NEW_SETTINGS))
    failed = [day for day in days if isinstance(day, str)]
    if failed:
        return (*old, failed[0], *[""] * (len(OLD_RESULTS) - 2), program, *new, *[""] * len(NEW_RESULTS))
    facts = Sum([day for day in days if not isinstance(day, str)])
    why = marks(facts)
    return (*old, MARKED if why else DONE, *old_results_of(facts), program, *new, *new_results_of(cell, facts, why))


class Table:
    """The file cells.csv. While a study runs rows are appended as they come; at its end they stand in the study's order."""

    def __init__(self, path: tables.Path) -> None:
        self.path = path

    def write(self, rows: Iterable[Mapping[str, object]]) -> None:
        """Writes the whole file."""
        tables.whole_file(self.path, tables.table_text(COLUMNS, (list(row.values()) for row in rows)))

    def append(self, row: Mapping[str, object]) -> None:
        """Writes a row behind the others."""
        with open(self.path, "a", newline="", encoding="utf-8") as file:
            csv.writer(file, lineterminator="\n").writerow(row.values())
