"""The table policies.csv: a row for each policy, with each measure's mean over the seeds, the least and the most.

Stands on Python alone, so that it is drawn where pandas isn't there.
"""

import csv
import statistics
from typing import Any, Dict, List, Mapping, Sequence

from ridepool.inputs.tables import Path
from ridepool.words import Fault

MEASURES = ("share", "mean_wait", "mean_delay", "mean_in_car", "aboard", "driven_a_vehicle")
SPREAD = ("", "_least", "_most")
HEADER = ("policy", "seats", "seeds", *(f"{name}{of}" for name in MEASURES for of in SPREAD), "marked")


def row_of(name: str, seats: int, days: Sequence[Mapping[str, float]], marked: int) -> List[Any]:
    """The row of a policy: the measures of its days, one of each seed, and how many of these days are marked."""
    columns = ([day[measure] for day in days] for measure in MEASURES)
    found = [f"{value:.4f}" for column in columns for value in (statistics.fmean(column), min(column), max(column))]
    return [name, seats, len(days), *found, marked]


def read_rows(path: Path) -> List[Dict[str, Any]]:
    """The rows of policies.csv, with numbers in all columns but the first."""
    with open(path, newline="", encoding="utf-8") as file:
        table = csv.DictReader(file)
        rows = list(table)
    if tuple(table.fieldnames or ()) != HEADER or not rows:
        raise Fault(f"{path}: not a table of policies.py")
    return [{name: value if name == "policy" else float(value) for name, value in row.items()} for row in rows]
