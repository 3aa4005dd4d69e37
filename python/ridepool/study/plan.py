"""Reads STUDY.toml: the settings of each cell, and what the days are made of."""

import itertools
from dataclasses import dataclass
from typing import Any, Dict, List, Mapping, NamedTuple, Optional, Sequence, Union

from ridepool.inputs import made_city
from ridepool.inputs import tables
from ridepool.inputs.from_trips import COLUMNS
from ridepool.words import Fault

SETTINGS = {
    "vehicles": (1, 100_000, 10),
    "seats": (1, tables.MOST_SEATS, 4),
    "wait": (0, 7200, 120),
    "delay": (0, 7200, 180),
    "every": (1, tables.MOST_NUMBER, 60),
    "trip": (1, 6, 4),
    "seed": (0, tables.MOST_NUMBER, 1),
    "demand": (1, 100, 100),
    "zones": (1, 200, 1),
    "penalty": (0, tables.MOST_NUMBER, 10_000),
    "budget": (1, 50_000, 200),
    "pairs": (1, 2_000_000, 200_000),
    "dwell": (0, 600, 0),
    "workers": (1, 64, 1),
    "fleets": (1, 200, 1),
}
# How riders are parted among fleets. The first is what holds where none is named.
SPLITS = ("nearest", "random", "zones")
OLD_SETTINGS = tuple(name for name in SETTINGS if name != "fleets")
NEW_SETTINGS = ("fleets", "split")
OF_THE_CALL = ("wait", "delay", "trip", "penalty", "budget", "pairs", "dwell", "workers")
FILES = ("network", "nodes", "trips")
SPAN = ("from", "to", "zone", "far")

Value = Union[int, str]


class Cell(NamedTuple):
    """A cell: a value of each of SETTINGS, in their order, and how riders are parted."""

    vehicles: int
    seats: int
    wait: int
    delay: int
    every: int
    trip: int
    seed: int
    demand: int
    zones: int
    penalty: int
    budget: int
    pairs: int
    dwell: int
    workers: int
    fleets: int
    split: str = SPLITS[0]


@dataclass(frozen=True)
class Plan:
    """A study: its cells in their order, and the words of [city] or [files], of which one is None."""

    cells: List[Cell]
    city: Optional[Dict[str, str]]
    files: Optional[Dict[str, str]]


def values_of(path: str, name: str, given: object) -> List[Value]:
    """The values of a setting: a whole number or, of `split`, a name; or a list of them."""
    values = given if isinstance(given, list) else [given]
    if name == "split":
        for value in values:
            if value not in SPLITS:
                raise Fault(f"{path}: split = {value} is none of {', '.join(SPLITS)}")
        return values
    least, most, _ = SETTINGS[name]
    for value in values:
        if type(value) is not int or not least <= value <= most:
            raise Fault(f"{path}: {name} = {value} is not a whole number from {least} to {most}")
    return values


def table_of(path: str, study: Mapping[str, Any], name: str, keys: Sequence[str]) -> Optional[Dict[str, Any]]:
    """A table of the file whose keys must be among these; None where it isn't there."""
    table = study.get(name)
    if table is None:
        return None
    if not isinstance(table, dict):
        raise Fault(f"{path}: [{name}] is no table")
    for key in table:
        if key not in keys:
            raise Fault(f"{path}: unknown word {key} in {name}; there are: {', '.join(keys)}")
    return table


def cells_of(path: str, study: Mapping[str, Any]) -> List[Cell]:
    """The cells, each once: all combinations of the first [[grid]], then those of the next."""
    common = table_of(path, study, "all", Cell._fields) or {}
    cells: Dict[Cell, None] = {}
    default: Dict[str, Value] = {**{name: value for name, (_, _, value) in SETTINGS.items()}, "split": SPLITS[0]}
    blocks = study.get("grid", [])
    if not isinstance(blocks, list) or not blocks:
        raise Fault(f"{path}: no [[grid]]")
    for block in blocks:
        given = {**default, **common, **(table_of(path, {"grid": block}, "grid", Cell._fields) or {})}
        values = (values_of(path, name, given[name]) for name in Cell._fields)
        cells.update((whole(path, Cell(*combination)), None) for combination in itertools.product(*values))
    return list(cells)


def whole(path: str, cell: Cell) -> Cell:
    """A cell as it is driven. `zones=N` says `fleets=N split=zones`; one fleet takes all riders."""
    if cell.zones > 1 and cell.fleets > 1:
        raise Fault(f"{path}: zones = {cell.zones} and fleets = {cell.fleets}: name one of the two")
    return cell._replace(split=SPLITS[0]) if cell.fleets == 1 else cell


def texts_of(table: Optional[Dict[str, Any]]) -> Optional[Dict[str, str]]:
    """The words of a table as they would stand on a command line."""
    return None if table is None else {key: str(value) for key, value in table.items()}


def read_plan(path: str) -> Plan:
    """The study of a file."""
    import tomllib

    try:
        with open(path, "rb") as file:
            study = tomllib.load(file)
    except (tomllib.TOMLDecodeError, UnicodeDecodeError) as fault:
        raise Fault(f"{path}: not a TOML file: {fault}") from None
    for key in study:
        if key not in ("city", "files", "all", "grid"):
            raise Fault(f"{path}: unknown table {key}; there are city, files, all, grid")
    city = table_of(path, study, "city", made_city.WORDS)
    files = table_of(path, study, "files", (*FILES, *COLUMNS, *SPAN))
    if (city is None) == (files is None):
        raise Fault(f"{path}: one of [city] and [files] must stand there")
    missing = [name for name in FILES if files is not None and name not in files]
    if missing:
        raise Fault(f"{path}: [files] has no {' and no '.join(missing)}")
    return Plan(cells_of(path, study), texts_of(city), texts_of(files))
