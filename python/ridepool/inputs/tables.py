"""The CSV files of ridepool, and nodes.csv, which says where the nodes of a network lie."""

import contextlib
import csv
import io
import math
import os
import pathlib
import threading
from dataclasses import dataclass
from typing import Dict, Iterable, Iterator, List, Optional, Sequence, Tuple, Union

from ridepool.words import Fault
from ridepool.inputs.limits import (
    FLEET, MOST_ARCS, MOST_NODES, MOST_NUMBER, MOST_PARTY, MOST_RIDERS, MOST_ROWS, MOST_SEATS, MOST_SECONDS,
    MOST_VEHICLES, NETWORK, NODES, SCRIPT)

__all__ = [
    "FLEET", "MOST_ARCS", "MOST_NODES", "MOST_NUMBER", "MOST_PARTY", "MOST_RIDERS", "MOST_ROWS", "MOST_SEATS",
    "MOST_SECONDS", "MOST_VEHICLES", "NETWORK", "NODES", "SCRIPT"]

Path = Union[str, "pathlib.PurePath"]


@dataclass(frozen=True)
class Node:
    """A node of a network: x and y in metres, longitude and latitude where the map has them."""

    node: int
    x: float
    y: float
    lon: Optional[float] = None
    lat: Optional[float] = None
    name: str = ""


def whole_file(path: Path, text: str) -> None:
    """Writes a file whole or not at all: aside, under a name that no other writer has, and then renamed."""
    place = pathlib.Path(os.path.realpath(path))
    part = place.with_name(f"{place.name}.{os.getpid()}-{threading.get_ident()}.part")
    try:
        with open(part, "w", newline="", encoding="utf-8") as file:
            file.write(text)
        os.replace(part, place)
    except OSError as fault:
        with contextlib.suppress(OSError):
            part.unlink()
        raise type(fault)(fault.errno, fault.strerror, str(path)) from None


def write_table(path: Path, header: Sequence[str], rows: Iterable[Sequence[object]]) -> None:
    """Writes a CSV file, and the folder that it lies in where that isn't there. What lies at a path that is no file, as
    /dev/stdout, is written through."""
    path = pathlib.Path(path)
    path.parent.mkdir(parents=True, exist_ok=True)
    if path.exists() and not path.is_file():
        path.write_text(table_text(header, rows), encoding="utf-8")
    else:
        whole_file(path, table_text(header, rows))


def table_text(header: Sequence[str], rows: Iterable[Sequence[object]]) -> str:
    """A CSV file as a text."""
    text = io.StringIO()
    table = csv.writer(text, lineterminator="\n")
    table.writerow(header)
    table.writerows(rows)
    return text.getvalue()


def read_table(path: Path, header: Sequence[str]) -> Iterator[Tuple[int, List[str]]]:
    """The rows of a CSV file, each with its number from 1. The first row must be the header."""
    try:
        with open(path, newline="", encoding="utf-8") as file:
            table = csv.reader(file)
            if tuple(next(table, ())) != header:
                raise Fault(f"{path}: the first row is not {','.join(header)}")
            for count, row in enumerate((row for row in table if row), 1):
                if len(row) != len(header):
                    raise Fault(f"{path}: row {count} has {len(row)} fields, not {len(header)}")
                yield count, row
    except (UnicodeDecodeError, csv.Error) as fault:
        raise Fault(f"{path}: not a CSV file: {fault}") from None


def whole(path: Path, count: int, text: str) -> int:
    """A whole number of row `count`, as ridepool takes it."""
    if not (text.isascii() and text.isdigit() and int(text) <= MOST_NUMBER):
        raise Fault(f"{path}: row {count}: {text!r} is not a whole number up to {MOST_NUMBER}")
    return int(text)


def decimal(path: Path, count: int, text: str) -> float:
    """A finite decimal number of row `count`."""
    value = finite(text)
    if value is None:
        raise Fault(f"{path}: row {count}: {text!r} is not a number")
    return value


def finite(text: Optional[str]) -> Optional[float]:
    """The decimal number that a text is, or None."""
    try:
        value = float(text or "")
    except ValueError:
        return None
    return value if math.isfinite(value) else None


def read_network(path: Path) -> List[Tuple[int, int, int]]:
    """The streets of network.csv as (from, to, seconds), in order."""
    rows = ([whole(path, count, text) for text in row] for count, row in read_table(path, NETWORK))
    return [(start, end, seconds) for start, end, seconds in rows]


def read_fleet(path: Path) -> Dict[int, int]:
    """The node at which each vehicle of fleet.csv begins."""
    rows = read_table(path, FLEET)
    return {whole(path, count, row[0]): whole(path, count, row[2]) for count, row in rows}


def degrees(value: Optional[float]) -> str:
    """Degrees to a tenth of a metre or so."""
    return "" if value is None else f"{value:.6f}"


def write_nodes(path: Path, nodes: Iterable[Node]) -> None:
    """Writes nodes.csv: metres to the centimetre, degrees to a tenth of a metre or so."""
    rows = ((n.node, f"{n.x:.2f}", f"{n.y:.2f}", degrees(n.lon), degrees(n.lat), n.name) for n in nodes)
    write_table(path, NODES, rows)


def read_nodes(path: Path) -> List[Node]:
    """The nodes of nodes.csv, in order."""
    nodes = []
    for count, (node, x, y, lon, lat, name) in read_table(path, NODES):
        angles = [None if text == "" else decimal(path, count, text) for text in (lon, lat)]
        place = [decimal(path, count, text) for text in (x, y)]
        nodes.append(Node(whole(path, count, node), place[0], place[1], angles[0], angles[1], name))
    if not nodes:
        raise Fault(f"{path}: no nodes")
    return nodes


def square_nodes(count: int) -> List[Node]:
    """The nodes of a made network: a square, row by row from the top, 100 metres apart."""
    side = math.isqrt(count)
    if side * side != count or side < 2:
        raise Fault(f"made=1: {count} nodes are not a made network's square")
    places = ((i, j) for i in range(side) for j in range(side))
    return [Node(i * side + j + 1, 100.0 * j, -100.0 * i, name=f"row {i} column {j}") for i, j in places]
