"""Compares policies on one city over several seeds."""

import os
from typing import Any, Callable, List, Mapping, NamedTuple, Sequence, Tuple

import pandas as pd

from ridepool.days.calls import drive
from ridepool.days.day import Day
from ridepool.inputs import made_city, tables
from ridepool.inputs.fleet import Fleet
from ridepool.inputs.network import Network
from ridepool.inputs.requests import Requests
from ridepool.policies.known import CheapestInsertion, NearestFree, Policy, Ridepool
from ridepool.policies.matching import OptimalMatching
from ridepool.policies.simulation import simulate
from ridepool.settings import Settings
from ridepool.study.spread import HEADER, row_of
from ridepool.words import number

CITY = tuple(word for word in made_city.WORDS if word != "seed")
CAPACITIES = (1, 2, 4, 10)

Drive = Callable[[Network, Fleet, Requests, Settings], Day]


class Row(NamedTuple):
    """What is compared: a policy with its name, and the seats of its vehicles."""

    name: str
    seats: int
    drive: Drive


def by(policy: Callable[[], Policy]) -> Drive:
    """A day by a policy."""
    return lambda net, fleet, requests, settings: simulate(net, fleet, requests, policy(), settings)


def rows(seats: int) -> List[Row]:
    """The rows of the table: the other policies, ridepool without moves, and ridepool by seats."""
    others = [Row("nearest free vehicle", seats, by(NearestFree)), Row("optimal matching", seats, by(OptimalMatching)),
              Row("cheapest insertion", seats, by(CheapestInsertion)),
              Row("ridepool without moves", seats, by(lambda: Ridepool(moves=False)))]
    return others + [Row("ridepool", count, lambda *given: drive(*given)) for count in sorted({*CAPACITIES, seats})]


def ground(out: str, seed: int, values: Mapping[str, str], every: int) -> "Tuple[Network, Requests]":
    """The network and the requests of the city of a seed."""
    folder = os.path.join(out, f"city-{seed}")
    made_city.write_city(folder, {"seed": str(seed), **{name: values[name] for name in CITY if name in values}})
    net = Network.from_csv(os.path.join(folder, "network.csv"), os.path.join(folder, "nodes.csv"))
    trips = pd.read_csv(os.path.join(folder, "trips.csv")).rename(columns={
        "second": "time", "from_x": "from_lon", "from_y": "from_lat", "to_x": "to_lon", "to_y": "to_lat"})
    return net, Requests.from_frame(trips, every=every, until=int(values.get("seconds", "3600")))


def compare(out: str, values: Mapping[str, str]) -> None:
    """Drives all days, and writes the table after each row, so that what was driven is there where the rest takes long."""
    vehicles, seats = number(values, "vehicles", 1, tables.MOST_VEHICLES, 100), number(values, "seats", 1, 10, 4)
    seeds, every = number(values, "seeds", 1, 100, 3), number(values, "every", 1, tables.MOST_NUMBER, 60)
    settings = Settings(wait=number(values, "wait", 0, 7200, 300), delay=number(values, "delay", 0, 7200, 600), budget=1,
                        pairs=2_000_000)
    grounds = [ground(out, seed, values, every) for seed in range(1, seeds + 1)]
    table: "List[List[Any]]" = []
    for row in rows(seats):
        days = [row.drive(net, Fleet.drawn(net, vehicles, row.seats, seed), requests, settings)
                for seed, (net, requests) in enumerate(grounds, 1)]
        marks = [f"seed {seed}: {mark}" for seed, day in enumerate(days, 1) for mark in day.marks]
        table.append(row_of(row.name, row.seats, [day.measures() for day in days], sum(1 for day in days if day.marks)))
        tables.write_table(os.path.join(out, "policies.csv"), HEADER, table)
        print(line_of(row, float(table[-1][HEADER.index("share")]), marks), flush=True)


def line_of(row: Row, share: float, marks: Sequence[str]) -> str:
    """What is said of a row."""
    said = f"{row.name}, {row.seats} seat{'s' if row.seats > 1 else ''}: {100 * share:.1f} % of requests served"
    return f"{said}{', MARKED: ' if marks else ''}{'; '.join(marks)}"
