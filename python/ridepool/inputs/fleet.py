"""The class Fleet: the vehicles of a day."""

from typing import Any

import numpy as np
import pandas as pd

from ridepool.faults import RefusedInput
from ridepool.inputs import limits
from ridepool.inputs.checks import Numbers, Path, Table, read_csv
from ridepool.inputs.network import Network

FAR = 500.0


def placed(table: Table, net: Network, node: str, lat: str, lon: str, far: float) -> Numbers:
    """The node of each row: that of the column `node`, or the nearest one to the place in `lat` and `lon`."""
    if node in table.frame.columns:
        numbers = table.whole(node, 0, limits.MOST_NUMBER)
        known = np.isin(numbers, net.names)
        if not known.all():
            raise table.refused(int(np.argmin(known)), node, "a node of the network")
        return numbers
    table.need([lat, lon])
    places = table.decimal(lat), table.decimal(lon)
    empty = np.isnan(places[0]) | np.isnan(places[1])
    if empty.any():
        raise table.refused(int(np.argmax(empty)), lat, "a place")
    nearest, apart = net.nearest_of(*places)
    if (apart > far).any():
        raise table.refused(int(np.argmax(apart > far)), lat, f"within {far:g} metres of a node")
    return nearest


class Fleet:
    """The vehicles of a day: each with its seats, where it stands, and the second from which it is free.

    Make one by `from_csv`, `from_frame` or `drawn`.

    >>> fleet = Fleet.drawn(Network.made(side=3, seed=1), vehicles=2, seats=4, seed=1)
    >>> len(fleet), list(fleet.frame.columns)
    (2, ['vehicle', 'seats', 'node', 'second'])
    """

    def __init__(self, table: Table, far: float = FAR) -> None:
        table.need(["vehicle", "seats"])
        table.at_most(limits.MOST_VEHICLES, "vehicles")
        self.table, self.far, self.frame = table, far, table.frame
        self.vehicles = table.whole("vehicle", 0, limits.MOST_NUMBER)
        table.only_once("vehicle", self.vehicles)
        self.seats = table.whole("seats", 1, limits.MOST_SEATS)
        has_second = "second" in table.frame.columns
        self.seconds = table.whole("second", 0, limits.MOST_NUMBER) if has_second else np.zeros(len(self), np.int64)

    def __len__(self) -> int:
        """How many vehicles there are."""
        return len(self.table.frame)

    def __repr__(self) -> str:
        return f"<Fleet of {len(self)} vehicles>"

    @classmethod
    def from_csv(cls, path: Path) -> "Fleet":
        """Reads fleet.csv (vehicle, seats, node, second). A RefusedInput names file, line and column of what isn't
        taken."""
        return cls(read_csv(path, limits.FLEET))

    @classmethod
    def from_frame(cls, frame: Any, far: float = FAR) -> "Fleet":
        """Takes a frame with the columns vehicle, seats, and node, or lat and lon (degrees; metres north and east where
        the network has no degrees). `second` says from when on a vehicle is free; without it that is second 0. A place
        goes to the nearest node, which is within `far` metres.

        >>> import pandas as pd
        >>> Fleet.from_frame(pd.DataFrame({"vehicle": [1], "seats": [11], "node": [1]}))
        Traceback (most recent call last):
        ridepool.faults.RefusedInput: fleet, line 1, seats: 11 is not a whole number from 1 to 10
        """
        return cls(Table(frame, "fleet"), far)

    @classmethod
    def drawn(cls, net: Network, vehicles: int = 10, seats: int = 4, seed: int = 1) -> "Fleet":
        """So many vehicles of so many seats at nodes drawn by a seed, free from second 0 on."""
        if not 0 <= vehicles <= limits.MOST_VEHICLES:
            raise RefusedInput("fleet", None, "vehicles", vehicles, f"a whole number up to {limits.MOST_VEHICLES}")
        nodes = net.names[np.random.default_rng(seed).integers(0, len(net), vehicles)]
        numbers = np.arange(1, vehicles + 1)
        return cls.from_frame(pd.DataFrame({"vehicle": numbers, "seats": seats, "node": nodes, "second": 0}))

    def nodes(self, net: Network) -> Numbers:
        """The node at which each vehicle begins."""
        return placed(self.table, net, "node", "lat", "lon", self.far)

    def csv(self, net: Network) -> str:
        """The fleet as a text of fleet.csv."""
        columns = (self.vehicles, self.seats, self.nodes(net), self.seconds)
        return str(pd.DataFrame(dict(zip(limits.FLEET, columns))).to_csv(index=False))
