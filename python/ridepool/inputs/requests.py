"""The class Requests: who asks for a ride, and when the batches are sealed."""

from dataclasses import replace
from datetime import datetime, timezone
from typing import Any, Optional

import numpy as np
import pandas as pd

from ridepool.faults import RefusedInput
from ridepool.inputs import limits
from ridepool.inputs.checks import Numbers, Path, Table, read_csv
from ridepool.inputs.fleet import FAR, placed
from ridepool.inputs.moments import Moments, zone_of
from ridepool.inputs.network import Network
from ridepool.words import Fault

TIME_OF_DAY = "([0-9]{1,4}):([0-5][0-9])(?::([0-5][0-9]))?"


def moments(table: Table) -> Any:
    """The column `time` as moments in one time zone, or None where it has seconds."""
    values = table.frame["time"]
    if pd.api.types.is_numeric_dtype(values):
        return None
    if hasattr(values.dtype, "tz"):
        return values
    texts = values.astype(str)
    return None if texts.str.fullmatch("[0-9]+").all() else parsed(table, texts)


def times_of_day(table: Table) -> Optional[Numbers]:
    """The column `time` as seconds, where it has texts such as 8:05 or 08:05:30 from midnight on; else None."""
    texts = table.frame["time"].astype(str)
    if not len(texts) or not texts.str.fullmatch(TIME_OF_DAY).all():
        return None
    parts = texts.str.extract(f"^{TIME_OF_DAY}$").fillna("0").astype(np.int64).to_numpy()
    return np.asarray(parts @ np.array([3600, 60, 1]), dtype=np.int64)


MOMENT = r".*(?:[+-][0-9]{2}:?[0-9]{2}|Z)"
KNOWN = "seconds, a time of day, or a moment with its time zone"


def parsed(table: Table, texts: Any) -> Any:
    """Texts such as 2015-01-15T08:00:00-05:00 as moments of UTC. Each must say its zone."""
    found = pd.to_datetime(texts.where(texts.str.fullmatch(MOMENT)), errors="coerce", utc=True)
    is_moment = ~found.isna().to_numpy()
    is_other = texts.str.fullmatch(f"[0-9]+|{TIME_OF_DAY}").to_numpy(dtype=bool)
    if not (is_moment | is_other).all():
        raise table.refused(int(np.argmin(is_moment | is_other)), "time", KNOWN)
    if not is_moment.all():
        raise table.refused(int(np.argmin(is_moment)), "time", f"{KNOWN}, the same for all rows")
    return found


def in_zone(table: Table, zone: str) -> Any:
    """The column `time`, with dates that say no time zone taken in a zone. What isn't such a date stays as it is."""
    values = table.frame["time"]
    if pd.api.types.is_numeric_dtype(values) or hasattr(values.dtype, "tz"):
        return values
    try:
        moments = Moments(zone_of(zone))
    except Fault:
        raise RefusedInput("requests", None, "zone", zone, "a time zone, as America/New_York or UTC") from None
    is_date = ~values.astype(str).str.fullmatch(f"[0-9]+|{TIME_OF_DAY}").to_numpy(dtype=bool)
    return [placed_text(table, at, str(value), moments) if dated else value
            for at, (value, dated) in enumerate(zip(values, is_date))]


def placed_text(table: Table, at: int, text: str, moments: Moments) -> str:
    """A date of a row with its zone, as a text of UTC."""
    try:
        second = moments.second(text)
    except Fault:
        second = None
    if second is None:
        raise table.refused(at, "time", KNOWN)
    return str(datetime.fromtimestamp(second, timezone.utc).isoformat())


class Requests:
    """The requests of a day, with the seconds at which batches are sealed.

    Make one by `from_csv` or `from_frame`. `zero` is the moment of second 0, None where times are seconds.

    >>> import pandas as pd
    >>> asked = pd.DataFrame({"from": [2, 3], "to": [4, 5], "time": [0, 65]})
    >>> requests = Requests.from_frame(asked, every=30)
    >>> len(requests), requests.seals.tolist()
    (2, [30, 60, 90])
    """

    def __init__(self, table: Table, every: int, start: Any = None, until: Optional[int] = None, far: float = FAR,
                 zone: Optional[str] = None) -> None:
        if "time" not in table.frame.columns and "second" in table.frame.columns:
            table = replace(table, frame=table.frame.rename(columns={"second": "time"}))
        table.need(["time"])
        table.at_most(limits.MOST_RIDERS, "riders")
        if isinstance(every, bool) or not isinstance(every, (int, np.integer)) or not 1 <= every <= limits.MOST_NUMBER:
            raise RefusedInput("requests", None, "every", every, f"a whole number from 1 to {limits.MOST_NUMBER}")
        if zone is not None and "time" in table.frame.columns:
            table = replace(table, frame=table.frame.assign(time=in_zone(table, zone)))
        self.table, self.every, self.far, self.zone, self.zero = table, int(every), far, zone, None
        self.seconds = self._seconds(start)
        self.riders, self.persons = self._riders(), self._persons()
        self.seals = self._seals(until)
        if len(self) + len(self.seals) > limits.MOST_ROWS:
            raise RefusedInput(table.file, reason=f"{len(self)} riders and {len(self.seals)} seals are more than "
                               f"{limits.MOST_ROWS} rows: take a longer every= or a shorter span")

    def __len__(self) -> int:
        """How many requests there are."""
        return len(self.table.frame)

    def __repr__(self) -> str:
        return f"<Requests of {len(self)} riders, {len(self.seals)} seals>"

    @classmethod
    def from_csv(cls, path: Path, every: int = 60, start: Any = None, until: Optional[int] = None,
                 far: float = FAR, zone: Optional[str] = None) -> "Requests":
        """Reads a CSV file with the columns that `from_frame` takes."""
        return cls(read_csv(path), every, start, until, far, zone)

    @classmethod
    def from_frame(cls, frame: Any, every: int = 60, start: Any = None, until: Optional[int] = None,
                   far: float = FAR, zone: Optional[str] = None) -> "Requests":
        """Takes a frame with a row for each request.

        `time` has whole seconds, or times of day as 8:05 or 08:05:30 from the midnight that is second 0 on, or moments with a
        time zone. Of moments second 0 is `start`, or the midnight before the first request: in the zone of the column, of
        texts in `zone`, or else in UTC. Dates that say no time zone are taken in `zone`, as "America/New_York", and refused
        without one; so are those like 01/31/2015 07:05:39 PM. The column may be called `second`, too. `from` and `to` are nodes, or `from_lat`, `from_lon`, `to_lat`, `to_lon` are
        places (degrees; metres where the network has no degrees), which go to the nearest node, within `far` metres.
        `rider` is a number that no other row has; without it riders count from 1 in the order of rows. `persons` is from
        1 to 6; without it each rider is one person. Every `every` seconds a batch is sealed, with all who asked before;
        the last seal is the first behind the last request, or the last up to `until` (seconds) where that is later.

        A RefusedInput names the row and the column of what isn't taken.

        >>> import pandas as pd
        >>> Requests.from_frame(pd.DataFrame({"from": [2], "to": [4], "time": ["noon"]}), every=30)
        Traceback (most recent call last):
        ridepool.faults.RefusedInput: requests, line 1, time: 'noon' is not seconds, a time of day, or a moment with its time zone
        """
        return cls(Table(frame, "requests"), every, start, until, far, zone)

    def _seconds(self, start: Any) -> Numbers:
        """The second of each request."""
        of_day = times_of_day(self.table)
        if of_day is not None:
            return of_day
        times = moments(self.table)
        if times is None:
            return self.table.whole("time", 0, limits.MOST_NUMBER)
        if getattr(times.dt, "tz", None) is None:
            raise self.table.refused(0, "time", "a moment with its time zone")
        if self.zone is not None:
            times = times.dt.tz_convert(self.zone)
        self.zero = pd.Timestamp(start) if start is not None else times.min().normalize() if len(times) else None
        if self.zero is not None and self.zero.tzinfo is None:
            raise RefusedInput("requests", None, "start", start, "a moment with its time zone")
        passed = np.floor((times - self.zero).dt.total_seconds().to_numpy())
        early = ~(passed >= 0) | (passed > limits.MOST_NUMBER)
        if early.any():
            raise self.table.refused(int(np.argmax(early)), "time", f"a moment from {self.zero} on")
        return np.asarray(passed, dtype=np.int64)

    def _riders(self) -> Numbers:
        """The number of each rider."""
        if "rider" not in self.table.frame.columns:
            return np.arange(1, len(self) + 1, dtype=np.int64)
        riders = self.table.whole("rider", 0, limits.MOST_NUMBER)
        self.table.only_once("rider", riders)
        return riders

    def _persons(self) -> Numbers:
        """How many persons each rider is."""
        if "persons" not in self.table.frame.columns:
            return np.ones(len(self), dtype=np.int64)
        return self.table.whole("persons", 1, limits.MOST_PARTY)

    def _seals(self, until: Optional[int]) -> Numbers:
        """The seconds of the seals."""
        if not len(self):
            return np.array([], dtype=np.int64)
        first, last = ((int(it) // self.every + 1) * self.every for it in (self.seconds.min(), self.seconds.max()))
        last = max(last, (until or 0) // self.every * self.every)
        if last > limits.MOST_NUMBER:
            raise RefusedInput(self.table.file, None, "time", last, f"a last seal up to {limits.MOST_NUMBER}")
        if (last - first) // self.every > limits.MOST_ROWS:
            raise RefusedInput(self.table.file, None, "time", last - first, reason=f"{last - first} seconds by every="
                               f"{self.every} are more than {limits.MOST_ROWS} seals")
        return np.arange(first, last + 1, self.every, dtype=np.int64)

    def _end(self, net: Optional[Network], end: str) -> Numbers:
        """The node of each rider's begin or end. Without a network these are the numbers that stand there."""
        if net is not None:
            return placed(self.table, net, end, f"{end}_lat", f"{end}_lon", self.far)
        self.table.need([end])
        return self.table.whole(end, 0, limits.MOST_NUMBER)

    def placed(self, net: Optional[Network]) -> Any:
        """The requests as a frame in the order in which they are made: rider, origin, destination, second, persons."""
        origins, destinations = self._end(net, "from"), self._end(net, "to")
        frame = pd.DataFrame({"rider": self.riders, "origin": origins, "destination": destinations,
                              "second": self.seconds, "persons": self.persons})
        return frame.sort_values("second", kind="stable", ignore_index=True)

    def script(self, net: Optional[Network] = None) -> str:
        """The day as a text of script.csv: a round of requests, then one with their seal, and so on. Places need the
        network; without one nodes aren't judged."""
        asked = self.placed(net)
        batch = np.searchsorted(self.seals, asked["second"].to_numpy(), side="right")
        columns = ("rider", "origin", "destination", "second", "persons")
        submits = pd.DataFrame({"round": 2 * batch, "lane": 0, "command": "submit",
                                **{name: asked[column].astype(str) for name, column in zip("abcde", columns)}})
        seals = pd.DataFrame({"round": 2 * np.arange(len(self.seals)) + 1, "lane": 0, "command": "seal",
                              "a": self.seals.astype(str), "b": "", "c": "", "d": "", "e": ""})
        rows = pd.concat([submits, seals], ignore_index=True).sort_values("round", kind="stable")
        return str(rows.to_csv(index=False, columns=list(limits.SCRIPT)))
