"""A driver's list of stops."""

from typing import Any, Optional

import pandas as pd

from ridepool.days.day import Day
from ridepool.faults import RefusedInput

WORDS = {"pick": "pick up", "drop": "drop off"}


def hours(second: int) -> str:
    """Seconds as hours, minutes and seconds."""
    return f"{second // 3600:02d}:{second // 60 % 60:02d}:{second % 60:02d}"


def moment(day: Day, second: int, zone: Optional[str]) -> str:
    """When a second is."""
    if zone is None or day.zero is None:
        return hours(second)
    return str((day.zero + pd.Timedelta(seconds=second)).tz_convert(zone).strftime("%Y-%m-%d %H:%M:%S"))


def line_of(day: Day, stop: Any, zone: Optional[str]) -> str:
    """A stop."""
    persons = "1 person" if stop.persons == 1 else f"{stop.persons} persons"
    return (f"{stop.order:>3}  {moment(day, stop.second, zone)}  {WORDS[stop.stop]:<8}  rider {stop.rider} ({persons})  "
            f"at {day.net.place(stop.node)}  aboard then: {stop.aboard}")


def sheet_of(day: Day, vehicle: int, zone: Optional[str]) -> str:
    """The whole list."""
    if vehicle not in day.fleet.vehicles:
        raise RefusedInput("fleet", None, "vehicle", vehicle, "a vehicle of the fleet")
    if zone is not None and day.zero is None:
        raise RefusedInput("requests", None, "zone", zone, reason="the requests had seconds, so no moment of second 0 is "
                           "known: give them times with a zone")
    stops = day.stops[day.stops["vehicle"] == vehicle]
    head = f"Vehicle {vehicle}, {len(stops)} stops" + (f", times of {zone}" if zone else "")
    return "\n".join([head, *(line_of(day, stop, zone) for stop in stops.itertuples())]) + "\n"
