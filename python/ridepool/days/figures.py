"""Figures of a day."""

from typing import Any, Optional

from ridepool.days.day import Day
from ridepool.draw.ground import Ground
from ridepool.inputs.streets import Streets


def streets_of(day: Day) -> Streets:
    """The streets of a day."""
    return Streets(list(zip(day.net.starts.tolist(), day.net.ends.tolist(), day.net.durations.tolist())))


def ground_of(day: Day) -> Ground:
    """What a map stands on."""
    places = dict(zip(day.net.names.tolist(), map(tuple, day.net.plane.tolist())))
    begin = dict(zip(day.fleet.vehicles.tolist(), day.fleet.nodes(day.net).tolist()))
    return Ground(places, streets_of(day), begin)


def figure_of(day: Day, batch: Optional[int], service: bool) -> Any:
    """The figure that is asked for."""
    if batch is not None:
        from ridepool.draw import batch_map

        return batch_map.draw(day.report, day.batch(batch).number, ground_of(day))
    if service:
        from ridepool.draw import service as service_figure

        return service_figure.draw(day.report, streets_of(day))
    from ridepool.draw import day as day_figure

    return day_figure.draw(day.report)
