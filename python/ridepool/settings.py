"""The settings of a day."""

from dataclasses import dataclass, fields
from types import MappingProxyType

from ridepool.faults import RefusedInput
from ridepool.inputs.limits import MOST_NUMBER

RANGES = MappingProxyType({
    "wait": (0, 7200),
    "delay": (0, 7200),
    "trip": (1, 6),
    "penalty": (0, MOST_NUMBER),
    "budget": (1, 50_000),
    "pairs": (1, 2_000_000),
    "workers": (1, 64),
    "dwell": (0, 600),
})
TIMES = ("rows", "labels")


@dataclass(frozen=True)
class Settings:
    """What a day is planned by.

    `wait` (seconds, 0 to 7200): how long a rider waits at most for the pickup. `delay` (seconds, 0 to 7200): how much
    later than the earliest possible arrival a rider arrives at most. `trip` (1 to 6): riders that one trip picks up at
    most. `penalty` (seconds): what a rider left out costs. `budget`: nodes of the search tree at most. `pairs`:
    vehicle-trip pairs of a batch at most. `workers`: threads; the result is the same for every number. `proof`: whether
    the tree that shows each bound is printed, which `Day.batch(n).tree` and an audit need. `dwell` (seconds, 0 to 600):
    how long a stop takes. `times`: "rows" or "labels", how travel times are found; the result is the same.

    A value out of its range is a RefusedInput.

    >>> Settings(wait=300).words()[:2]
    ['wait=300', 'delay=180']
    """

    wait: int = 120
    delay: int = 180
    trip: int = 4
    penalty: int = 10_000
    budget: int = 200
    pairs: int = 200_000
    workers: int = 4
    proof: bool = False
    dwell: int = 0
    times: str = "rows"

    def __post_init__(self) -> None:
        for name, (least, most) in RANGES.items():
            value = getattr(self, name)
            if isinstance(value, bool) or not isinstance(value, int) or not least <= value <= most:
                raise RefusedInput("settings", None, name, value, f"a whole number from {least} to {most}")
        if self.times not in TIMES:
            raise RefusedInput("settings", None, "times", self.times, "rows or labels")

    def words(self) -> "list[str]":
        """The words of a call."""
        values = ((field.name, getattr(self, field.name)) for field in fields(self))
        return [f"{name}={int(value) if name != 'times' else value}" for name, value in values]
