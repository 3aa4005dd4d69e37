"""What goes wrong in a day, the most urgent first: for the page's list, the bar and `GET /trouble`."""

from __future__ import annotations

from dataclasses import asdict, dataclass
from typing import Any, Iterator, Optional

from ridepool.sessions.state import Ride, State

LATE_SECONDS = 30  # a stop that is overdue by less is as good as in time
SOON_SECONDS = 60
EXPIRED_SHOWN = 900
MOST_SHOWN = 200
KINDS = ("hangs", "overflow", "slow-plan", "late-vehicle", "broken-promise", "expires-soon", "expired", "silent")


@dataclass(frozen=True)
class Trouble:
    """One thing that goes wrong. `second` is the book's second from which it counts: for `expires-soon` the last one
    at which the rider may be picked up, for all others the one since which it is so."""

    kind: str
    text: str
    second: int
    ride: Optional[int] = None
    vehicle: Optional[int] = None
    batch: Optional[int] = None

    def urgency(self) -> tuple[int, int]:
        """The place in the list: first by kind, then the longest first."""
        return KINDS.index(self.kind), self.second

    def view(self, now: int) -> dict[str, Any]:
        """The trouble in the words of the desk's answers. `late` counts from `second`; before it, it is negative."""
        return {**asdict(self), "late": now - self.second}


class Watch:
    """Looks for trouble in the book as it is. `every` and `silent` are seconds; with 0 `silent` looks for nothing."""

    def __init__(self, every: int, silent: int) -> None:
        self.every, self.silent = every, silent

    def found(self, state: State, now: int) -> list[Trouble]:
        """All trouble of riders, vehicles and plans, the most urgent first."""
        looks = (self.overflows(state), self.late_vehicles(state, now), self.broken_promises(state, now),
                 self.expiring(state, now), self.expired(state, now), self.silent_ones(state, now))
        return sorted((it for look in looks for it in look), key=Trouble.urgency)

    def overflows(self, state: State) -> Iterator[Trouble]:
        """The last plan, where there were too many pairs."""
        last = state.batches.get(max(state.batches, default=0))
        if last is not None and last["overflow"]:
            yield Trouble("overflow", overflow_text(last["batch"], setting(state, "pairs")), last["second"],
                          batch=last["batch"])

    def late_vehicles(self, state: State, now: int) -> Iterator[Trouble]:
        """Vehicles whose next stop is overdue, or that can't drop all their passengers in time."""
        last = state.batches.get(max(state.batches, default=0), {})
        for number in state.vehicles:
            kind, ride, node, second = next(iter(state.stops(number)), ("", 0, 0, None))
            if second is not None and now - second >= LATE_SECONDS:
                does = "picks up" if kind == "pick" else "drops off"
                yield Trouble("late-vehicle", f"Vehicle {number} {does} rider {ride} at {node}", second, ride, number)
            elif number in last.get("late", ()) and state.vehicles[number].aboard:
                yield Trouble("late-vehicle", f"Vehicle {number} can't drop all its passengers in time",
                              last["second"], None, number)

    def broken_promises(self, state: State, now: int) -> Iterator[Trouble]:
        """Promised riders whose wait is over, and riders whose promise lapsed in the last plan."""
        for ride in pool(state):
            latest = ride.second + setting(state, "wait")
            if ride.state == "promised" and latest < now:
                text = (f"Rider {ride.ride}, promised to vehicle {ride.vehicle}, wasn't picked up in time and expires "
                        "with the next plan. Enter the pickup if the rider is aboard")
                yield Trouble("broken-promise", text, latest, ride.ride, ride.vehicle)
        last = state.batches.get(max(state.batches, default=0), {})
        for number in last.get("lapsed", ()):
            if number in state.pool:
                yield Trouble("broken-promise", f"Rider {number}'s promise couldn't be kept and is lapsed",
                              last["second"], number, state.rides[number].vehicle)

    def expiring(self, state: State, now: int) -> Iterator[Trouble]:
        """Riders without a promise whose wait is over soon."""
        for ride in pool(state):
            latest = ride.second + setting(state, "wait")
            if ride.state == "waiting" and latest - now <= max(SOON_SECONDS, 2 * self.every):
                yield Trouble("expires-soon", f"Rider {ride.ride} at {ride.origin} has no vehicle and expires", latest,
                              ride.ride)

    def expired(self, state: State, now: int) -> Iterator[Trouble]:
        """Riders who expired within the last minutes."""
        for batch in reversed(state.batches.values()):
            if batch["second"] < now - EXPIRED_SHOWN:
                return
            for number in batch["expired"]:
                yield Trouble("expired", f"Rider {number} at {state.rides[number].origin} wasn't picked up in time",
                              batch["second"], number, batch=batch["batch"])

    def silent_ones(self, state: State, now: int) -> Iterator[Trouble]:
        """Vehicles of which nothing was entered for long."""
        for number, vehicle in state.vehicles.items():
            if self.silent and now - vehicle.second >= self.silent:
                yield Trouble("silent", f"Vehicle {number} hasn't reported", vehicle.second, None, number)


def pool(state: State) -> Iterator[Ride]:
    """The riders who wait or are promised, by their numbers."""
    return (state.rides[it] for it in sorted(state.pool))


def setting(state: State, name: str) -> int:
    """A setting of the day, as the transcript's second line has it."""
    report = state.lines.report
    return 0 if report is None else int(report.settings[name])


def overflow_text(batch: int, pairs: int) -> str:
    """What an overflow means and what can be done."""
    return (f"Plan {batch}: nothing was planned, since there are more than {pairs:,} pairs of a vehicle and riders. "
            "Promises stand as they were. Cancel rides that can wait, so that the next plan has fewer pairs; "
            "pairs= and trip= are those of the whole day, and a new day may have others")
