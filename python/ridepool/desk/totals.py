"""What a day has come to: riders served, waits by quantile, seconds with and without riders, rides that were shared."""

from __future__ import annotations

from typing import Any, Dict, Iterable, List, NamedTuple, Sequence, Tuple

QUANTILES = (50, 90, 95, 99, 100)


class Trip(NamedTuple):
    """A ride that is over: its vehicle, and the seconds at which it was asked for, begun and ended."""

    vehicle: int
    asked: int
    pickup: int
    dropoff: int


def totals_of(trips: Sequence[Trip]) -> Dict[str, Any]:
    """The totals of rides that are over."""
    waits = sorted(it.pickup - it.asked for it in trips)
    of_vehicle: Dict[int, List[Tuple[int, int]]] = {}
    for it in trips:
        of_vehicle.setdefault(it.vehicle, []).append((it.pickup, it.dropoff))
    taken = [taken_by(spans) for spans in of_vehicle.values()]
    whole = sum(max(end for _, end in spans) - min(start for start, _ in spans) for spans in of_vehicle.values())
    occupied = sum(seconds for seconds, _ in taken)
    return {"waits": {str(share): quantile(waits, share) for share in QUANTILES},
            "mean_wait": round(sum(waits) / len(waits)) if waits else None,
            "shared": sum(shared for _, shared in taken), "vehicles_used": len(of_vehicle),
            "seconds_with_riders": occupied, "seconds_without_riders": whole - occupied}


def quantile(values: Sequence[int], share: int) -> Any:
    """The least value that so many of a hundred reach at most."""
    return values[max(0, -(-len(values) * share // 100) - 1)] if values else None


def taken_by(spans: Iterable[Tuple[int, int]]) -> Tuple[int, int]:
    """The seconds that at least one of a vehicle's rides covers, and how many rides share a second with another."""
    seconds, shared, end, last = 0, set(), -1, -1
    for at, (start, stop) in enumerate(sorted(spans)):
        if start < end:
            shared |= {at, last}
        seconds += max(0, stop - max(start, end))
        if stop > end:
            end, last = stop, at
    return seconds, len(shared)
