"""Parts the nodes of a city into zones of about equal demand, by k-means on coordinates."""

from typing import Any, List, Sequence, Tuple

import numpy as np
import numpy.typing as npt

from ridepool.words import Fault

STEPS, EVEN = 400, 0.01
Array = npt.NDArray[Any]


def zones_of(places: Sequence[Tuple[float, float]], demand: Sequence[int], count: int, seed: int) -> List[int]:
    """The zone of each node, from 0: k-means puts a centre where the demand is, and a node belongs to the centre
    nearest to it, where a zone with too little demand counts as nearer."""
    from scipy.cluster.vq import kmeans2

    at, riders = np.array(places, float), np.array(demand)
    if count == 1:
        return [0] * len(at)
    if (riders > 0).sum() < count:
        raise Fault(f"zones={count}: riders begin at {(riders > 0).sum()} nodes alone")
    points = np.repeat(at, riders, axis=0)
    centres, _ = kmeans2(points, count, minit="++", seed=seed)
    squares = ((at[:, None, :] - centres[None, :, :]) ** 2).sum(axis=2)
    return [int(zone) for zone in evened(squares, riders)]


def evened(squares: Array, demand: Array) -> Array:
    """The zone of each node, by its squared distances to the centres less a number for each zone, found step by step:
    it grows where the zone has less than its part of the demand."""
    count = squares.shape[1]
    part, step = demand.sum() / count, squares.min(axis=1).mean()
    nearer, least = np.zeros(count), np.inf
    best: Array = squares.argmin(axis=1)
    for at in range(STEPS):
        zones = (squares - nearer).argmin(axis=1)
        loads = np.bincount(zones, weights=demand, minlength=count) / part
        uneven = abs(loads - 1).max()
        if uneven < least:
            least, best = uneven, zones
        if uneven < EVEN:
            break
        nearer += step * (1 - loads) * 10 / (10 + at)
    return best


def parts_of(whole: int, weights: Sequence[float]) -> List[int]:
    """Whole numbers, at least 1 each, that add up to `whole` and are in proportion to weights: largest remainders."""
    rest, total = whole - len(weights), sum(weights)
    shares = [rest * weight / total for weight in weights]
    parts = [int(share) for share in shares]
    order = sorted(range(len(parts)), key=lambda at: (parts[at] - shares[at], at))
    for at in order[:rest - sum(parts)]:
        parts[at] += 1
    return [part + 1 for part in parts]


def at_most(parts: Sequence[int], most: int) -> List[int]:
    """The same whole in as many parts, none above `most` where the whole allows it: what is above goes to the smallest.

    >>> at_most([515, 495, 490], 500), at_most([502, 502], 500)
    ([500, 500, 500], [502, 502])
    """
    if sum(parts) > most * len(parts):
        return list(parts)
    held = [min(part, most) for part in parts]
    for _ in range(sum(parts) - sum(held)):
        held[held.index(min(held))] += 1
    return held
