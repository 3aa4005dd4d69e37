"""The rules of a batch that is too large for every set of riders and every plan.

`rules.py` says what the rules are. Here the same is found by cutting what can't be: a set of riders is tried for a vehicle
only where the vehicle serves each set with one rider less, and a pair only where each of the two can be served. Times come
by a search from each node. That no plan costs less than the bound has to be shown by the printed tree.
"""

import heapq
from collections import Counter, defaultdict
from functools import cached_property, lru_cache
from itertools import combinations
from typing import Any, Callable, Dict, Iterable, Iterator, List, Optional, Sequence, Tuple

from inputs import Run
from rules import NEVER, UNIT, Batch, Leg, Plans, Task, best_order

Drive = Callable[[int, int], float]
Row = Tuple[int, Tuple[int, ...], int]
Move = Tuple[int, int, int]
KEPT = 4000  # searches whose times are kept


def searches(arcs: Iterable[Tuple[int, int, int]]) -> Drive:
    """The least seconds over all walks between each two nodes, as a function; NEVER where there is no walk."""
    streets = defaultdict(list)
    for start, end, seconds in arcs:
        streets[start].append((end, seconds))

    @lru_cache(maxsize=KEPT)
    def times_from(start: int) -> Dict[int, int]:
        times, waiting = {start: 0}, [(0, start)]
        while waiting:
            second, node = heapq.heappop(waiting)
            for end, seconds in streets[node] if second == times[node] else ():
                if second + seconds < times.get(end, NEVER):
                    times[end] = second + seconds
                    heapq.heappush(waiting, (second + seconds, end))
        return times

    return lambda start, end: times_from(start).get(end, NEVER)


class LargeBatch(Batch):
    """A batch whose rows are found by size. Whoever leaves a rider out is as soon everywhere and has more free seats, so a
    set is a row only where each set with one rider less is one."""

    def all_rows(self) -> List[Row]:
        return [row for vehicle in self.snapshot.vehicles for row in sorted(self.rows_of(vehicle), key=by_size)]

    def rows_of(self, vehicle: Any) -> Iterator[Row]:
        """The rows of a vehicle, size by size."""
        names: List[Tuple[int, ...]] = [()]
        ready = max(vehicle.second, self.snapshot.now)
        near = [it.rider for it in self.legs.values() if ready + self.drive(vehicle.node, it.origin) <= it.pickup_by]
        while names:
            found = []
            for riders in names:
                best = best_order(self.task(vehicle, [self.legs[it] for it in riders]), self.drive)
                if best:
                    found.append(riders)
                    yield vehicle.id, riders, best[0]
            if found and len(found[0]) == 1:
                near = [it for it, in found]
            names = list(grown(found, near, self.settings.trip))

    def rider_vehicle(self) -> List[Tuple[int, int]]:
        return [(vehicle, riders[0]) for vehicle, riders, _ in self.rows if len(riders) == 1]

    def rider_rider(self) -> List[Tuple[int, int]]:
        return self.pairs

    @cached_property
    def pairs(self) -> List[Tuple[int, int]]:
        alone = {it.rider for it in self.legs.values() if self.can_share([it], [it])}
        legs = [it for it in self.legs.values() if it.rider in alone]
        pairs = [it for it in combinations(legs, 2) if self.are_near(*it) and self.can_share(it, it)]
        return [(one.rider, other.rider) for one, other in pairs]

    def are_near(self, one: Leg, other: Leg) -> bool:
        """Whether one of the two can be reached in time from where the other asked."""
        now = self.snapshot.now
        there = now + self.drive(one.origin, other.origin) <= other.pickup_by
        return there or now + self.drive(other.origin, one.origin) <= one.pickup_by

    def can_share(self, starts: Sequence[Leg], legs: Sequence[Leg]) -> bool:
        """Whether an empty vehicle at one of the starts can serve the riders."""
        seats, dwell, now = self.most_seats, self.settings.dwell, self.snapshot.now
        tasks = (Task(it.origin, now, seats, dwell, (), tuple(legs)) for it in starts)
        return any(best_order(task, self.drive) for task in tasks)

    def plans(self) -> "LargePlans":
        return LargePlans(self)

    @staticmethod
    def best_matching(pairs: Sequence[Move]) -> Tuple[int, int]:
        return best_matching(pairs)


def by_size(row: Row) -> Tuple[int, Tuple[int, ...]]:
    return len(row[1]), row[1]


def grown(found: Sequence[Tuple[int, ...]], near: Sequence[int], most: int) -> Iterator[Tuple[int, ...]]:
    """The sets with one rider more of which each part with one rider less was found."""
    if not found or len(found[0]) == most:
        return
    known = set(found)
    for riders in found:
        for name in near:
            if not riders or name > riders[-1]:
                larger = (*riders, name)
                if all(larger[:k] + larger[k + 1 :] in known for k in range(len(larger))):
                    yield larger


class LargePlans(Plans):
    """The plans of a large batch. Their least cost isn't known."""

    def least_cost(self) -> None:
        return None

    def better_row(self, plan: Sequence[int]) -> Optional[int]:
        served = Counter(name for number in plan for name in self.rows[number][1])
        for number in plan:
            vehicle, names, cost = self.rows[number]
            others = served - Counter(names)
            must = self.live - others.keys()
            for other in self.of[vehicle]:
                riders = self.rows[other][1]
                saved = cost - self.rows[other][2] + self.penalty * (len(riders) - len(names))
                if saved > 0 and must <= {*riders} and others.keys().isdisjoint(riders):
                    return int(other)
        return None

    @cached_property
    def with_rider(self) -> Dict[int, List[Tuple[int, int]]]:
        """By rider: the rows that have her, each with its vehicle."""
        found: Dict[int, List[Tuple[int, int]]] = {name: [] for name in self.riders}
        for number, (vehicle, names, _) in enumerate(self.rows):
            for name in names:
                found[name].append((vehicle, number))
        return found

    def first_fit(self, usable: Dict[int, List[int]]) -> List[int]:
        least = {vehicle: min(self.rows[n][2] for n in numbers) for vehicle, numbers in usable.items()}
        is_usable = {number for numbers in usable.values() for number in numbers}
        of: Dict[int, int] = {}
        for rider in self.riders:
            room = [UNIT * self.penalty]
            for vehicle, number in self.with_rider[rider]:
                if number in is_usable:
                    _, names, cost = self.rows[number]
                    room.append(UNIT * (cost - least[vehicle]) - sum(of[name] for name in names if name < rider))
            of[rider] = min(room)
        return [of[it] for it in self.riders]


class LargeRun(Run):
    """A run whose batches are large. Each batch is made once, however often a report is judged."""

    def __init__(self, folder: Any, words: Sequence[str]) -> None:
        super().__init__(folder, words)
        self.made: Dict[str, LargeBatch] = {}

    @cached_property
    def drive(self) -> Drive:
        return searches(self.arcs)

    def batch(self, snapshot: Any) -> LargeBatch:
        key = repr(snapshot)
        if key not in self.made:
            self.made[key] = LargeBatch(snapshot, self.settings, self.drive)
        return self.made[key]


def best_matching(pairs: Sequence[Move]) -> Tuple[int, int]:
    """How many pairs a matching can have at most, and the least sum of seconds of such a matching. One vehicle more is
    matched at a time, by the change that adds the fewest seconds."""
    seconds = {(vehicle, rider): cost for vehicle, rider, cost in pairs}
    taken: Dict[int, int] = {}
    while True:
        more = cheapest_change(seconds, taken)
        if more is None:
            return len(taken), sum(seconds[vehicle, rider] for rider, vehicle in taken.items())
        taken.update(more)


def cheapest_change(seconds: Dict[Tuple[int, int], int], taken: Dict[int, int]) -> Optional[Dict[int, int]]:
    """Which vehicle each rider on the way then has, where one vehicle more is matched; None where none can be. `taken`
    says which vehicle a rider has."""
    free = {vehicle for vehicle, _ in seconds} - {*taken.values()}
    rider_of = {vehicle: rider for rider, vehicle in taken.items()}
    cost: Dict[int, float] = {}
    before: Dict[int, int] = {}
    is_changed = True
    while is_changed:
        is_changed = False
        for (vehicle, rider), own in seconds.items():
            held = rider_of.get(vehicle)
            if held == rider:
                continue
            start = 0.0 if vehicle in free else cost.get(rider_of[vehicle], NEVER) - seconds[vehicle, rider_of[vehicle]]
            if start + own < cost.get(rider, NEVER):
                cost[rider], before[rider], is_changed = start + own, vehicle, True
    ends = [rider for rider in cost if rider not in taken]
    if not ends:
        return None
    rider: Optional[int] = min(ends, key=lambda it: (cost[it], it))
    more: Dict[int, int] = {}
    while rider is not None:
        more[rider] = before[rider]
        rider = rider_of.get(before[rider])
    return more
