"""The rules of a batch, taken word for word: every set of riders, every order of stops, every plan.

Nothing here is clever, and nothing is taken from the crates. It is for small batches.

A task asks which stops a vehicle makes: it stands at a place, is ready at a second, has seats, passengers who are to be
dropped, and riders who are to be picked up and dropped. An order of stops drops each passenger, and picks each rider up
before it drops her. The first stop is reached after the drive from where the vehicle stands; each next one after the
dwell at the stop before it and the drive. No stop waits. An order serves its task where each place can be reached, each
pickup and each drop-off is no later than its rider allows, and the persons aboard are never more than the seats. Its
delay is the sum, over its drop-offs, of the seconds by which they are later than ideal.
"""

from itertools import combinations
from math import inf as NEVER
from typing import NamedTuple

UNIT = 1024  # multipliers count 1024ths of a second


class Leg(NamedTuple):
    """What an order owes one rider."""

    rider: int
    origin: int
    destination: int
    pickup_by: int
    ideal: int
    dropoff_by: int
    party: int


class Task(NamedTuple):
    place: int
    ready: int
    seats: int
    dwell: int
    aboard: tuple
    riders: tuple


class Stop(NamedTuple):
    pick: bool
    rider: int
    node: int
    second: int

    def __str__(self):
        return f"{'pick' if self.pick else 'drop'}:{self.rider}@{self.node}:{self.second}"


def travel_times(arcs):
    """The least seconds over all walks between each two nodes, as a function; NEVER where there is no walk."""
    nodes = sorted({node for arc in arcs for node in arc[:2]})
    least = {(a, b): 0 if a == b else NEVER for a in nodes for b in nodes}
    for a, b, seconds in arcs:
        least[a, b] = min(least[a, b], seconds)
    for by in nodes:
        for a in nodes:
            for b in nodes:
                least[a, b] = min(least[a, b], least[a, by] + least[by, b])
    return lambda a, b: least[a, b]


def best_order(task, drive, limits=True):
    """The least delay of the orders that serve the task, and one such order; None where none serves. Without limits, of
    the orders whose places can all be reached."""
    best = None

    def go_on(place, leaves, load, waiting, aboard, delay, stops):
        nonlocal best
        if best is not None and delay >= best[0]:
            return
        if not waiting and not aboard:
            best = delay, stops
            return
        for leg in waiting:
            second = leaves + drive(place, leg.origin)
            if second <= leg.pickup_by and load + leg.party <= task.seats:
                stop = Stop(True, leg.rider, leg.origin, second)
                rest = tuple(other for other in waiting if other is not leg)
                go_on(leg.origin, second + task.dwell, load + leg.party, rest, (*aboard, leg), delay, (*stops, stop))
        for leg in aboard:
            second = leaves + drive(place, leg.destination)
            if second < NEVER and (second <= leg.dropoff_by or not limits):
                stop = Stop(False, leg.rider, leg.destination, second)
                rest = tuple(other for other in aboard if other is not leg)
                late = max(0, second - leg.ideal)
                go_on(leg.destination, second + task.dwell, load - leg.party, waiting, rest, delay + late, (*stops, stop))

    go_on(task.place, task.ready, sum(leg.party for leg in task.aboard), task.riders, task.aboard, 0, ())
    return best


class Batch:
    """A batch as it was sealed, with all that its answer is judged by.

    A rider is picked up at most `wait` seconds after she asked, and dropped at most `delay` seconds after the ideal
    second, which is when she asked plus the drive (or when she asked, where there is no way). The riders who were
    promised a vehicle are held by it. A vehicle keeps its promises where it holds no more riders than a trip may have
    and some order serves them all, with its passengers, no later than promised. Its riders are then live: the promised
    second is their latest pickup, whichever vehicle comes. Other promised riders have lapsed, and are asked for like
    any other. A vehicle is late where no order drops its passengers in time.
    """

    def __init__(self, snapshot, settings, drive):
        self.snapshot, self.settings, self.drive = snapshot, settings, drive
        self.most_seats = max((it.seats for it in snapshot.vehicles), default=0)
        legs = {it.id: self.leg_of(it, it.second + settings.wait) for it in snapshot.riders}
        self.aboard = {it.id: tuple(self.leg_of(who, NEVER) for who in it.aboard) for it in snapshot.vehicles}
        self.late = {it.id for it in snapshot.vehicles if not self.serves(it, ())}
        self.held = {it.id: () for it in snapshot.vehicles}
        self.lapsed = []
        promised = {it.id: it.promise for it in snapshot.riders if it.promise}
        for vehicle in snapshot.vehicles:
            names = [name for name in legs if name in promised and promised[name][0] == vehicle.id]
            kept = {name: legs[name]._replace(pickup_by=min(promised[name][1], legs[name].pickup_by)) for name in names}
            if len(names) <= settings.trip and self.serves(vehicle, kept.values()):
                self.held[vehicle.id] = tuple(names)
                legs.update(kept)
        self.live = {name for names in self.held.values() for name in names}
        self.lapsed = [name for name in legs if name in promised and name not in self.live]
        self.legs = legs
        self.rows = self.all_rows()
        self.number_of = {row[:2]: number for number, row in enumerate(self.rows)}

    def leg_of(self, rider, pickup_by):
        drive = self.drive(rider.origin, rider.destination)
        ideal = rider.second + (drive if drive < NEVER else 0)
        limit = ideal + self.settings.delay
        return Leg(rider.id, rider.origin, rider.destination, pickup_by, ideal, limit, rider.party)

    def task(self, vehicle, legs):
        ready = max(vehicle.second, self.snapshot.now)
        return Task(vehicle.node, ready, vehicle.seats, self.settings.dwell, self.aboard[vehicle.id], tuple(legs))

    def serves(self, vehicle, legs):
        return best_order(self.task(vehicle, legs), self.drive) is not None

    def all_rows(self):
        """Each vehicle with each set of riders that some order of it serves, and the least delay of such an order."""
        rows = []
        for vehicle in self.snapshot.vehicles:
            # whoever isn't reached in time by the straight drive is in no serving order
            ready = max(vehicle.second, self.snapshot.now)
            near = [it for it in self.legs.values() if ready + self.drive(vehicle.node, it.origin) <= it.pickup_by]
            for size in range(self.settings.trip + 1):
                for legs in combinations(near, size):
                    best = best_order(self.task(vehicle, legs), self.drive)
                    if best:
                        rows.append((vehicle.id, tuple(leg.rider for leg in legs), best[0]))
        return rows

    def rider_vehicle(self):
        """Each vehicle with each rider whom it can serve alone."""
        return [(it.id, leg.rider) for it in self.snapshot.vehicles for leg in self.legs.values() if self.serves(it, [leg])]

    def rider_rider(self):
        """Each two riders whom an empty vehicle could serve, which stands where one of them asked and has as many seats
        as any vehicle."""
        def can_share(pair):
            starts = [leg.origin for leg in pair]
            tasks = [Task(it, self.snapshot.now, self.most_seats, self.settings.dwell, (), pair) for it in starts]
            return any(best_order(task, self.drive) for task in tasks)

        return [(a.rider, b.rider) for a, b in combinations(self.legs.values(), 2) if can_share((a, b))]

    def plans(self):
        return Plans(self)

    @staticmethod
    def best_matching(pairs):
        return best_matching(pairs)


class Plans:
    """The plans of a batch: each vehicle that isn't late has one of its rows. A plan is lawful where no rider is in two
    rows and each live rider is in one. It costs its rows' delays, and the penalty for each rider in none."""

    def __init__(self, batch):
        self.rows, self.live, self.penalty = batch.rows, batch.live, batch.settings.penalty
        self.riders = list(batch.legs)
        self.of = {}
        for number, (vehicle, _, _) in enumerate(self.rows):
            self.of.setdefault(vehicle, []).append(number)
        wanted = [(it, batch.held[it]) for it in self.of]
        self.held = [next(n for n in self.of[it] if self.rows[n][1] == names) for it, names in wanted]

    def is_lawful(self, plan):
        served = [name for number in plan for name in self.rows[number][1]]
        return len({*served}) == len(served) and self.live <= {*served}

    def cost(self, plan):
        served = sum(len(self.rows[number][1]) for number in plan)
        return sum(self.rows[number][2] for number in plan) + self.penalty * (len(self.riders) - served)

    def better_row(self, plan):
        """A row that makes the plan cost less in place of its vehicle's, if there is one."""
        cost = self.cost(plan)
        for k, number in enumerate(plan):
            for other in self.of[self.rows[number][0]]:
                changed = [*plan[:k], other, *plan[k + 1 :]]
                if self.is_lawful(changed) and self.cost(changed) < cost:
                    return other
        return None

    def greedy(self):
        """Rows by falling size, then rising cost, then number: each is taken where its vehicle has none yet and none of
        its riders was taken."""
        taken, used = {}, set()
        for number in sorted(range(len(self.rows)), key=lambda it: (-len(self.rows[it][1]), self.rows[it][2], it)):
            vehicle, names, _ = self.rows[number]
            if vehicle not in taken and not used & {*names}:
                taken[vehicle] = number
                used |= {*names}
        return list(taken.values())

    def least_cost(self):
        """The least cost of all lawful plans, by what the vehicles so far can have cost for each set of riders."""
        place = {name: 1 << k for k, name in enumerate(self.riders)}
        costs = {0: 0}
        for numbers in self.of.values():
            with_next = {}
            for used, cost in costs.items():
                for number in numbers:
                    own = sum(place[name] for name in self.rows[number][1])
                    if not used & own:
                        both = used | own
                        with_next[both] = min(with_next.get(both, NEVER), cost + self.rows[number][2])
            costs = with_next
        must = sum(place[name] for name in self.live)
        left = {used: len(self.riders) - bin(used).count("1") for used in costs}
        return min(cost + self.penalty * left[used] for used, cost in costs.items() if used & must == must)

    def leaf_value(self, usable, multipliers):
        """What the multipliers show, in 1024ths of a second: no lawful plan over the usable rows costs less."""
        of = dict(zip(self.riders, multipliers))

        def reduced(number):
            _, names, cost = self.rows[number]
            return UNIT * cost - sum(of[name] for name in names)

        value = sum(min(map(reduced, numbers)) for numbers in usable.values())
        return value + sum(of[it] if it in self.live else min(of[it], UNIT * self.penalty) for it in self.riders)

    def first_fit(self, usable):
        """The first-fit multipliers: rider by rider, as much as no usable row that has her falls short of."""
        least = {vehicle: min(self.rows[n][2] for n in numbers) for vehicle, numbers in usable.items()}
        of = {}
        for rider in self.riders:
            room = [UNIT * self.penalty]
            for vehicle, numbers in usable.items():
                for n in numbers:
                    if rider in self.rows[n][1]:
                        spent = sum(of[name] for name in self.rows[n][1] if name < rider)
                        room.append(UNIT * (self.rows[n][2] - least[vehicle]) - spent)
            of[rider] = min(room)
        return [of[it] for it in self.riders]


def rounded_up(value):
    return -(-value // UNIT)


def best_matching(pairs):
    """How many pairs a matching can have at most, and the least sum of seconds of such a matching. Pairs are of a
    vehicle, a rider and seconds."""
    sums = {frozenset(): 0}
    for vehicle in {it[0] for it in pairs}:
        for riders, total in list(sums.items()):
            for _, rider, seconds in (it for it in pairs if it[0] == vehicle):
                if rider not in riders:
                    more = riders | {rider}
                    sums[more] = min(sums.get(more, NEVER), total + seconds)
    most = max(map(len, sums))
    return most, min(total for riders, total in sums.items() if len(riders) == most)
