"""`simulate`: drives a day by an own policy, with the rules of a driven day."""

from dataclasses import dataclass, field
from typing import Callable, Optional, Union

from ridepool.days.day import Day
from ridepool.faults import RefusedInput
from ridepool.inputs.fleet import Fleet
from ridepool.inputs.limits import MOST_NUMBER
from ridepool.inputs.network import NO_WAY, Network
from ridepool.inputs.requests import Requests
from ridepool.policies.known import Answer, Policy
from ridepool.policies.lawful import Lawful, lawful
from ridepool.policies.state import PICK, Asking, Decision, Standing, State
from ridepool.report.reader import Batch, Entry, Report, Stop, Trip
from ridepool.settings import Settings

MOST_WAITING = 1000


@dataclass
class Vehicle:
    """A vehicle on its way."""

    vehicle: int
    seats: int
    node: int
    second: int
    aboard: "list[int]" = field(default_factory=list)
    stops: "list[Stop]" = field(default_factory=list)
    target: Optional[int] = None


@dataclass
class Booked:
    """A rider whose request was accepted. `vehicle` and `promised` are those of a promise."""

    asking: Asking
    vehicle: Optional[int] = None
    promised: Optional[int] = None

    def view(self) -> Asking:
        """The rider as a policy is told."""
        it = self.asking
        latest = it.latest_pickup if self.promised is None else min(it.latest_pickup, self.promised)
        return Asking(it.rider, it.persons, it.origin, it.destination, it.request, latest, it.ideal, it.latest_dropoff,
                      self.vehicle, self.promised)


class Called(Policy):
    """A function as a policy."""

    def __init__(self, function: Callable[[State], Answer]) -> None:
        self.function = function

    @property
    def name(self) -> str:
        """The function's name."""
        return str(getattr(self.function, "__name__", "policy"))

    def plan(self, state: State) -> Answer:
        """What the function says."""
        return self.function(state)


class Simulation:
    """The book, the vehicles, and what happened so far."""

    def __init__(self, net: Network, fleet: Fleet, settings: Settings) -> None:
        self.net, self.settings, self.round = net, settings, 0
        columns = (fleet.vehicles, fleet.seats, fleet.nodes(net), fleet.seconds)
        self.vehicles = [Vehicle(*row) for row in sorted(zip(*(column.tolist() for column in columns)))]
        self.pool: "dict[int, Booked]" = {}
        self.riders: "dict[int, Booked]" = {}
        self.entries: "list[Entry]" = []
        self.batches: "list[Batch]" = []
        self.reached: "Optional[dict[int, set[int]]]" = {}
        self.told = 0

    def enter(self, command: str, fields: "tuple[int, ...]", reply: str, persons: int = 1) -> None:
        """A command with its reply."""
        if fields[-1] > MOST_NUMBER:
            raise RefusedInput("requests", reason=f"the day comes to second {fields[-1]}, and the last is {MOST_NUMBER}")
        self.entries.append(Entry(self.round, len(self.entries), 0, command, fields, persons, reply))

    def submit(self, rider: int, origin: int, destination: int, second: int, persons: int) -> None:
        """A request."""
        reply = "accepted"
        if origin == destination:
            reply = "refused same-place"
        elif len(self.pool) >= MOST_WAITING:
            reply = "refused pool-full"
        else:
            self.riders[rider] = self.pool[rider] = self.booked(rider, origin, destination, second, persons)
        self.enter("submit", (rider, origin, destination, second), reply, persons)

    def booked(self, rider: int, origin: int, destination: int, second: int, persons: int) -> Booked:
        """A rider with the limits."""
        direct = int(self.net.seconds_from(origin)[self.net.index(destination)])
        ideal = None if direct == NO_WAY else second + direct
        latest = None if ideal is None else ideal + self.settings.delay
        return Booked(Asking(rider, persons, origin, destination, second, second + self.settings.wait, ideal, latest))

    def cancel(self, rider: int) -> None:
        """A rider who waits no longer wants the ride. No stop may be planned for the rider."""
        del self.pool[rider]
        self.enter("cancel", (rider,), "cancelled")

    def arrive(self, vehicle: Vehicle, stop: Stop) -> None:
        """A stop that was made."""
        vehicle.node, vehicle.second = stop.node, stop.second
        if stop.kind == PICK:
            del self.pool[stop.rider]
            vehicle.aboard.append(stop.rider)
            self.enter("pickup", (vehicle.vehicle, stop.rider, stop.second), "picked")
        else:
            vehicle.aboard.remove(stop.rider)
            self.enter("dropoff", (vehicle.vehicle, stop.rider, stop.second), "dropped")

    def follow(self, vehicle: Vehicle, now: int) -> None:
        """What a vehicle does up to a seal, and where it is then."""
        due = [stop for stop in vehicle.stops if stop.second <= now]
        vehicle.stops = vehicle.stops[len(due):]
        leaves = due[-1].second + self.settings.dwell if due else vehicle.second
        for stop in due:
            self.arrive(vehicle, stop)
        goal = vehicle.stops[0].node if vehicle.stops else vehicle.target
        vehicle.node, vehicle.second = self.place(vehicle.node, leaves, goal, now)
        self.enter("report", (vehicle.vehicle, vehicle.node, vehicle.second), "placed")

    def place(self, node: int, leaves: int, goal: Optional[int], now: int) -> "tuple[int, int]":
        """Where a vehicle is at a seal that can leave a node at a second: on its way, the first node that it comes to."""
        if leaves > now:
            return node, leaves
        walk = [] if goal is None else self.net.walk(node, goal)
        if not walk:
            return node, now
        if leaves + walk[-1][1] <= now:
            return walk[-1][0], now
        return next((it, leaves + seconds) for it, seconds in walk if leaves + seconds >= now)

    def expire(self, now: int) -> "list[int]":
        """Those whose wait is over."""
        over = sorted(number for number, it in self.pool.items() if it.asking.latest_pickup < now)
        for number in over:
            del self.pool[number]
        return over

    def state(self, now: int) -> State:
        """What a policy is told."""
        inside = (it.view() for _, it in sorted(self.pool.items()) if it.asking.request <= now)
        standing = (Standing(it.vehicle, it.seats, it.node, it.second, max(it.second, now),
                             tuple(self.riders[rider].asking for rider in it.aboard), tuple(it.stops))
                    for it in self.vehicles)
        entered, self.told = tuple(self.entries[self.told:]), len(self.entries)
        return State(len(self.batches) + 1, now, self.settings, self.net, tuple(inside), tuple(standing), entered)

    def seal(self, now: int, policy: Policy) -> None:
        """A batch: the vehicles are entered, the policy is asked, and its plan is taken."""
        for vehicle in self.vehicles:
            self.follow(vehicle, now)
        expired = self.expire(now)
        state = self.state(now)
        answer = policy.plan(state)
        decision = answer if isinstance(answer, Decision) else Decision(answer)
        plan = None if decision.is_overflow else lawful(state, decision)
        self.enter("seal", (now,), f"sealed {state.batch}")
        self.enter("close", (state.batch,), "closed")
        self.told = len(self.entries)
        batch = Batch(state.batch, now, len(self.entries) - 1, plan is None, expired)
        if plan is not None:
            self.take(batch, plan, decision)
        self.batches.append(batch)

    def take(self, batch: Batch, plan: Lawful, decision: Decision) -> None:
        """A lawful plan."""
        batch.out, batch.moves = plan.out, plan.moves
        batch.trips = [Trip(vehicle, order.delay, order.stops) for vehicle, order in plan.orders.items()]
        delays = sum(order.delay for order in plan.orders.values())
        batch.cost, batch.bound, batch.nodes = delays + self.settings.penalty * len(plan.out), decision.bound, decision.nodes
        if self.reached is not None:
            self.reached[batch.number] = decision.reached or set()
        if decision.reached is None:
            self.reached = None
        self.promise(plan)

    def promise(self, plan: Lawful) -> None:
        """What a plan leaves on its way, and whom it promises what."""
        targets = {move.vehicle: self.riders[move.rider].asking.origin for move in plan.moves}
        for vehicle in self.vehicles:
            vehicle.stops, vehicle.target = list(plan.orders[vehicle.vehicle].stops), targets.get(vehicle.vehicle)
        picks = ((number, stop) for number, order in plan.orders.items() for stop in order.stops if stop.kind == PICK)
        for number, stop in picks:
            booked = self.riders[stop.rider]
            booked.vehicle, booked.promised = number, stop.second

    def finish(self) -> None:
        """The stops that are left."""
        left = [(vehicle, stop) for vehicle in self.vehicles for stop in vehicle.stops]
        for vehicle, stop in left:
            self.arrive(vehicle, stop)

    def report(self) -> Report:
        """The whole day."""
        names = "wait delay trip penalty budget pairs proof dwell".split()
        settings = {name: int(getattr(self.settings, name)) for name in names}
        return Report(settings, len(self.net), len(self.net.starts), len(self.vehicles), self.entries, self.batches)


def simulate(net: Network, fleet: Fleet, requests: Requests, policy: Union[Policy, Callable[[State], Answer]],
             settings: Optional[Settings] = None) -> Day:
    """Drives a day by a policy: at each seal it is told a State, and gives each vehicle an order of stops.

    Vehicles are driven, and riders expire, as `drive` does it. A plan that isn't lawful is an UnlawfulPlan with the
    reason: a stop comes too late, there are too few seats, a passenger isn't dropped, a promise isn't kept, a rider is in
    two orders, or an order picks up more riders than `settings.trip`. The Day has the same frames as that of `drive`; it
    has no rows and trees.

    >>> import pandas as pd
    >>> from ridepool.policies.known import NearestFree
    >>> net = Network.made(side=3, seed=1)
    >>> asked = pd.DataFrame({"from": [1, 2], "to": [9, 9], "time": [0, 5]})
    >>> requests = Requests.from_frame(asked, every=30)
    >>> day = simulate(net, Fleet.drawn(net, vehicles=2), requests, NearestFree(), Settings(wait=300))
    >>> day.riders["state"].tolist()
    ['delivered', 'delivered']
    """
    chosen = policy if isinstance(policy, Policy) else Called(policy)
    simulation = Simulation(net, fleet, settings or Settings())
    chosen.begin(net, fleet, simulation.settings)
    try:
        drive_through(simulation, requests, chosen)
    finally:
        chosen.end()
    return Day(net, fleet, simulation.report(), None, requests.zero, chosen.name, simulation.reached)


def drive_through(simulation: Simulation, requests: Requests, policy: Policy) -> None:
    """The requests, seal by seal."""
    asked = list(requests.placed(simulation.net).itertuples(index=False, name=None))
    at = 0
    for number, seal in enumerate(requests.seals.tolist()):
        simulation.round = 2 * number
        while at < len(asked) and asked[at][3] < seal:
            simulation.submit(*asked[at])
            at += 1
        simulation.round += 1
        simulation.seal(seal, policy)
    simulation.round += 1
    simulation.finish()


