"""What a policy is told at a seal, and what it answers."""

from dataclasses import dataclass, field
from typing import Mapping, NamedTuple, Optional, Sequence, Set, Tuple

from ridepool.faults import UnlawfulPlan
from ridepool.inputs.network import NO_WAY, Network
from ridepool.report.reader import Entry, Stop
from ridepool.settings import Settings

PICK, DROP = "pick", "drop"


class Visit(NamedTuple):
    """A stop of an order: `kind` is "pick" or "drop"."""

    kind: str
    rider: int


@dataclass(frozen=True)
class Asking:
    """A rider of the batch. All limits are seconds of the day.

    `latest_pickup` is the request's second and the wait, or the promised second where that is earlier; `ideal` the
    earliest arrival possible, None where no way leads there; `latest_dropoff` that and the delay. `vehicle` and
    `promised` are those of the promise, None where there is none. A promise must be kept, by one vehicle or another.
    """

    rider: int
    persons: int
    origin: int
    destination: int
    request: int
    latest_pickup: int
    ideal: Optional[int]
    latest_dropoff: Optional[int]
    vehicle: Optional[int] = None
    promised: Optional[int] = None


@dataclass(frozen=True)
class Standing:
    """A vehicle at a seal. It is at `node` at `second`, and sets out at `ready`, the later of that and the seal.

    `aboard` are its passengers, `stops` what is left of its last order.
    """

    vehicle: int
    seats: int
    node: int
    second: int
    ready: int
    aboard: Tuple[Asking, ...]
    stops: Tuple[Stop, ...]

    @property
    def is_free(self) -> bool:
        """Whether nobody is aboard and no stop is planned."""
        return not self.aboard and not self.stops

    @property
    def order(self) -> "list[Visit]":
        """The stops that are left, as an order."""
        return [Visit(stop.kind, stop.rider) for stop in self.stops]


Order = Sequence[Tuple[str, int]]


@dataclass(frozen=True)
class Decision:
    """What a policy decides. `orders` has an order of stops for each vehicle; a vehicle that isn't named keeps the stops
    that it has. `moves` sends idle vehicles towards the origins of riders who are in no order, by vehicle. `reached` are
    the riders whom some vehicle could serve, where the policy knows that; `bound` is what no lawful plan costs less
    than. `is_overflow` says that there is no plan, and that all goes on as before.
    """

    orders: Mapping[int, Order] = field(default_factory=dict)
    moves: Mapping[int, int] = field(default_factory=dict)
    reached: Optional[Set[int]] = None
    bound: Optional[int] = None
    nodes: Optional[int] = None
    is_overflow: bool = False


@dataclass(frozen=True)
class State:
    """The day at a seal. `riders` are those of the batch by rising number, `vehicles` those of the fleet by rising number.

    `entered` are the commands since the last seal in their order: requests, pickups, drop-offs, and where each vehicle
    is. All times are whole seconds and exact.
    """

    batch: int
    second: int
    settings: Settings
    net: Network
    riders: Tuple[Asking, ...]
    vehicles: Tuple[Standing, ...]
    entered: Tuple[Entry, ...]

    def seconds(self, start: int, end: int) -> Optional[int]:
        """The least seconds from node to node; None where there is no way."""
        return self.net.seconds(start, end)

    def refusal(self, vehicle: Standing, order: Order) -> Optional[str]:
        """Why an order isn't lawful for a vehicle, None where it is. Other vehicles' orders are not looked at."""
        try:
            self.timed(vehicle, order)
        except UnlawfulPlan as fault:
            return fault.reason
        return None

    def timed(self, vehicle: Standing, order: Order) -> "Timed":
        """An order with its seconds and its delay. An UnlawfulPlan where no lawful plan has it."""
        return Timing(self, vehicle).of(order)


class Timed(NamedTuple):
    """An order's stops with their seconds, and how many seconds its drop-offs are later than the earliest arrivals, in
    all."""

    stops: Tuple[Stop, ...]
    delay: int


class Timing:
    """Goes along an order, stop by stop."""

    def __init__(self, state: State, vehicle: Standing) -> None:
        self.state, self.vehicle = state, vehicle
        self.node, self.leaves, self.delay = vehicle.node, vehicle.ready, 0
        self.waiting = {it.rider: it for it in state.riders}
        self.aboard = {it.rider: it for it in vehicle.aboard}
        self.picked = 0

    def wrong(self, rider: Optional[int], reason: str) -> UnlawfulPlan:
        """The exception."""
        return UnlawfulPlan(self.state.second, self.vehicle.vehicle, rider, reason)

    def of(self, order: Order) -> Timed:
        """The whole order."""
        stops = tuple(self.stop(kind, rider) for kind, rider in order)
        if self.aboard:
            raise self.wrong(next(iter(self.aboard)), "the order doesn't drop a rider who is aboard")
        return Timed(stops, self.delay)

    def stop(self, kind: str, rider: int) -> Stop:
        """The next stop."""
        if kind not in (PICK, DROP):
            raise self.wrong(rider, f"{kind!r} is neither 'pick' nor 'drop'")
        of = self.waiting if kind == PICK else self.aboard
        asking = of.pop(rider, None)
        if asking is None:
            raise self.wrong(rider, "no such rider waits in this batch" if kind == PICK else "the rider isn't aboard")
        second = self.arrive(asking, asking.origin if kind == PICK else asking.destination)
        (self.pick if kind == PICK else self.drop)(asking, second)
        return Stop(kind, rider, self.node, second)

    def arrive(self, asking: Asking, node: int) -> int:
        """The second at which the vehicle is at a node."""
        seconds = int(self.state.net.seconds_from(self.node)[self.state.net.index(node)])
        if seconds == NO_WAY:
            raise self.wrong(asking.rider, f"no way leads from node {self.node} to node {node}")
        arrival = self.leaves + seconds
        self.node, self.leaves = node, arrival + self.state.settings.dwell
        return arrival

    def pick(self, asking: Asking, second: int) -> None:
        """A pickup."""
        self.picked += 1
        self.aboard[asking.rider] = asking
        if second > asking.latest_pickup:
            raise self.wrong(asking.rider, f"the pickup at {second} is later than {asking.latest_pickup}")
        persons = sum(it.persons for it in self.aboard.values())
        if persons > self.vehicle.seats:
            raise self.wrong(asking.rider, f"{persons} persons are more than {self.vehicle.seats} seats")
        if self.picked > self.state.settings.trip:
            raise self.wrong(asking.rider, f"the order picks up more than {self.state.settings.trip} riders")

    def drop(self, asking: Asking, second: int) -> None:
        """A drop-off."""
        if asking.ideal is None or asking.latest_dropoff is None or second > asking.latest_dropoff:
            raise self.wrong(asking.rider, f"the drop-off at {second} is later than {asking.latest_dropoff}")
        self.delay += max(0, second - asking.ideal)
