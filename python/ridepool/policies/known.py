"""The policies that come with the package."""

from typing import Mapping, Optional, Union

from ridepool.faults import UnlawfulPlan
from ridepool.inputs.checks import Path
from ridepool.inputs.fleet import Fleet
from ridepool.inputs.network import NO_WAY, Network
from ridepool.policies.state import DROP, PICK, Asking, Decision, Order, Standing, State, Visit
from ridepool.report.reader import Entry
from ridepool.sessions.blocking import Live
from ridepool.sessions.dialogue import Plan
from ridepool.sessions.resumed import resume
from ridepool.settings import Settings

Answer = Union[Decision, Mapping[int, Order]]


class Policy:
    """What plans a simulated day. `plan` is called at each seal; `begin` before the first and `end` behind the last.

    It gives a Decision, or only the orders by vehicle. A function of a State does as well.
    """

    @property
    def name(self) -> str:
        """What the policy is called."""
        return type(self).__name__

    def begin(self, net: Network, fleet: Fleet, settings: Settings) -> None:
        """The day begins."""

    def plan(self, state: State) -> Answer:
        """What is decided at a seal."""
        raise NotImplementedError

    def end(self) -> None:
        """The day is over, or was broken off."""


class Ridepool(Policy):
    """Ridepool itself: what happens is told to a running session, and its plans are taken. Without `moves` idle vehicles
    stay where they are."""

    def __init__(self, program: Optional[Path] = None, moves: bool = True) -> None:
        self.program, self.moves = program, moves
        self.session: Optional[Live] = None

    @property
    def name(self) -> str:
        """What the policy is called."""
        return "ridepool" if self.moves else "ridepool without moves"

    def begin(self, net: Network, fleet: Fleet, settings: Settings) -> None:
        """Starts the session."""
        self.session = Live(net, fleet, settings, self.program)

    def go_on(self, net: Network, fleet: Fleet, settings: Settings, transcript: bytes) -> None:
        """Starts a session that goes on behind the transcript of another."""
        self.session = resume(transcript, net, fleet, workers=settings.workers, times=settings.times, program=self.program)

    def tell(self, entry: Entry) -> None:
        """Tells a command. It was taken by the simulation, so the book takes it, or refuses it with the same words."""
        assert self.session is not None
        if entry.command == "submit":
            rider, origin, destination, second = entry.fields
            answer = self.session.submit(rider=rider, origin=origin, destination=destination, second=second,
                                         persons=entry.party)
        elif entry.command == "cancel":
            answer = self.session.cancel(rider=entry.fields[0])
        elif entry.command == "report":
            vehicle, node, second = entry.fields
            answer = self.session.report(vehicle=vehicle, node=node, second=second)
        else:
            vehicle, rider, second = entry.fields
            enter = self.session.pickup if entry.command == "pickup" else self.session.dropoff
            answer = enter(vehicle=vehicle, rider=rider, second=second)
        if answer.reply != entry.reply:
            raise RuntimeError(f"{entry.command} {entry.fields} is {answer.reply} by the book and {entry.reply} here")

    def plan(self, state: State) -> Decision:
        """Tells what happened, and takes the plan."""
        for entry in state.entered:
            self.tell(entry)
        assert self.session is not None
        return decision_of(self.session.seal(second=state.second), self.moves)

    def end(self) -> None:
        """Ends the session."""
        if self.session is not None:
            self.session.kill()


def decision_of(plan: Plan, with_moves: bool = True) -> Decision:
    """What a session's plan decides."""
    if plan.overflow:
        return Decision(is_overflow=True)
    orders = {trip.vehicle: [Visit(stop.kind, stop.rider) for stop in trip.stops] for trip in plan.batch.trips}
    moves = {move.vehicle: move.rider for move in plan.batch.moves} if with_moves else {}
    return Decision(orders, moves, set(plan.rv["rider"].tolist()), plan.bound, plan.nodes)


class NearestFree(Policy):
    """No pooling: riders are taken in the order of their requests, each by the nearest free vehicle that comes in time."""

    @property
    def name(self) -> str:
        """What the policy is called."""
        return "nearest free vehicle"

    def plan(self, state: State) -> Decision:
        """Vehicles with stops keep them."""
        free = {it.vehicle: it for it in state.vehicles if it.is_free}
        orders: "dict[int, list[Visit]]" = {}
        for rider in by_request(state):
            order = [Visit(PICK, rider.rider), Visit(DROP, rider.rider)]
            for _, vehicle in sorted((away(state, it, rider), number) for number, it in free.items()):
                if state.refusal(free[vehicle], order) is None:
                    orders[vehicle] = order
                    del free[vehicle]
                    break
        return Decision(orders)


class CheapestInsertion(Policy):
    """Riders are taken in the order of their requests. Each is inserted where the total delay grows least, at any two
    places of any vehicle's stops; the stops that are there keep their order."""

    @property
    def name(self) -> str:
        """What the policy is called."""
        return "cheapest insertion"

    def plan(self, state: State) -> Decision:
        """Promised riders stay where they are."""
        orders = {it.vehicle: it.order for it in state.vehicles}
        delays = {it.vehicle: state.timed(it, it.order).delay for it in state.vehicles}
        for rider in by_request(state):
            found = min((insertion(state, it, orders[it.vehicle], rider, delays[it.vehicle]) for it in state.vehicles),
                        default=NOWHERE)
            if found[2]:
                orders[found[1]] = found[2]
                delays[found[1]] += found[0]
        return Decision(orders)


NEVER = 1 << 40
NOWHERE: "tuple[int, int, list[Visit]]" = (NEVER, NEVER, [])


def by_request(state: State) -> "list[Asking]":
    """The riders without a promise, in the order of their requests."""
    return sorted((it for it in state.riders if it.promised is None), key=lambda it: (it.request, it.rider))


def away(state: State, vehicle: Standing, rider: Asking) -> int:
    """How many seconds a vehicle is away from a rider."""
    seconds = int(state.net.seconds_from(vehicle.node)[state.net.index(rider.origin)])
    return NEVER if seconds == NO_WAY else vehicle.ready + seconds


def insertion(state: State, vehicle: Standing, order: "list[Visit]", rider: Asking,
              before: int) -> "tuple[int, int, list[Visit]]":
    """The cheapest way to insert a rider into an order: by how much the delay grows, the vehicle, the new order."""
    if away(state, vehicle, rider) > rider.latest_pickup:
        return NOWHERE
    best = NOWHERE
    places = ((first, second) for first in range(len(order) + 1) for second in range(first, len(order) + 1))
    for first, second in places:
        tried = [*order[:first], Visit(PICK, rider.rider), *order[first:second], Visit(DROP, rider.rider), *order[second:]]
        try:
            delay = state.timed(vehicle, tried).delay
        except UnlawfulPlan:
            continue
        best = min(best, (delay - before, vehicle.vehicle, tried))
    return best
