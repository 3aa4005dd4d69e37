"""Whether a policy's decision is a lawful plan, as a whole."""

from typing import Mapping, NamedTuple

from ridepool.faults import UnlawfulPlan
from ridepool.inputs.network import NO_WAY
from ridepool.policies.state import PICK, Decision, Standing, State, Timed
from ridepool.report.reader import Move


class Lawful(NamedTuple):
    """A lawful plan: each vehicle's stops, the moves, and who is left out."""

    orders: Mapping[int, Timed]
    moves: "list[Move]"
    out: "list[int]"


def lawful(state: State, decision: Decision) -> Lawful:
    """The plan that a decision is. An UnlawfulPlan says why it is none."""
    vehicles = {it.vehicle: it for it in state.vehicles}
    for vehicle in (*decision.orders, *decision.moves):
        if vehicle not in vehicles:
            raise UnlawfulPlan(state.second, vehicle, None, "there is no such vehicle")
    orders = {it.vehicle: state.timed(it, decision.orders.get(it.vehicle, it.order)) for it in state.vehicles}
    served = served_by(state, orders)
    for rider in state.riders:
        if rider.promised is not None and rider.rider not in served:
            raise UnlawfulPlan(state.second, rider.vehicle, rider.rider, "the rider has a promise and is in no order")
    out = [it.rider for it in state.riders if it.rider not in served]
    return Lawful(orders, moves_of(state, decision, vehicles, orders, set(out)), out)


def served_by(state: State, orders: Mapping[int, Timed]) -> "dict[int, int]":
    """The vehicle of each rider whom an order picks up."""
    served: "dict[int, int]" = {}
    picks = ((vehicle, stop.rider) for vehicle, order in orders.items() for stop in order.stops if stop.kind == PICK)
    for vehicle, rider in picks:
        if rider in served:
            raise UnlawfulPlan(state.second, vehicle, rider, f"the rider is in the order of vehicle {served[rider]}, too")
        served[rider] = vehicle
    return served


def moves_of(state: State, decision: Decision, vehicles: Mapping[int, Standing], orders: Mapping[int, Timed],
             out: "set[int]") -> "list[Move]":
    """The moves with their seconds: of idle vehicles to riders left out, one each."""
    origins, moves = {it.rider: it.origin for it in state.riders}, []
    if len(set(decision.moves.values())) < len(decision.moves):
        raise UnlawfulPlan(state.second, None, None, "two vehicles move to one rider")
    for vehicle, rider in sorted(decision.moves.items()):
        if orders[vehicle].stops:
            raise UnlawfulPlan(state.second, vehicle, rider, "a vehicle with stops can't move")
        if rider not in out:
            raise UnlawfulPlan(state.second, vehicle, rider, "a move goes to a rider of the batch who is in no order")
        seconds = int(state.net.seconds_from(vehicles[vehicle].node)[state.net.index(origins[rider])])
        if seconds == NO_WAY:
            raise UnlawfulPlan(state.second, vehicle, rider, "no way leads to the rider")
        moves.append(Move(vehicle, rider, seconds))
    return moves
