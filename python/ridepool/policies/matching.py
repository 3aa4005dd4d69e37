"""A policy without pooling that is as good as one can be: riders and vehicles are matched at the least cost."""

from typing import Any

import numpy as np

from ridepool.inputs.network import NO_WAY
from ridepool.policies.known import NEVER, Policy
from ridepool.policies.state import DROP, PICK, Asking, Decision, Standing, State, Visit


class OptimalMatching(Policy):
    """No pooling: at each seal vehicles without passengers and riders are matched anew, one to one, at the least cost of a
    plan: the delays, and the setting `penalty` for each rider left out. Promises are kept. Needs scipy.

    >>> import pandas as pd
    >>> import ridepool as rp
    >>> net = rp.Network.made(side=3, seed=1)
    >>> asked = pd.DataFrame({"from": [1, 9], "to": [9, 1], "time": [0, 5]})
    >>> day = rp.simulate(net, rp.Fleet.drawn(net, vehicles=2), rp.Requests.from_frame(asked, every=30), OptimalMatching(),
    ...                   rp.Settings(wait=300))
    >>> day.riders["state"].tolist(), int(day.stops["aboard"].max())
    (['delivered', 'delivered'], 1)
    """

    @property
    def name(self) -> str:
        """What the policy is called."""
        return "optimal matching, no pooling"

    def plan(self, state: State) -> Decision:
        """Vehicles with passengers keep their stops."""
        from scipy.optimize import linear_sum_assignment

        free = [it for it in state.vehicles if not it.aboard]
        orders: "dict[int, list[Visit]]" = {it.vehicle: [] for it in free}
        costs = matrix(state, free)
        for at, chosen in zip(*linear_sum_assignment(costs)):
            if chosen < len(free) and costs[at, chosen] < NEVER:
                rider = state.riders[at].rider
                orders[free[chosen].vehicle] = [Visit(PICK, rider), Visit(DROP, rider)]
        return Decision(orders)


def matrix(state: State, free: "list[Standing]") -> Any:
    """The cost of each rider by each vehicle, and behind the vehicles that of being left out, in a column for each rider. A
    rider with a promise can't be left out: `NEVER` is dearer than all else."""
    count = len(state.riders)
    costs = np.full((count, len(free) + count), NEVER, dtype=np.float64)
    nodes = np.array([state.net.index(it.node) for it in free], dtype=np.int64)
    ready = np.array([it.ready for it in free], dtype=np.int64)
    seats = np.array([it.seats for it in free], dtype=np.int64)
    for at, rider in enumerate(state.riders):
        if rider.promised is None:
            costs[at, len(free) + at] = state.settings.penalty
        if rider.ideal is not None and rider.latest_dropoff is not None:
            costs[at, :len(free)] = row_of(state, rider, ready, state.net.seconds_to(rider.origin)[nodes], seats)
    return costs


def row_of(state: State, rider: Asking, ready: Any, away: Any, seats: Any) -> Any:
    """The delay of a rider by each vehicle, alone; `NEVER` where it comes too late or has too few seats."""
    assert rider.ideal is not None and rider.latest_dropoff is not None
    pickup = ready + away
    dropoff = pickup + state.settings.dwell + rider.ideal - rider.request
    serves = (away != NO_WAY) & (pickup <= rider.latest_pickup) & (dropoff <= rider.latest_dropoff) & (seats >= rider.persons)
    return np.where(serves, np.maximum(0, dropoff - rider.ideal), NEVER)
