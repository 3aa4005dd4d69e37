"""Simulated days: beside driven ones, and the plans that are refused."""

import io

import pandas
import pytest
import ridepool as rp
from draws import DrivenDay

DAYS = 50


def drawn(seed):
    """A drawn day as the package takes it: network, fleet, requests, settings; None where it isn't a day of requests
    before each seal."""
    draw = DrivenDay(seed)
    words = dict(word.split("=") for word in draw.words[1:])
    settings = rp.Settings(**{key: int(value) for key, value in words.items()
                              if key not in ("network", "fleet", "script", "proof", "times")})
    frames = {name: pandas.read_csv(io.StringIO(text), dtype=object) for name, text in draw.files.items()}
    return frames["network.csv"], frames["fleet.csv"], frames["script.csv"], settings


def requests_of(script, every):
    """The requests among the rows of a script, sealed so often. Riders who would be refused stay away."""
    rows = script[script["command"] == "submit"].drop_duplicates("a")
    columns = {"a": "rider", "b": "from", "c": "to", "d": "time", **({"e": "persons"} if "e" in rows else {})}
    rows = rows.rename(columns=columns)[list(columns.values())].reset_index(drop=True)
    return rp.Requests.from_frame(rows.astype(int), every=every, until=int(rows["time"].astype(int).max()) + 5 * every)


@pytest.mark.parametrize("seed", range(DAYS))
def test_ridepool_by_live_is_the_driven_day(seed):
    network, fleet, script, settings = drawn(seed)
    net = rp.Network.from_frame(network.astype(int))
    script = script[~script["b"].isna() & ~script["c"].isna()]
    script = script[script["b"].astype(float).isin(net.names) & script["c"].astype(float).isin(net.names)]
    if script.empty:
        pytest.skip("the draw has no rider")
    given = net, rp.Fleet.from_frame(fleet.astype(int)), requests_of(script, 20 + 7 * (seed % 9))
    day, simulated = rp.drive(*given, settings), rp.simulate(*given, rp.Ridepool(), settings)
    for frame in ("riders", "stops", "vehicles", "moves", "replies"):
        pandas.testing.assert_frame_equal(getattr(day, frame), getattr(simulated, frame))
    assert day.measures() == pytest.approx(simulated.measures(), nan_ok=True)


def test_the_town(town, day):
    simulated = rp.simulate(*town, rp.Ridepool())
    pandas.testing.assert_frame_equal(day.riders, simulated.riders)
    pandas.testing.assert_frame_equal(day.vehicles, simulated.vehicles)
    columns = ["batch", "second", "served", "left_out", "expired", "cost", "bound"]
    pandas.testing.assert_frame_equal(day.batches[columns], simulated.batches[columns])


@pytest.mark.parametrize("policy, most", [(rp.NearestFree(), 1), (rp.OptimalMatching(), 1), (rp.CheapestInsertion(), 4)])
def test_the_policies_that_come_with_it(town, policy, most):
    day = rp.simulate(*town, policy)
    riders = day.riders[day.riders["state"] == "delivered"]
    assert len(riders) > 40 and (riders["wait"] <= 120).all() and (riders["delay"] <= 180).all()
    assert (riders["pickup"] <= riders["promised"]).all()
    aboard = day.stops.groupby("vehicle")["stop"].apply(lambda stops: stops.map({"pick": 1, "drop": -1}).cumsum().max())
    assert 1 <= aboard.max() <= most
    assert set(day.riders["why_out"].dropna()) == {"left out"}


def test_pooling_serves_more(town):
    served = [rp.simulate(*town, policy).measures()["served"] for policy in (rp.NearestFree(), rp.CheapestInsertion())]
    assert served[0] < served[1]


def test_optimal_matching_is_as_good_as_any(town):
    """At each seal of the town's day no way to match riders and empty vehicles costs less: all are tried, vehicle by vehicle."""
    from ridepool.policies.matching import matrix

    class Held(rp.OptimalMatching):
        seen = 0

        def plan(self, state):
            decision, free = super().plan(state), [it for it in state.vehicles if not it.aboard]
            costs = matrix(state, free)
            if len(state.riders) <= 6:
                self.seen += len(state.riders) > 1
                chosen = {order[0].rider: vehicle for vehicle, order in decision.orders.items() if order}
                columns = {it.vehicle: at for at, it in enumerate(free)}
                cost = sum(costs[at, columns[chosen[it.rider]] if it.rider in chosen else len(free) + at]
                           for at, it in enumerate(state.riders))
                assert cost == least(costs, len(free), 0, frozenset())
            return decision

    def least(costs, free, rider, taken):
        if rider == len(costs):
            return 0
        ways = [at for at in range(free) if at not in taken] + [free + rider]
        return min(costs[rider, at] + least(costs, free, rider + 1, taken | {at} if at < free else taken)
                   for at in ways if costs[rider, at] < 1 << 40)

    held = Held()
    day = rp.simulate(*town, held)
    assert held.seen > 3 and day.measures()["served"] >= rp.simulate(*town, rp.NearestFree()).measures()["served"]


def test_without_moves_idle_vehicles_stay(town):
    with_moves, without = (rp.simulate(*town, rp.Ridepool(moves=moves)) for moves in (True, False))
    assert len(with_moves.moves) and not len(without.moves)
    assert without.measures()["rebalancing_seconds"] == 0 < with_moves.measures()["rebalancing_seconds"]


def asked(*rows):
    """Requests of (from, to, time, persons)."""
    return rp.Requests.from_frame(pandas.DataFrame(rows, columns=["from", "to", "time", "persons"]), every=10, until=200)


class Once(rp.Policy):
    """A policy that gives one decision at each seal in turn, and none afterwards."""

    def __init__(self, *decisions):
        self.decisions = list(decisions)

    def plan(self, state):
        return self.decisions.pop(0) if self.decisions else {}


RIDE = [("pick", 1), ("drop", 1)]


@pytest.mark.parametrize("reason, rows, decisions, settings", [
    ("there is no such vehicle", [(2, 4, 0, 1)], [{2: RIDE}], {}),
    ("no such rider waits in this batch", [(2, 4, 0, 1)], [{1: [("pick", 2), ("drop", 2)]}], {}),
    ("no such rider waits in this batch", [(2, 4, 0, 1)], [{1: [*RIDE, *RIDE]}], {}),
    ("the rider isn't aboard", [(2, 4, 0, 1)], [{1: [("drop", 1), ("pick", 1)]}], {}),
    ("the order doesn't drop a rider who is aboard", [(2, 4, 0, 1)], [{1: [("pick", 1)]}], {}),
    ("'take' is neither 'pick' nor 'drop'", [(2, 4, 0, 1)], [{1: [("take", 1)]}], {}),
    ("the pickup at 70 is later than 69", [(2, 4, 0, 1)], [{1: RIDE}], {"wait": 69}),
    ("the drop-off at 190 is later than 189", [(2, 4, 0, 1)], [{1: RIDE}], {"delay": 69}),
    ("5 persons are more than 4 seats", [(2, 4, 0, 5)], [{1: RIDE}], {}),
    ("6 persons are more than 4 seats", [(2, 4, 0, 3), (2, 4, 0, 3)],
     [{1: [("pick", 1), ("pick", 2), ("drop", 1), ("drop", 2)]}], {}),
    ("the order picks up more than 1 riders", [(2, 4, 0, 1), (2, 4, 0, 1)],
     [{1: [("pick", 1), ("pick", 2), ("drop", 1), ("drop", 2)]}], {"trip": 1}),
    ("the rider has a promise and is in no order", [(2, 4, 0, 1)], [{1: RIDE}, {1: []}], {}),
    ("the pickup at 310 is later than 70", [(2, 4, 0, 1), (3, 4, 0, 1)],
     [{1: RIDE}, {1: [("pick", 2), ("drop", 2), *RIDE]}], {"wait": 7000, "delay": 7000}),
    ("the order doesn't drop a rider who is aboard", [(2, 4, 0, 1)], [{1: RIDE}, {}, {}, {}, {}, {}, {}, {1: []}], {}),
    ("a vehicle with stops can't move", [(2, 4, 0, 1), (3, 4, 0, 1)], [rp.Decision({1: RIDE}, {1: 2})], {}),
    ("a move goes to a rider of the batch who is in no order", [(2, 4, 0, 1)], [rp.Decision({}, {1: 7})], {}),
])
def test_an_unlawful_plan_is_refused(line, reason, rows, decisions, settings):
    with pytest.raises(rp.UnlawfulPlan) as refused:
        rp.simulate(*line, asked(*rows), Once(*decisions), rp.Settings(**settings))
    assert refused.value.reason == reason


@pytest.mark.parametrize("settings, seconds", [({"wait": 70}, 70), ({"delay": 70}, 70), ({"dwell": 20, "delay": 90}, 70)])
def test_a_plan_at_its_limit_is_lawful(line, settings, seconds):
    day = rp.simulate(*line, asked((2, 4, 0, 1)), Once({1: RIDE}), rp.Settings(**settings))
    assert day.riders["pickup"].tolist() == [seconds]


def test_two_vehicles_cant_take_one_rider(line):
    fleet = rp.Fleet.from_frame(pandas.DataFrame({"vehicle": [1, 2], "seats": 4, "node": 1}))
    with pytest.raises(rp.UnlawfulPlan) as refused:
        rp.simulate(line[0], fleet, asked((2, 4, 0, 1)), Once({1: RIDE, 2: RIDE}))
    assert (refused.value.rider, refused.value.vehicle) == (1, 2)
    with pytest.raises(rp.UnlawfulPlan):
        rp.simulate(line[0], fleet, asked((2, 4, 0, 1)), Once(rp.Decision({}, {1: 1, 2: 1})))


def test_a_function_is_a_policy_and_sees_exact_times(line):
    seen = []

    def mine(state):
        seen.append((state.second, state.vehicles[0].node, state.vehicles[0].ready, [it.rider for it in state.riders]))
        return {1: RIDE} if state.batch == 1 else {}

    day = rp.simulate(*line, asked((2, 4, 0, 1)), mine)
    assert seen[:3] == [(10, 1, 10, [1]), (20, 2, 70, [1]), (30, 2, 70, [1])]
    assert day.riders[["pickup", "dropoff", "wait", "delay"]].values.tolist() == [[70, 190, 70, 70]]
    assert day.policy == "mine"
