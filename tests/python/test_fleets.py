"""A city of many fleets: each report is audited, moved riders are followed, and a fleet whose worker ends goes on."""

import os
import signal

import numpy
import pandas
import pytest
import ridepool as rp
from ridepool.city import coordinator
from ridepool.city.check import Meeting, meetings
from ridepool.city.hands import Died, Here
from ridepool.city.one_fleet import Batch, OneFleet
from ridepool.report.reader import Entry

pytest.importorskip("scipy")

SETTINGS = rp.Settings(wait=150, delay=300, budget=1, proof=True, workers=1)


@pytest.fixture(scope="module")
def city():
    """Sixty vehicles in three fleets, and 240 riders in five minutes."""
    net, draw = rp.Network.made(side=14, seed=3), numpy.random.default_rng(7)
    ends = draw.integers(1, 197, (240, 2))
    ends[:, 1] = numpy.where(ends[:, 0] == ends[:, 1], ends[:, 1] % 196 + 1, ends[:, 1])
    asked = pandas.DataFrame({"from": ends[:, 0], "to": ends[:, 1], "time": numpy.sort(draw.integers(0, 300, 240)),
                              "persons": draw.integers(1, 4, 240)})
    return net, rp.parted(net, vehicles=60, fleets=3, seats=3, seed=2), rp.Requests.from_frame(asked, every=30)


@pytest.fixture(scope="module")
def driven(city):
    """The city's day in this process."""
    return rp.drive_fleets(*city, SETTINGS)


def test_each_report_is_audited(driven):
    found = driven.audit()
    assert [it.batches for it in found] == [10, 10, 10]
    assert [it.entries for it in found] == [len(day.replies) for day in driven.days]


def test_an_audit_finds_a_spoiled_report(city, driven):
    day = driven.days[1]
    spoiled = day.text.replace("\ncost ", "\ncost 1", 1)
    with pytest.raises(rp.AuditFailed):
        rp.audit(city[0], day.fleet, day.script, spoiled)


def test_each_rider_is_there_once(driven):
    riders = driven.riders
    assert riders["rider"].tolist() == list(range(1, 241)) and len(driven.facts["waits"]) == riders["pickup"].notna().sum()
    measures = driven.measures()
    assert (measures["requests"], measures["persons"]) == (240, riders["persons"].sum())
    assert measures["served"] == riders["pickup"].notna().sum() > 100
    assert measures["persons_served"] == riders.dropna(subset=["pickup"])["persons"].sum()
    assert measures["moved"] == (riders["fleets"] - 1).sum() > 0
    assert measures["driven_seconds"] == sum(day.measures()["driven_seconds"] for day in driven.days)
    assert len(driven.batch_seconds) == 10 and driven.taken_up == 0


def test_limits_hold_for_moved_riders_too(driven):
    served = driven.riders.dropna(subset=["dropoff"])
    moved = served[served["fleets"] > 1]
    assert len(moved) and served["wait"].max() <= SETTINGS.wait and served["delay"].max() <= SETTINGS.delay


def test_moved_riders_are_followed(driven):
    """A rider who moves cancels in one fleet and asks in the next with the same second, and never had a promise before."""
    of = {}
    for at, day in enumerate(driven.days):
        for row in day.riders.itertuples():
            of.setdefault(row.rider, {})[at] = row
    seen = 0
    for rider, asked in driven.asked.items():
        rows = [of[rider][fleet] for fleet in asked.fleets]
        assert list(of[rider]) == sorted(asked.fleets) and len({row.request for row in rows}) == 1
        for row in rows[:-1]:
            assert row.state == "cancelled" and row.promised is pandas.NA and row.vehicle is pandas.NA
            seen += 1
        assert rows[-1].state != "cancelled"
    assert seen == driven.moved > 0


def test_vehicles_drive_as_in_drive(city):
    """With one fleet the day is that of `drive`, rider by rider."""
    net, _, requests = city
    fleet, = rp.parted(net, vehicles=30, fleets=1, seats=3, seed=2)
    one, plain = rp.drive_fleets(net, [fleet], requests, SETTINGS), rp.drive(net, fleet, requests, SETTINGS)
    columns = [name for name in plain.riders.columns if name != "why_out"]
    pandas.testing.assert_frame_equal(one.riders[columns], plain.riders.sort_values("rider", ignore_index=True)[columns])
    measures = plain.measures()
    assert {name: one.measures()[name] for name in measures} == pytest.approx(measures)


def test_nobody_is_in_two_fleets(driven):
    assert driven.meetings() == []


def spoiled(day, rider, batch, reply="accepted"):
    """A fleet's report in which a rider asks before a batch, and doesn't leave."""
    report, entries = day.report, list(day.report.entries)
    at = next(i for i, it in enumerate(entries) if it.reply == f"sealed {batch}")
    entries.insert(at, Entry(0, at, 1, "submit", (rider, 1, 2, 0), 1, reply))
    moved = [Entry(it.round, i, it.lane, it.command, it.fields, it.party, it.reply) for i, it in enumerate(entries)]
    batches = [type(it)(**{**vars(it), "position": it.position + (it.position >= at)}) for it in report.batches]
    return type(report)(report.settings, report.nodes, report.arcs, report.vehicles, moved, batches)


def test_the_check_finds_who_is_in_two(driven):
    """A rider who stayed in one fleet all day is put into another, from the sixth batch on."""
    rider = next(it.ask[0] for it in driven.asked.values() if it.fleets == [0] and 0 < it.ask[3] < 30)
    reports = [day.report for day in driven.days]
    gone = driven.days[0].riders.set_index("rider").loc[rider]
    found = meetings([reports[0], spoiled(driven.days[1], rider, 2), reports[2]])
    assert found == ([Meeting(rider, (2, 1), 2)] if gone.state != "expired" or gone.request + SETTINGS.wait >= 60 else [])
    assert meetings([reports[0], spoiled(driven.days[1], rider, 2, "refused pool-full"), reports[2]]) == []
    assert meetings([spoiled(driven.days[0], 999, 3), spoiled(driven.days[1], 999, 7), reports[2]]) == [Meeting(999, (2, 1), 7)]


def test_the_soonest_fleet_gets_the_rider():
    """On a line of five corners, a minute apart: the nearer fleet, then the other, since the first vehicle is spoken for."""
    arcs = pandas.DataFrame([(a, b, 50) for a in range(1, 6) for b in (a - 1, a + 1) if 1 <= b <= 5],
                            columns=["from", "to", "seconds"])
    net = rp.Network.from_frame(arcs)
    fleets = [rp.Fleet.from_frame(pandas.DataFrame({"vehicle": [at], "seats": [4], "node": [node]})) for at, node in ((1, 2), (2, 4))]
    standing = coordinator.Standing(net, fleets)
    ask = (1, 1, 5, 0, 1)
    assert [standing.choose(ask, [0, 1], 200) for _ in range(3)] == [0, 0, 1]
    assert standing.choose(ask, [1], 140) is None and standing.choose(ask, [], 200) is None


def test_a_refused_rider_is_given_to_another(monkeypatch):
    """A book that is full takes nobody more: the rider goes to the other fleet with the next batch."""
    monkeypatch.setattr("ridepool.policies.simulation.MOST_WAITING", 1000)
    net = rp.Network.made(side=5, seed=1)
    first = rp.Fleet.from_frame(pandas.DataFrame({"vehicle": [1], "seats": [4], "node": [1]}))
    one = OneFleet(net, first, rp.Settings(trip=1, workers=1))
    sealed = one.batch(Batch((), tuple((rider, 1, 25, 0, 1) for rider in range(1, 1202)), 30))
    one.kill()
    assert [number for number, _ in sealed.refused] == list(range(1001, 1202))
    assert {reply for _, reply in sealed.refused} == {"refused pool-full"} and len(sealed.out) == 999


def test_a_program_that_is_killed_goes_on(city, driven, monkeypatch):
    """The program of a fleet is killed in the middle of the day: the fleet goes on behind its transcript, no batch is
    planned again, and nothing is lost."""
    said, stands, batch = [], set(), Here.batch

    def killing(self, at, told):
        session = self.fleets[at].policy.session
        if at == 1 and told.second == 150 and not said:
            session.child.kill()
            session.child.wait()
        stands.add((at, getattr(session, "stand", None)))
        return batch(self, at, told)

    monkeypatch.setattr(Here, "batch", killing)
    again = rp.drive_fleets(*city, SETTINGS, say=said.append)
    assert again.taken_up == 1 and len(said) == 1 and said[0].endswith("it goes on elsewhere from its 4 batches")
    (at, stand), = (it for it in stands if it[1] is not None)
    assert at == 1 and stand.open is None and stand.entries > 4 and again.days[1].text.count("\nbatch ") == 10
    pandas.testing.assert_frame_equal(again.riders, driven.riders)


def test_a_fleet_that_never_goes_on(city, monkeypatch):
    def dies(self, at, told):
        raise Died("no luck")

    monkeypatch.setattr(Here, "batch", dies)
    with pytest.raises(rp.ProgramFailed, match="fleet . can't go on: no luck"):
        rp.drive_fleets(*city, SETTINGS, say=lambda text: None)


def test_a_worker_that_is_killed(city, driven, monkeypatch):
    """Three fleets on three workers, one of which is killed by its process id in the middle of the day. The day is the one
    that this process drives, rider by rider; each report is audited, and nobody was in two fleets."""
    distributed = pytest.importorskip("distributed")
    said, batch = [], coordinator.Coordinator.batch
    with distributed.LocalCluster(n_workers=3, threads_per_worker=1, processes=True, memory_limit=None, silence_logs=50,
                                  dashboard_address=None) as cluster, distributed.Client(cluster) as client:

        def killing(self, new, seal):
            if seal == 150:
                home = self.hands.homes[1]
                os.kill(client.run(os.getpid, workers=[home])[home], signal.SIGKILL)
            return batch(self, new, seal)

        monkeypatch.setattr(coordinator.Coordinator, "batch", killing)
        day = rp.drive_fleets(*city, SETTINGS, client=client, say=said.append)
    assert day.taken_up >= 1 and any(it.startswith("fleet 2: ") for it in said), said
    assert day.meetings() == [] and len(day.audit()) == 3
    pandas.testing.assert_frame_equal(day.riders, driven.riders)


def test_fleets_that_are_refused(city):
    net, fleets, requests = city
    with pytest.raises(rp.RefusedInput, match="each vehicle must be in one fleet"):
        rp.drive_fleets(net, [fleets[0], fleets[0]], requests)
    with pytest.raises(rp.RefusedInput, match="each vehicle must be in one fleet"):
        rp.drive_fleets(net, [], requests)
    for vehicles, count in ((2, 3), (1100, 2)):
        with pytest.raises(rp.RefusedInput):
            rp.parted(net, vehicles=vehicles, fleets=count)
    assert [len(it) for it in rp.parted(net, vehicles=1100, fleets=3)] == [367, 367, 366]
