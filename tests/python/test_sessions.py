"""Sessions: each answer beside the same commands in one run, and a program that ends."""

import asyncio
import random
import signal

import pandas
import pytest
import ridepool as rp

from ridepool.sessions.rows import refused_row

COMMANDS = 1000


class Commands:
    """Commands drawn by a seed, most of them as a day has them, some that are refused."""

    def __init__(self, seed, nodes, vehicles):
        self.draw, self.nodes, self.vehicles = random.Random(seed), nodes, vehicles
        self.rider, self.now = 0, 0

    def next(self):
        """A command and its fields."""
        kind = self.draw.choice(["submit"] * 5 + ["cancel", "report", "report", "pickup", "dropoff", "seal"])
        self.now += self.draw.choice([0, 0, 1, 5])
        rider = self.draw.randint(1, max(1, self.rider))
        vehicle, second = self.draw.choice(self.vehicles), self.now + self.draw.choice([-3, 0, 0, 20])
        if kind == "submit":
            self.rider += self.draw.random() < 0.95
            origin, destination = self.draw.choice(self.nodes), self.draw.choice(self.nodes)
            return kind, {"rider": self.rider, "origin": origin, "destination": destination, "second": max(0, second),
                          "persons": self.draw.choice([1, 1, 2, 6])}
        fields = {"cancel": {"rider": rider},
                  "report": {"vehicle": vehicle, "node": self.draw.choice([*self.nodes, 999]), "second": max(0, second)},
                  "pickup": {"vehicle": vehicle, "rider": rider, "second": max(0, second)},
                  "dropoff": {"vehicle": vehicle, "rider": rider, "second": max(0, second)},
                  "seal": {"second": max(0, second)}}
        return kind, fields[kind]


@pytest.mark.parametrize("said, row", [
    ("ridepool: script: row 7 has another length", 7), ("ridepool: script: row 3 is too long", 3),
    ("ridepool: script: bad number at row 7 column 3", 7), ("ridepool: script: seal outside lane 0 at row 12", 12),
    ("ridepool: script: more than 200000 rows", None), ("ridepool: script: command at round 3 lane 2", None),
    ("ridepool: script: row", None), ("ridepool: fleet: bad seats at row 7", None), ("ridepool: out of memory", None),
])
def test_which_row_is_refused(said, row):
    assert refused_row(said) == row


@pytest.fixture(scope="module")
def given():
    """A small town."""
    net = rp.Network.made(side=4, seed=2)
    return net, rp.Fleet.drawn(net, vehicles=4, seed=2), rp.Settings(wait=100, delay=150, trip=2, budget=1)


def reply_of(kind, call):
    """The reply of a call that may be a seal."""
    try:
        return call().reply
    except rp.RefusedCommand as fault:
        assert kind == "seal"
        return fault.reply


def test_live_answers_as_a_run_does(given):
    net, fleet, settings = given
    commands, replies, plans = Commands(3, net.names.tolist(), fleet.vehicles.tolist()), [], []
    with rp.live(net, fleet, settings) as session:
        for _ in range(COMMANDS):
            kind, fields = commands.next()
            if kind == "seal":
                try:
                    plans.append(session.seal(**fields))
                    replies.append(plans[-1].reply)
                except rp.RefusedCommand as fault:
                    replies.append(fault.reply)
            else:
                replies.append(getattr(session, kind)(**fields).reply)
        day = session.close()
    assert day.replies[day.replies["command"] != "close"]["reply"].tolist() == replies
    again = rp.run(net, fleet, day.script_in_order, settings)
    pandas.testing.assert_frame_equal(again.riders, day.riders)
    assert sum(reply.startswith("refused") for reply in replies) > 50 and len(plans) > 30
    for plan in plans:
        batch = again.batch(plan.number)
        for frame in ("rows", "rv", "rr", "trips", "moves"):
            pandas.testing.assert_frame_equal(getattr(plan, frame), getattr(batch, frame))
        assert (plan.cost, plan.bound, plan.out) == (batch.cost, batch.bound, batch.out)


async def asked(session, kind, fields):
    """The reply to a command."""
    try:
        return (await getattr(session, kind)(**fields)).reply
    except rp.RefusedCommand as fault:
        return fault.reply


async def many(given, commands):
    """Groups of commands, each group at once."""
    net, fleet, settings = given
    replies = []
    async with rp.alive(net, fleet, settings) as session:
        while len(replies) < COMMANDS:
            group = [commands.next() for _ in range(commands.draw.randint(1, 8))]
            found = await asyncio.gather(*(asked(session, kind, fields) for kind, fields in group))
            replies += zip(group, found)
        return replies, await session.close()


def test_alive_answers_each_caller(given):
    net, fleet, settings = given
    replies, day = asyncio.run(many(given, Commands(4, net.names.tolist(), fleet.vehicles.tolist())))
    frame = day.replies[day.replies["command"] != "close"]
    told = {}
    for row in frame.itertuples():
        key = (row.command, *(int(it) for it in (row.rider, row.vehicle, row.node, row.second) if not pandas.isna(it)))
        told.setdefault(key, []).append(row.reply)
    for (kind, fields), reply in replies:
        key = (kind, *(fields[name] for name in ("rider", "vehicle", "node", "second") if name in fields))
        told[key].remove(reply)
    assert len(frame) == len(replies) and not any(told.values())


def test_a_rider_asks_while_a_batch_is_solved(given):
    net, fleet, settings = given

    async def day():
        async with rp.alive(net, fleet, settings) as session:
            for rider in range(1, 60):
                await session.submit(rider=rider, origin=1 + rider % 16, destination=1 + (rider + 5) % 16, second=0)
            sealing = asyncio.ensure_future(session.seal(second=30))
            answers = await asyncio.gather(*(session.submit(rider=100 + k, origin=1, destination=2, second=31)
                                             for k in range(20)))
            plan = await sealing
            assert [it.reply for it in answers] == ["accepted"] * 20 and plan.number == 1
            assert not set(plan.riders.tolist()) & set(range(100, 120))

    asyncio.run(day())


@pytest.mark.parametrize("name, value", [("rider", -1), ("rider", 10**9 + 1), ("rider", 1.5), ("rider", True), ("rider", "1"),
                                         ("persons", 0), ("persons", 7)])
def test_a_number_that_isnt_taken_is_refused_before_it_is_sent(given, name, value):
    with rp.live(*given) as session:
        fields = {"rider": 1, "origin": 1, "destination": 2, "second": 0, name: value}
        with pytest.raises(rp.RefusedInput) as refused:
            session.submit(**fields)
        assert (refused.value.column, refused.value.value) == (name, value)
        assert session.submit(rider=1, origin=1, destination=2, second=0).reply == "accepted"


def test_a_killed_program_is_told(given):
    session = rp.live(*given)
    session.child.send_signal(signal.SIGKILL)
    for _ in range(3):
        with pytest.raises(rp.ProgramFailed) as failed:
            session.submit(rider=1, origin=1, destination=2, second=0)
        assert failed.value.status == -9 and "signal 9" in str(failed.value)
    session.kill()


def test_a_program_that_is_killed_while_a_batch_is_solved(given):
    import threading

    net, fleet, settings = rp.Network.made(side=30, seed=1), None, rp.Settings(wait=3000, delay=3000, pairs=2_000_000, trip=6)
    fleet = rp.Fleet.drawn(net, vehicles=100, seats=10)
    with pytest.raises(rp.ProgramFailed):
        with rp.live(net, fleet, settings) as session:
            for rider in range(1, 200):
                session.submit(rider=rider, origin=rider, destination=900 - rider, second=0)
            threading.Timer(0.3, session.child.kill).start()
            session.seal(second=30)


def test_alive_is_told_of_a_killed_program(given):
    async def day():
        async with rp.alive(*given) as session:
            await session.submit(rider=1, origin=1, destination=2, second=0)
            session.child.kill()
            waiting = [session.submit(rider=number, origin=1, destination=2, second=0) for number in range(2, 9)]
            found = await asyncio.gather(*waiting, return_exceptions=True)
            assert all(isinstance(it, rp.ProgramFailed) for it in found)
            with pytest.raises(rp.ProgramFailed):
                await session.cancel(rider=1)

    asyncio.run(asyncio.wait_for(day(), 60))


@pytest.mark.parametrize("other", ["/bin/false", "/bin/true", "/nowhere/program"])
def test_another_program_is_no_session(given, other):
    with pytest.raises(rp.ProgramFailed):
        rp.live(*given, program=other)
    with pytest.raises(rp.ProgramFailed):
        rp.drive(given[0], given[1], rp.Requests.from_frame(pandas.DataFrame({"from": [1], "to": [2], "time": [0]})),
                 program=other)

    async def day():
        async with rp.alive(*given, program=other):
            pass

    with pytest.raises(rp.ProgramFailed):
        asyncio.run(asyncio.wait_for(day(), 60))


def test_nothing_is_left_of_a_session(given):
    import os

    with rp.live(*given) as session:
        folder = session.start.folder
        assert os.path.isdir(folder)
    assert not os.path.exists(folder) and session.child.returncode is not None


def test_calls_of_many_threads(given):
    from concurrent.futures import ThreadPoolExecutor

    with rp.live(*given) as session, ThreadPoolExecutor(8) as pool:
        answers = list(pool.map(lambda rider: session.submit(rider=rider, origin=1, destination=2, second=0), range(1, 201)))
        assert {it.reply for it in answers} == {"accepted"} and sorted(it.position for it in answers) == list(range(200))
