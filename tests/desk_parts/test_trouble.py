"""Tests of what the desk says of trouble: late vehicles, riders who expire, what hangs, what dies, the clock."""

import asyncio
import concurrent.futures
import json
import os
import signal
import subprocess
import sys
import time

import pytest
from desk_parts.shared import LINE, LONG, PATIENCE, WITH_PACKAGE, inputs, until


@pytest.fixture
def book(program):
    """Begins a `live` on the line with one vehicle, without a desk: `book(*words)`."""
    from ridepool.sessions.client import Client
    from ridepool.sessions.state import Vehicle

    files = [f"network={LINE}/network.csv", f"fleet={LINE}/fleet.csv"]
    return lambda *words: Client(program, [*files, *words], [Vehicle(1, 4, 1, 0)])


def found(client, now, silent=0):
    """What the desk would tell at a second, as (kind, ride, vehicle, late)."""
    from ridepool.desk.trouble import Watch

    return [(it.kind, it.ride, it.vehicle, now - it.second) for it in Watch(30, silent).found(client.state, now)]


def test_trouble_is_sorted_by_its_urgency(book):
    client = book("wait=200", "delay=300")
    assert client.ask("submit", 1, 2, 4, 0) == client.ask("submit", 2, 5, 1, 40, party=4) == "accepted"
    client.plan(40)
    assert client.state.rides[1].pickup == 100 and client.state.rides[2].state == "waiting"
    assert found(client, 100) == []
    assert found(client, 129) == []
    assert found(client, 130) == [("late-vehicle", 1, 1, 30)]
    assert found(client, 179) == [("late-vehicle", 1, 1, 79)]
    assert found(client, 180) == [("late-vehicle", 1, 1, 80), ("expires-soon", 2, None, -60)]
    assert found(client, 201) == [("late-vehicle", 1, 1, 101), ("broken-promise", 1, 1, 1),
                                  ("expires-soon", 2, None, -39)]
    assert found(client, 201, 200)[3] == ("silent", None, 1, 201)
    client.plan(250)
    assert found(client, 260) == [("expired", 1, None, 10), ("expired", 2, None, 10)]
    assert found(client, 250 + 901) == []
    client.end()


def test_a_stop_that_is_made_is_no_trouble(book):
    client = book("wait=200", "delay=300")
    client.ask("submit", 1, 2, 4, 0)
    client.plan(0)
    assert client.ask("pickup", 1, 1, 60) == "picked"
    assert found(client, 209) == []
    assert found(client, 210) == [("late-vehicle", 1, 1, 30)]
    assert client.ask("dropoff", 1, 1, 180) == "dropped"
    assert found(client, 10_000) == []
    client.end()


def test_a_promise_that_lapsed_and_a_late_vehicle_are_told(book):
    client = book("wait=200", "delay=60")
    client.ask("submit", 1, 2, 4, 0)
    client.plan(0)
    client.ask("pickup", 1, 1, 60)
    client.ask("submit", 2, 3, 5, 60)
    client.plan(60)
    assert client.state.rides[2].state == "promised"
    client.ask("report", 1, 1, 200)
    batch = client.plan(200)
    assert [it.vehicle for it in batch.late] == [1] and batch.lapsed == [2], batch
    assert found(client, 201) == [("late-vehicle", None, 1, 1), ("broken-promise", 2, None, 1),
                                  ("expires-soon", 2, None, -59)]
    client.end()


def test_an_overflow_says_that_nothing_was_planned(book):
    from ridepool.desk.trouble import Watch

    client = book("wait=200", "delay=300", "pairs=1")
    client.ask("submit", 1, 2, 4, 0)
    client.plan(0)
    (told,) = Watch(30, 0).found(client.state, 0)
    assert (told.kind, told.batch) == ("overflow", 1) and "more than 1 pairs" in told.text, told
    client.end()


def test_an_overdue_pickup_is_late_in_each_call(desk):
    with desk(*inputs(LINE), *LONG, "speed=50", "silent=1") as it:
        it.gives("POST", "/rides", {"from": 2, "to": 4, "time": 0})
        pickup = it.plan()["second"] + 60
        until(lambda: it.call("GET", "/health")[1]["second"] > pickup + 40, "40 s late")
        ride, vehicle = it.gives("GET", "/rides/1"), it.gives("GET", "/vehicles/1")
        assert ride["late"] > 40 and ride["wait_time"] == -ride["late"], ride
        assert vehicle["late"] > 40, vehicle
        told = it.gives("GET", "/trouble")
        first, *others = told["trouble"]
        assert (first["kind"], first["ride"], first["vehicle"]) == ("late-vehicle", 1, 1) and first["late"] > 40, told
        assert [other["kind"] for other in others] == ["silent"] and (told["count"], told["late"]) == (2, 1), told


def tells_of_a_stop(it):
    """Whether `/health` and the first trouble say that the dispatcher was stopped, and how it goes on."""
    status, health = it.call("GET", "/health")
    trouble = it.gives("GET", "/trouble")["trouble"]
    return (status == 503 and health["status"] == "hangs" and f"kill -CONT {it.live()}" in health["why"]
            and trouble[:1] and (trouble[0]["kind"], trouble[0]["text"]) == ("hangs", health["why"]))


def test_a_dispatcher_that_does_not_answer_is_told(desk):
    with desk(*inputs(LINE), *LONG) as it, concurrent.futures.ThreadPoolExecutor(1) as pool:
        assert it.gives("GET", "/trouble")["count"] == 0
        os.kill(it.live(), signal.SIGSTOP)
        asked = pool.submit(it.call, "POST", "/rides", {"from": 2, "to": 4})
        until(lambda: tells_of_a_stop(it), "what hangs, and how it goes on")
        os.kill(it.live(), signal.SIGCONT)
        assert asked.result()[0] == 201
        until(lambda: it.call("GET", "/health")[0] == 200, "ready again")
        assert it.gives("GET", "/trouble")["count"] == 0


DIES = """
import asyncio
from ridepool.desk import command, dispatcher
async def dies(self):
    await asyncio.sleep(1)
    raise RuntimeError("this task died")
dispatcher.Dispatcher.keep_watch = dies
command.main()
"""


def test_a_background_task_that_dies_ends_the_desk(program, folder):
    call = [sys.executable, "-c", DIES, *inputs(LINE), f"day={folder}", "port=0", f"program={program}"]
    done = subprocess.run(call, capture_output=True, text=True, timeout=5 * PATIENCE, env=WITH_PACKAGE)
    assert done.returncode == 1 and done.stderr.endswith("RuntimeError: this task died\n"), done
    assert "Traceback" in done.stderr and (folder / "transcript").read_text().endswith("done 0\n"), done


def test_the_clock_never_goes_behind_the_transcript(desk, folder):
    def shift(folder, seconds):
        path = folder / "day.json"
        path.write_text(json.dumps({**(day := json.loads(path.read_text())), "began": day["began"] + seconds}))

    with desk(*inputs(LINE), folder=folder) as it:
        it.gives("POST", "/vehicles/1/position", {"node": 2})
    shift(folder, -21_600)
    with desk(folder=folder) as it:
        it.gives("POST", "/vehicles/1/position", {"node": 3})
    shift(folder, 21_600)
    with desk(folder=folder) as it:
        assert it.gives("GET", "/health")["second"] >= 21_600
        assert any("s behind the day's last second" in line for line in it.said), it.said
        it.gives("POST", "/vehicles/1/position", {"node": 2})


def test_the_trouble_is_told_at_once_where_the_dispatcher_ended(program, folder):
    from ridepool.desk.dispatcher import Clock, Dispatcher
    from ridepool.desk.folder import Folder
    from ridepool.desk.trouble import Watch

    async def told(folder):
        it = Dispatcher(program, [], Folder(folder), list, Clock(time.time(), 1), Watch(30, 0))
        it.set_status("starting", "live ended; it is started again")
        it.look()
        queue = it.listen()
        it.give_up("live ended")
        return [queue.get_nowait().split("\n")[:2] for _ in range(queue.qsize())]

    found = asyncio.run(told(folder))
    values = {kind: json.loads(value.partition(": ")[2]) for kind, value in found}
    assert [kind for kind, _ in found] == ["event: state", "event: status", "event: trouble"], found
    assert values["event: status"]["why"] == "live ended", found
    assert [(it["kind"], it["text"]) for it in values["event: trouble"]["trouble"]] == [("hangs", "live ended")], found


def test_a_little_lead_of_a_vehicle_moves_no_clock():
    from ridepool.desk.book import Book
    from ridepool.sessions.rows import entrys_row
    from ridepool.sessions.state import Vehicle

    lines = ["ridepool report 1", "settings wait=120", "network nodes=5 arcs=8", "fleet vehicles=1", "round 0",
             "0 0 seal 100 sealed 1", "1 0 close 1 closed", "batch 1", "row 1 0", "overflow", "end", "2 13 report 1 3 1500 placed",
             "3 13 report 1 1 900000 refused unknown-node"]
    book, slow = Book([Vehicle(1, 4, 1, 0)]), Book([Vehicle(1, 4, 1, 0)])
    changes = [it for it in map(slow.line, lines) if it is not None]
    rows, last = book.past(lines)
    assert rows == [entrys_row(it.entry) for it in changes if it.entry is not None and it.entry.command != "close"], rows
    assert len(changes) == 5 and len(rows) == 3 and book.open_batch is None
    assert last is not None and last.batch == changes[2].batch and vars(book.seconds) == vars(slow.seconds)
    assert book.state.vehicles == slow.state.vehicles and book.state.batches == slow.state.batches
    assert book.seconds.last(700, 900) == 100
    assert book.seconds.last(599, 900) == 1500
    assert Book([]).seconds.last(50, 900) == 0


def test_a_mistake_is_taken_back_where_the_book_allows_it(desk):
    with desk(*inputs(LINE), *LONG) as it:
        it.refuses(409, "no-mistake", "POST", "/vehicles/1/mistake")
        it.gives("POST", "/vehicles/1/position", {"node": 4})
        back = it.gives("POST", "/vehicles/1/mistake")
        assert (back["node"], back["reply"]) == (1, "placed"), back
        assert it.gives("GET", "/vehicles/1")["node"] == 1
        it.refuses(409, "no-mistake", "POST", "/vehicles/1/mistake")
        it.gives("POST", "/rides", {"from": 2, "to": 4, "time": 0})
        second = it.plan()["second"] + 60
        it.gives("POST", "/vehicles/1/pickup", {"ride": 1, "second": second})
        it.refuses(409, "book-keeps-it", "POST", "/vehicles/1/mistake")
        answer = it.call("POST", "/vehicles/1/mistake")[1]
        assert "enter the drop-off of ride 1" in answer["text"], answer
