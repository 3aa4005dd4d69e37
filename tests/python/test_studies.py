"""Studies that can be trusted: what is wrong is marked, two studies never meet, and workers are tried before they get a day."""

import csv
import errno
import json
import os
import pathlib
import queue
import signal
import subprocess
import sys
import time
import xml.etree.ElementTree

import pandas
import pytest
import ridepool as rp

pytest.importorskip("distributed")
pytest.importorskip("scipy")

from ridepool.days.on_worker import NotHere  # noqa: E402
from ridepool.days.one_day import NotDriven, Stopped, Task  # noqa: E402
from ridepool.draw import policies as policies_picture, service, study as study_picture  # noqa: E402
from ridepool.inputs import tables  # noqa: E402
from ridepool.study import command, spread, workers  # noqa: E402
from ridepool.study.ground import ground_of  # noqa: E402
from ridepool.study.kept import Kept, checksum, held  # noqa: E402
from ridepool.study.plan import SETTINGS, Cell, Plan  # noqa: E402
from ridepool.words import Fault  # noqa: E402

TOP = pathlib.Path(__file__).resolve().parent.parent.parent
PATIENCE = 3600
CITY = """[city]
seed = 5
avenues = 6
streets = 24
requests = 80
seconds = 600

[all]
wait = 240
delay = 400
budget = 1
"""
DEFAULT = Cell(**{name: value for name, (_, _, value) in SETTINGS.items()})
WAITING = """#!/bin/sh
[ "$1" = --version ] && exit 0
touch {folder}/begun-$$
until [ -e {folder}/go ]; do sleep 0.2; done
exec {program} "$@"
"""


def until(true, what):
    """Waits until something is true."""
    end = time.monotonic() + PATIENCE
    while not true():
        assert time.monotonic() < end, f"never: {what}"
        time.sleep(0.1)


def begin(folder, text, *words, **how):
    """Begins a study."""
    (folder / "STUDY.toml").write_text(CITY + text)
    call = [sys.executable, str(TOP / "tools" / "study.py"), str(folder / "STUDY.toml"), str(folder / "out"), *map(str, words)]
    return subprocess.Popen(call, stdin=subprocess.DEVNULL, stdout=subprocess.PIPE, stderr=subprocess.PIPE, text=True, **how)


def ended(process):
    """What a study says: its status, its lines, and those of standard error."""
    out, errors = process.communicate(timeout=PATIENCE)
    return process.returncode, out.splitlines(), errors.splitlines()


def studied(folder, text, *words):
    """A whole study that works. Gives its lines and its rows."""
    status, lines, errors = ended(begin(folder, text, "processors=1", f"program={os.environ['RIDEPOOL_PROGRAM']}", *words))
    assert (status, errors) == (0, []), (status, lines, errors)
    with open(folder / "out" / "cells.csv", newline="") as file:
        return lines, list(csv.DictReader(file))


def made(folder, **words):
    """The ground of a made city."""
    return ground_of(Plan([], {name: str(value) for name, value in words.items()}, None), folder, folder)


def of_files(folder, row):
    """The day of a row in one fleet, by `drive`."""
    ground = made(folder / "again", seed=5, avenues=6, streets=24, requests=80, seconds=600)
    cell = DEFAULT._replace(**{name: int(row[name]) for name in SETTINGS})
    (fleet, script, _), = ground.days(cell)
    for name, text in (("fleet", fleet), ("script", script)):
        (folder / f"{name}.csv").write_text(text)
    asked = pandas.read_csv(folder / "script.csv").query("command == 'submit'")
    asked = asked.rename(columns={"a": "rider", "b": "from", "c": "to", "d": "time", "e": "persons"}).astype(
        {name: int for name in ("rider", "from", "to", "time", "persons")})
    net = rp.Network.from_csv(folder / "again" / "city" / "network.csv")
    requests = rp.Requests.from_frame(asked, every=cell.every, until=600)
    settings = {name: int(row[name]) for name in ("wait", "delay", "trip", "budget", "pairs", "workers")}
    return rp.drive(net, rp.Fleet.from_csv(folder / "fleet.csv"), requests, rp.Settings(**settings))


def test_columns_are_those_of_the_frames(tmp_path):
    lines, (row,) = studied(tmp_path, "[[grid]]\nvehicles = 5\n", "timed=1")
    day = of_files(tmp_path, row)
    riders, done = day.riders, day.riders.dropna(subset=["dropoff"])
    direct = day.net.seconds_of(done["origin"], done["destination"])
    in_car = done["dropoff"] - done["pickup"] - direct
    assert row["mean_in_car"] == f"{in_car.mean():.2f}"
    assert float(row["mean_in_car"]) == pytest.approx(float(row["mean_delay"]) - float(row["mean_wait"]), abs=0.011)
    persons = riders["persons"].sum(), riders.dropna(subset=["pickup"])["persons"].sum()
    assert (int(row["persons"]), int(row["persons_served"])) == persons
    assert row["persons_share"] == f"{persons[1] / persons[0]:.4f}"
    assert int(row["over_seats"]) == (riders["persons"] > int(row["seats"])).sum() > 0
    assert int(row["approach_seconds"]) + int(row["rebalancing_seconds"]) == int(row["empty_seconds"])
    assert row["driven_a_vehicle"] == f"{day.vehicles['driven'].sum() / 5:.0f}"
    assert (row["state"], row["mark"], row["refused"], row["refusals"]) == ("done", "", "0", "")
    assert f"{row['served']} of 80 served; {row['over_seats']} of more persons than seats" in lines[-2]
    minutes = [float(it) for it in row["aboard_by_minute"].split()]
    assert len(minutes) == 10 and minutes == pytest.approx(day.aboard_by_minute, abs=0.0051)
    assert 0 < float(row["median_batch"]) <= float(row["p95_batch"]) and float(row["wall_seconds"]) > 0


def test_persons_aboard_by_minute(line):
    """One rider of two persons, aboard from second 60 to 240, on a day whose last seal is at second 180."""
    asked = pandas.DataFrame({"from": [2], "to": [5], "time": [0], "persons": [2]})
    net, fleet = line
    day = rp.drive(net, fleet, rp.Requests.from_frame(asked, every=1, until=180), rp.Settings(wait=120))
    assert day.riders[["pickup", "dropoff"]].values.tolist() == [[61, 241]]
    assert day.aboard_by_minute == pytest.approx([0, 2 * 59 / 60, 2])
    assert day.facts["approach_seconds"] == 60 and day.facts["rebalancing_seconds"] == 0


def test_moves_are_apart_from_approach(line):
    """A rider whom no vehicle reaches in time: the vehicle moves there all the same."""
    net, fleet = line
    asked = pandas.DataFrame({"from": [5], "to": [1], "time": [0]})
    day = rp.drive(net, fleet, rp.Requests.from_frame(asked, every=60, until=180), rp.Settings(wait=100))
    assert len(day.moves) and day.facts["rebalancing_seconds"] == day.facts["empty_seconds"] > 0
    assert day.facts["approach_seconds"] == 0 and day.measures()["served"] == 0


@pytest.fixture(scope="module")
def full_pool():
    """Twelve hundred requests at once, of which the book takes a thousand."""
    net = rp.Network.made(side=5, seed=1)
    asked = pandas.DataFrame({"from": [1, 2, 3] * 400, "to": [25, 24, 23] * 400, "time": [0] * 1200})
    return rp.drive(net, rp.Fleet.drawn(net, vehicles=1), rp.Requests.from_frame(asked, every=30), rp.Settings(trip=1))


def test_refused_requests_are_told(full_pool, tmp_path):
    assert full_pool.refusals == {"pool-full": 200} and full_pool.measures()["refused"] == 200
    assert full_pool.marks == ["200 of 1200 requests were refused (pool-full:200)"]
    title = service.title_of(full_pool.report, full_pool.report.batches)
    assert title == "Service: 1 batch, 1,200 requests (200 refused: pool-full:200), 1 vehicle"


def test_few_refused_requests_are_no_mark():
    from ridepool.report.marks import marks_of

    assert marks_of(1000, {"pool-full": 10}, 5, 0) == []
    assert marks_of(1000, {"same-place": 5, "pool-full": 6}, 5, 2) == [
        "2 of 5 batches overflowed", "11 of 1000 requests were refused (pool-full:6 same-place:5)"]


def test_a_study_that_overflows(tmp_path):
    """It isn't called done: the row, the line, the last line and the picture say so."""
    lines, rows = studied(tmp_path, "[[grid]]\nvehicles = [3, 6]\nseats = [1, 4]\npairs = [1]\n")
    assert [(row["state"], row["mark"], row["served"]) for row in rows] == [
        ("marked", "10 of 10 batches overflowed", "0")] * 4
    assert "vehicles=3 seats=1: 0 of 80 served, MARKED: 10 of 10 batches overflowed; " in "\n".join(lines)
    assert lines[-1].endswith("4 cells of 4 days, 4 driven now, 0 cells failed, 4 marked: see the column mark")
    found = study_picture.read_cells(str(tmp_path / "out" / "cells.csv"))
    assert study_picture.caption_of(found)[-4:] == [
        f"hollow: {vehicles} vehicles, {seats}, wait 240: 10 of 10 batches overflowed"
        for vehicles in (3, 6) for seats in ("1 seat", "4 seats")]
    pytest.importorskip("matplotlib")
    picture = study_picture.draw(str(tmp_path / "out" / "cells.csv"), {})
    lines = {line.get_gid(): line for axes in picture.axes for line in axes.lines}
    assert lines["share-4"].get_ydata().tolist() == [0, 0] and lines["share-4-marked"].get_markerfacecolor() == "white"


def test_old_tables_are_still_drawn():
    found = study_picture.read_cells(str(TOP / "tests" / "tools" / "cells-1.3.csv"))
    assert [(row["vehicles"], row["served"]) for row in found] == [
        (100, "1003"), (500, "3682"), (500, "3498"), (500, "2984")]
    assert {row["mark"] for row in found} == {""} and {row["split"] for row in found} == {"nearest"}


def test_no_gap_is_said_of_planned_batches():
    assert service.no_gap(3, 3) == "no gap: cost and bound meet"
    assert service.no_gap(2, 3) == "no gap: cost and bound meet in the 2 of 3 batches planned"
    assert service.no_gap(0, 3) == "no batch has a plan"


def test_a_rider_counts_once_in_service(day):
    found = list(service.services_of(day.report, day.report.requests(), {}))
    planned = {stop.rider for batch in day.report.batches for trip in batch.plans() for stop in trip.stops if stop.kind == "pick"}
    assert sum(it.served for it in found) == len(planned)


def test_two_studies_at_once(tmp_path):
    """While one holds the folder a second says who does, and writes nothing."""
    with held(tmp_path / "out"):
        status, lines, errors = ended(begin(tmp_path, "[[grid]]\n", "processors=1"))
        assert (status, lines, len(errors)) == (2, [], 1)
        assert f"another study runs in this folder: process {os.getpid()} on " in errors[0]
        assert [it.name for it in (tmp_path / "out").iterdir()] == ["held"]
        with pytest.raises(Fault), held(tmp_path / "out"):
            pytest.fail("held twice")
    with held(tmp_path / "out"):
        assert (tmp_path / "out" / "held").read_text().startswith(f"process {os.getpid()} on ")


def test_a_kept_day_that_does_not_fit(tmp_path):
    """A day whose file was changed, cut or renamed is driven again, and the table is the same."""
    grid = "[[grid]]\nvehicles = [3, 4, 5, 6]\n"
    lines, rows = studied(tmp_path, grid)
    kept = sorted((tmp_path / "out" / "kept").iterdir())
    assert len(kept) == 4 and "4 driven now" in lines[-1]
    for path in kept:
        known = json.loads(path.read_text())
        assert path.stem == checksum(known["made_of"]) and known["checksum"] == checksum(known["facts"])
        assert set(known["made_of"]) == {"form", "program", "network", "fleet", "script", "words"}
    changed = json.loads(kept[0].read_text())
    changed["facts"]["waits"][0] += 1
    kept[0].write_text(json.dumps(changed))
    kept[1].write_text(kept[1].read_text()[:-5])
    kept[3].write_text(kept[2].read_text())
    lines, again = studied(tmp_path, grid)
    measured = {"seconds", "megabytes", "wall_seconds"}
    assert "3 driven now" in lines[-1]
    assert [{key: row[key] for key in row if key not in measured} for row in again] == [
        {key: row[key] for key in row if key not in measured} for row in rows]
    assert "0 driven now" in studied(tmp_path, grid)[0][-1]


def test_files_are_whole_or_not_there(tmp_path, monkeypatch):
    """Where a file can't be written its old text stays, and nothing lies beside it."""
    path = tmp_path / "table.csv"
    tables.write_table(path, ("a",), [(1,)])

    def fails(*_):
        raise OSError(errno.ENOSPC, "No space left on device")

    monkeypatch.setattr(os, "replace", fails)
    with pytest.raises(OSError) as fault:
        tables.write_table(path, ("a",), [(2,)])
    assert fault.value.filename == str(path) and path.read_text() == "a\n1\n"
    assert [it.name for it in tmp_path.iterdir()] == ["table.csv"]


@pytest.mark.parametrize("split", ["zones", "random", "nearest"])
def test_seeds_are_streams_of_their_own(tmp_path, split):
    """No fleet of a seed is that of another seed, and riders are parted by the seed, too."""
    city = made(tmp_path, requests=300, avenues=6, streets=24)
    seeds = range(1, 6)
    if split == "nearest":
        fleets = [fleet for seed in seeds for fleet in city.city(DEFAULT._replace(fleets=3, vehicles=30, seed=seed))[0]]
    else:
        days = [day for seed in seeds for day in city.days(DEFAULT._replace(fleets=3, split=split, vehicles=30, seed=seed))]
        fleets = [day[0] for day in days]
        assert [sum(len(day[2]) for day in days[at:at + 3]) for at in range(0, 15, 3)] == [300] * 5
    places = [tuple(line.split(",")[2] for line in fleet.splitlines()[1:]) for fleet in fleets]
    assert len({place[:5] for place in places}) == 15
    one = list(city.days(DEFAULT._replace(seed=1)))
    assert len(one) == 1 and one[0][0] not in fleets


class Said(list):
    """What is said."""

    def __call__(self, text):
        self.append(text)


class Future:
    """A day at a pretended worker."""

    def __init__(self, status, value=None):
        self.status, self.value, self.is_cancelled, self.call = status, value, False, None

    def result(self, timeout=None):
        return self.value

    def exception(self, timeout=None):
        return self.value

    def cancel(self):
        self.is_cancelled, self.status = True, "cancelled"
        if self.call is not None:
            self.call(self)

    def add_done_callback(self, call):
        self.call = call
        if self.status != "pending":
            call(self)


class Cluster:
    """A pretended cluster: `does` says what a worker makes of a day, `systems` what it is."""

    def __init__(self, does, systems, refused=()):
        self.does, self.systems, self.refused = does, systems, dict(refused)
        self.status, self.given = "running", []

    def scheduler_info(self):
        return {"workers": {address: {"nthreads": 1} for address in self.systems}}

    def run(self, call, *given, workers):
        address, = workers
        return {address: self.systems[address] if call is eval else self.refused.get(address, "")}

    def upload_file(self, path):
        pass

    def submit(self, call, name, task, workers, **how):
        self.given.append((workers[0], task))
        return self.does(workers[0], task)


GOOD = ("linux", "x86_64", (3, 11))


def shared(cluster, days="abcdefgh"):
    """What becomes of days, and what was said."""
    said = Said()
    found = list(workers.Workers(cluster, b"", b"", said).drive(days, lambda key: key))
    assert len({it.key for it in found}) == len(found), "a day came back twice"
    return {it.key: it for it in found}, said


@pytest.fixture(autouse=True)
def quick(monkeypatch):
    """Pretended clusters needn't be waited for."""
    monkeypatch.setattr(workers, "LOOK_SECONDS", 0.05)


def test_unfit_workers_get_no_day():
    cluster = Cluster(lambda address, task: Future("finished", {"day": task}), {
        "good": GOOD, "old": ("linux", "x86_64", (3, 7)), "arm": ("linux", "aarch64", (3, 11)), "full": GOOD},
        {"full": "it can't keep the program: No space left on device"})
    found, said = shared(cluster)
    assert {key: it.facts for key, it in found.items()} == {key: {"day": key} for key in "abcdefgh"}
    assert {address for address, _ in cluster.given} == {"good"}
    assert sorted(said) == [
        "worker arm gets no day: it is linux on aarch64, and the program is for linux on x86_64",
        "worker full gets no day: it can't keep the program: No space left on device",
        "worker old gets no day: its Python is 3.7, and days need 3.9"]


def test_where_no_other_worker_comes_nothing_waits():
    """The workers of this machine's processors are all there are: where none is fit the study ends."""
    cluster = Cluster(lambda address, task: Future("finished", {}), {"one": GOOD}, {"one": "the program doesn't run: no"})
    cluster.cluster = object()
    with pytest.raises(Fault, match="no worker can drive a day: the program doesn't run: no"):
        shared(cluster)


def test_a_day_whose_worker_fails_goes_to_another():
    def does(address, task):
        return Future("error", OSError("disk")) if address == "bad" else Future("finished", {"day": task})

    found, _ = shared(Cluster(does, {"bad": GOOD, "good": GOOD}))
    assert all(it.facts == {"day": key} for key, it in found.items()) and len(found) == 8


def test_a_day_that_fails_everywhere_ends_after_three():
    cluster = Cluster(lambda address, task: Future("error", OSError("disk")), {"one": GOOD, "two": GOOD})
    found, _ = shared(cluster, "a")
    assert str(found["a"].fault) == "3 workers failed, the last one so: OSError: disk" and len(cluster.given) == 3
    assert {address for address, _ in cluster.given} == {"one", "two"}


def test_a_day_that_has_no_report_is_not_tried_again():
    for fault in (NotDriven("status 9"), Stopped("stopped after 3 seconds")):
        cluster = Cluster(lambda address, task: Future("error", fault), {"one": GOOD, "two": GOOD})
        found, _ = shared(cluster, "a")
        assert found["a"].fault is fault and len(cluster.given) == 1
    cluster = Cluster(lambda address, task: Future("error", NotHere("the worker has no program")), {"one": GOOD})
    assert len(shared(cluster, "a")[0]) == 1 and len(cluster.given) == 3


def test_workers_come_and_go():
    """The first worker takes days and ends, another comes later and drives them all."""
    pending = []

    def does(address, task):
        if address == "first":
            pending.append(Future("pending"))
            cluster.systems = {"second": GOOD}
            return pending[-1]
        return Future("finished", {"day": task})

    cluster = Cluster(does, {"first": GOOD})
    found, said = shared(cluster)
    assert sorted(found) == list("abcdefgh") and all(it.facts for it in found.values())
    assert pending and all(it.is_cancelled for it in pending) and said == []


def test_no_worker_is_said_once():
    cluster = Cluster(lambda address, task: Future("finished", {"day": task}), {})
    looks = queue.Queue()
    info = cluster.scheduler_info

    def later():
        looks.put(None)
        if looks.qsize() == 4:
            cluster.systems = {"late": GOOD}
        return info()

    cluster.scheduler_info = later
    found, said = shared(cluster)
    assert len(found) == 8 and said == ["no workers yet: the days wait for one"]


def test_a_scheduler_that_is_gone_is_told():
    def does(address, task):
        cluster.status = "closed"
        return Future("cancelled")

    cluster = Cluster(does, {"one": GOOD})
    with pytest.raises(workers.Lost):
        shared(cluster)


def test_a_full_disk(tmp_path, monkeypatch, capsys):
    """A kept day that can't be written ends the study in one line."""
    class Full:
        def __init__(self, client, program, network, say):
            pass

        def drive(self, todo, task_of):
            return iter([workers.Outcome(todo[0], {"waits": []}, None)])

    def fails(*_):
        raise OSError(errno.ENOSPC, "No space left on device", "kept/day.json")

    monkeypatch.setattr(workers, "Workers", Full)
    monkeypatch.setattr(command, "client_of", lambda values: held(tmp_path / "client"))
    monkeypatch.setattr("ridepool.study.kept.whole_file", fails)
    (tmp_path / "STUDY.toml").write_text(CITY + "[[grid]]\n")
    with pytest.raises(Fault) as fault:
        command.convert([str(tmp_path / "STUDY.toml"), str(tmp_path / "out"), f"program={os.environ['RIDEPOOL_PROGRAM']}"])
    assert str(fault.value) == (f"kept/day.json: No space left on device: the days that were driven are kept in "
                                f"{tmp_path / 'out'}; the same call goes on from there")


def waiting_program(folder):
    """A program that waits for a file before it drives a day."""
    path = folder / "waiting"
    path.write_text(WAITING.format(folder=folder, program=os.environ["RIDEPOOL_PROGRAM"]))
    path.chmod(0o755)
    return path


def test_ctrl_c(tmp_path):
    """All processes of the terminal are interrupted: one line is said, and the same call goes on."""
    running = begin(tmp_path, "[[grid]]\nvehicles = [3, 6]\n", "processors=1", f"program={waiting_program(tmp_path)}",
                    start_new_session=True)
    until(lambda: list(tmp_path.glob("begun-*")), "a day")
    os.killpg(running.pid, signal.SIGINT)
    status, _, errors = ended(running)
    assert status == 2 and len(errors) == 1 and "interrupted: the days that were driven are kept in " in errors[0], errors
    (tmp_path / "go").touch()
    status, lines, errors = ended(begin(tmp_path, "[[grid]]\nvehicles = [3, 6]\n", "processors=1",
                                        f"program={tmp_path / 'waiting'}"))
    assert (status, errors) == (0, []) and "2 cells of 2 days, 2 driven now" in lines[-1]


def test_a_scheduler_that_is_killed(tmp_path):
    """One line is said, and nothing hangs."""
    address, processes = tmp_path / "scheduler.json", []
    call = [sys.executable, "-m", "distributed.cli.dask_%s", "--scheduler-file", str(address)]
    try:
        for kind, words in (("scheduler", ("--host", "127.0.0.1", "--port", "0")), ("worker", ("--no-nanny", "--nthreads", "1"))):
            words = [*(word.replace("%s", kind) for word in call), *words, "--no-dashboard"]
            processes.append(subprocess.Popen(words, cwd=tmp_path, stdout=subprocess.DEVNULL, stderr=subprocess.DEVNULL))
            until(address.exists, "the scheduler")
        running = begin(tmp_path, "[[grid]]\n", f"cluster={json.loads(address.read_text())['address']}",
                        f"program={waiting_program(tmp_path)}")
        until(lambda: list(tmp_path.glob("begun-*")), "a day")
        processes[0].send_signal(signal.SIGKILL)
        status, _, errors = ended(running)
        assert status == 2 and len(errors) == 1 and "the scheduler is gone: 0 of 1 days were driven" in errors[0], errors
    finally:
        (tmp_path / "go").touch()
        for process in processes:
            process.kill()
            process.wait()


def test_a_task_of_many_fleets_has_another_name(tmp_path):
    """What is kept of a city's day isn't taken for one fleet's, nor for a timed one."""
    kept, task = Kept(tmp_path, "program", "network"), Task("fleet", "script", (), {}, None)
    names = {kept.key_of(it) for it in (task, task._replace(timed=True), task._replace(fleets=("a", "b")),
                                        task._replace(fleets=("ab",)), task._replace(words=("wait=1",)))}
    assert len(names) == 5


def test_policies_are_compared(tmp_path):
    """Each policy on two small cities: the table has the mean, the least and the most, and the figure a bar for each row."""
    pytest.importorskip("matplotlib")
    from ridepool.study import compared

    words = {"vehicles": "3", "seeds": "2", "requests": "25", "seconds": "300", "avenues": "4", "streets": "12"}
    compared.compare(str(tmp_path), words)
    table = pandas.read_csv(tmp_path / "policies.csv")
    assert table[["policy", "seats"]].values.tolist() == [
        ["nearest free vehicle", 4], ["optimal matching", 4], ["cheapest insertion", 4], ["ridepool without moves", 4],
        *(["ridepool", seats] for seats in (1, 2, 4, 10))]
    assert (table["share_least"] <= table["share"]).all() and (table["share"] <= table["share_most"]).all()
    assert (table["seeds"] == 2).all() and (table["marked"] == 0).all()
    days = []
    for seed in (1, 2):
        net, requests = compared.ground(str(tmp_path), seed, words, 60)
        days.append(rp.drive(net, rp.Fleet.drawn(net, 3, 4, seed), requests, rp.Settings(wait=300, delay=600, budget=1)))
    share = [day.measures()["share"] for day in days]
    found = table[(table["policy"] == "ridepool") & (table["seats"] == 4)].iloc[0]
    assert (found["share"], found["share_least"]) == (pytest.approx(sum(share) / 2, abs=1e-4), pytest.approx(min(share), abs=1e-4))
    wait = [found[name] for name in ("mean_wait", "mean_wait_least", "mean_wait_most")]
    waits = [day.measures()["mean_wait"] for day in days]
    assert wait == [pytest.approx(value, abs=1e-4) for value in (sum(waits) / 2, min(waits), max(waits))]


def policies_table(path, **changed):
    """A table of two policies, with other values in its second row. The least is 1 below each mean, and the most 2 above."""
    first = {name: at - 2 * name.endswith("_least") for at, name in enumerate(spread.HEADER)}
    first.update(policy="nearest free vehicle", seats=4, seeds=3, marked=0)
    rows = [first, {**first, "policy": "ridepool", "seats": 1, **changed}]
    tables.write_table(path, spread.HEADER, [list(row.values()) for row in rows])
    return str(path)


def test_the_figure_of_policies(tmp_path):
    """A bar is as long as the mean, and its line reaches from the least to the most."""
    pytest.importorskip("matplotlib")
    path = policies_table(tmp_path / "policies.csv", share=0.5, share_least=0.25, share_most=0.625)
    axes = policies_picture.draw(path).axes
    assert [[bar.get_width() for bar in it.patches] for it in axes] == [[300, 50], [6, 6], [12, 12]]
    assert [bar.get_gid() for bar in axes[0].patches] == ["share-nearest-free-vehicle-4", "share-ridepool-1"]
    ends = axes[0].collections[0].get_segments()[1]
    assert ends.tolist() == [[25, 1], [62.5, 1]]
    assert [it.get_text() for it in axes[0].get_yticklabels()] == ["nearest free vehicle, 4 seats", "ridepool, 1 seat"]
    assert axes[0].yaxis_inverted()


def test_marked_policies_are_hollow(tmp_path):
    """Days whose figures must not be taken as they stand are told in the picture."""
    pytest.importorskip("matplotlib")
    axes = policies_picture.draw(policies_table(tmp_path / "policies.csv", marked=2)).axes
    assert [it.get_text() for it in axes[0].get_yticklabels()][1] == "ridepool, 1 seat: 2 of 3 days marked"
    assert [[bar.get_facecolor() == (1, 1, 1, 1) for bar in it.patches] for it in axes] == [[False, True]] * 3


def test_other_tables_are_no_policies(tmp_path):
    (tmp_path / "none.csv").write_text(",".join(spread.HEADER) + "\n")
    for path in (TOP / "examples" / "study" / "cells.csv", tmp_path / "none.csv"):
        with pytest.raises(Fault, match="not a table of policies.py"):
            spread.read_rows(path)


def test_a_comparison_says_what_is_marked(tmp_path, capsys, monkeypatch):
    """More than one of a hundred requests refused: the line says so of each seed, and the table counts the days."""
    from ridepool.study import compared

    monkeypatch.setattr("ridepool.policies.simulation.MOST_WAITING", 2)
    monkeypatch.setattr(compared, "rows", lambda seats: [compared.Row("nearest free vehicle", seats, compared.by(rp.NearestFree))])
    compared.compare(str(tmp_path), {"vehicles": "1", "seeds": "2", "requests": "25", "seconds": "300", "avenues": "4", "streets": "12"})
    said = capsys.readouterr().out
    assert said.startswith("nearest free vehicle, 4 seats: ")
    assert "% of requests served, MARKED: seed 1: " in said and "; seed 2: " in said and "pool-full" in said
    assert [row["marked"] for row in spread.read_rows(tmp_path / "policies.csv")] == [2]


def test_policies_without_pandas(tmp_path):
    """What is missing is said in one line, before anything is driven."""
    lines = ("import sys", "sys.modules['pandas'] = None", f"sys.argv = ['policies.py', {str(tmp_path / 'out')!r}]",
             "from ridepool.study.policies_command import main", "main()")
    environment = {**os.environ, "PYTHONPATH": str(TOP / "python")}
    ran = subprocess.run([sys.executable, "-c", "; ".join(lines)], capture_output=True, text=True, env=environment)
    assert ran.returncode == 2 and ran.stderr.count("\n") == 1 and "has no pandas: apt-get install" in ran.stderr
    assert not (tmp_path / "out").exists()


def test_the_policies_of_the_guide():
    """The table has all policies on three seeds, none of them marked, and the picture's bars are as long as its means."""
    from ridepool.study import compared

    rows = spread.read_rows(TOP / "examples" / "study" / "policies.csv")
    assert [(row["policy"], row["seats"]) for row in rows] == [(row.name, row.seats) for row in compared.rows(4)]
    assert {(row["seeds"], row["marked"]) for row in rows} == {(3, 0)}
    root = xml.etree.ElementTree.parse(TOP / "docs" / "pictures" / "policies.svg").getroot()
    paths = {group.get("id"): group[0].get("d").split() for group in root.iter("{http://www.w3.org/2000/svg}g") if len(group)
             and group[0].get("d")}
    for measure in ("share", "mean_wait", "mean_in_car"):
        means = [row[measure] for row in rows]
        names = [f"{measure}-{row['policy'].replace(' ', '-')}-{row['seats']:.0f}" for row in rows]
        drawn = [float(paths[name][4]) - float(paths[name][1]) for name in names]
        longest = max(range(len(rows)), key=means.__getitem__)
        assert [it / drawn[longest] for it in drawn] == [pytest.approx(it / means[longest], abs=1e-3) for it in means]
