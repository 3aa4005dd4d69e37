"""Tests of the cells of a study: beside plain calls, on workers of which one is killed, with days that fail."""

import contextlib
import csv
import json
import os
import signal
import subprocess
import sys
import time

from study_parts.plain import Plain
from study_parts.shared import CITY, GRID, rows_of, script_for, studied, study
from tools_parts.shared import PICTURES, TOP, Svg, refuses, works

STUDY = TOP / "examples" / "study"
MEASURES = ("share", "mean_wait", "mean_delay", "aboard")
WAITING = """#!/bin/sh
[ "$1" = --version ] && exit 0
echo $PPID > {folder}/begun/$$
until [ -e {folder}/go ]; do sleep 0.1; done
exec {program} "$@"
"""
PLAYING = """#!/bin/sh
case "$*" in
  *trip=1*) echo "ridepool: out of memory" >&2; exit 9;;
  *trip=2*) exec sleep 1000;;
  *) cat {report};;
esac
"""


def until(true, what, seconds=1200):
    """Waits until something is true."""
    end = time.monotonic() + seconds
    while not true():
        assert time.monotonic() < end, f"not within {seconds} seconds: {what}"
        time.sleep(0.1)


@contextlib.contextmanager
def two_workers(folder):
    """A scheduler with two workers of one thread each. Gives its address and the workers."""
    address, begun = folder / "scheduler.json", []

    def begin(kind, *words):
        command = [sys.executable, "-m", f"distributed.cli.dask_{kind}", "--scheduler-file", address, *words]
        begun.append(subprocess.Popen(command, cwd=folder, stdout=subprocess.DEVNULL, stderr=subprocess.DEVNULL))
        return begun[-1]

    try:
        begin("scheduler", "--host", "127.0.0.1", "--port", "0", "--no-dashboard")
        until(address.exists, "the scheduler")
        worker = ("--no-nanny", "--nthreads", "1", "--no-dashboard", "--local-directory", folder)
        workers = [begin("worker", *worker) for _ in range(2)]
        yield json.loads(address.read_text())["address"], workers
    finally:
        for process in begun:
            process.kill()
            process.wait()


def test_grid_with_a_worker_killed(program, folder):
    """Eight cells on two workers, one of which is killed while it drives a day: all rows are those of plain calls, a
    second call drives nothing, and the figures have their lines."""
    (folder / "begun").mkdir()
    waiting = script_for(folder, "waiting", WAITING.format(folder=folder, program=program))
    with two_workers(folder) as (address, workers):
        running = study(folder, f"cluster={address}", f"program={waiting}")
        begun = folder / "begun"

        def parents():
            return {int(file.read_text() or 0): int(file.name) for file in begun.iterdir()}

        until(lambda: {worker.pid for worker in workers} <= set(parents()), "a day on each worker")
        child = parents()[workers[0].pid]
        workers[0].send_signal(signal.SIGKILL)
        workers[0].wait()
        until(lambda: not os.path.exists(f"/proc/{child}"), "the end of the killed worker's day")
        (folder / "go").touch()
        out, errors = running.communicate()
        assert (running.returncode, errors) == (0, ""), (out, errors)
        assert "8 cells of 8 days, 8 driven now, 0 cells failed" in out and len(list(begun.iterdir())) >= 9, out
        rows, text = rows_of(folder), (folder / "out" / "cells.csv").read_text()
        count = len(list(begun.iterdir()))
        out, _ = studied(folder, f"cluster={address}", f"program={waiting}")
        assert "0 driven now" in out and len(list(begun.iterdir())) == count, out
        assert (folder / "out" / "cells.csv").read_text() == text
    settings = [(row["vehicles"], row["seats"], row["demand"]) for row in rows]
    assert settings == [(v, s, d) for v in "36" for s in "14" for d in ("50", "100")], settings
    for at, row in enumerate(rows):
        plain = Plain(program, folder / f"plain-{at}", row, int(row["demand"])).result()
        assert {key: row[key] for key in plain} == plain, (row, plain)
        assert row["megabytes"] in ("", *map(str, range(1, 51))) and len(row["program"]) == 64, row
    assert sum(float(row["seconds"]) for row in rows) > 0, rows
    works("draw", folder / "out" / "cells.csv", "study", "demand=100", folder / "study.svg")
    svg = Svg(folder / "study.svg")
    for measure in MEASURES:
        assert [svg.lines(f"{measure}-{seats}") for seats in (1, 4)] == [1, 1], measure
    svg.has("1 seat", "4 seats", "wait at most 240 s", "vehicles")
    refuses("cells differ in demand: name one of 50, 100 by demand=", "draw", folder / "out" / "cells.csv", "study",
            folder / "none.svg")
    refuses("no cell that is done has these settings", "draw", folder / "out" / "cells.csv", "study", "wait=7",
            folder / "none.svg")


def test_cells_that_fail(folder):
    """A day that fails and one that runs past the limit are said, and the others are driven; one that was stopped is
    driven again under a longer limit alone."""
    report = folder / "report"
    report.write_text("ridepool report 1\nsettings wait=120 delay=180\nnetwork nodes=5 arcs=8\nfleet vehicles=1\ndone 0\n")
    playing = script_for(folder, "playing", PLAYING.format(report=report))
    text = CITY + "[[grid]]\ntrip = [1, 2, 3]\n"
    out, rows = studied(folder, f"program={playing}", "limit=15", status=1, text=text)
    states = [row["state"] for row in rows]
    assert states == ["status 9: ridepool: out of memory", "stopped after 15 seconds", "done"], states
    assert "trip=1: status 9: ridepool: out of memory\n" in out and "3 driven now, 2 cells failed" in out, out
    for limit, driven in ((14, 1), (16, 2)):
        out, rows = studied(folder, f"program={playing}", f"limit={limit}", status=1, text=text)
        assert f"{driven} driven now, 2 cells failed" in out, out
    assert [row["state"] for row in rows][1] == "stopped after 16 seconds", rows
    playing.write_text(playing.read_text() + "# another program\n")
    out, rows = studied(folder, f"program={playing}", "limit=15", status=1, text=text)
    assert "3 driven now" in out, out


def test_zones_add_up(program, folder):
    """The row of a cell in zones is the sum of its days."""
    text = CITY + GRID.replace("vehicles = [3, 6]\nseats = [1, 4]\ndemand = [50, 100]", "vehicles = 6\nzones = [1, 3]")
    _, (one, three) = studied(folder, f"program={program}", text=text)
    assert (one["requests"], three["requests"], three["batches"]) == ("80", "80", "30"), (one, three)
    assert int(one["batches"]) == 10 and 0 < int(three["served"]) <= 80
    days = [json.loads(file.read_text())["facts"] for file in (folder / "out" / "kept").iterdir()]
    zones = [day for day in days if day["requests"] < 80]
    assert len(zones) == 3 and sum(day["requests"] for day in zones) == 80
    assert sum(len(day["waits"]) for day in zones) == int(three["served"])
    assert sum(day["driven_seconds"] for day in zones) == int(three["driven_seconds"])
    waits = [wait for day in zones for wait in day["waits"]]
    assert three["mean_wait"] == f"{sum(waits) / len(waits):.2f}"


def test_the_study_of_the_guide():
    """Its table has the cells of STUDY.toml, all done by one program, and its picture has their lines."""
    from ridepool.study.plan import SETTINGS, Cell, read_plan

    with open(STUDY / "cells.csv", newline="") as file:
        rows = list(csv.DictReader(file))
    cells = read_plan(STUDY / "STUDY.toml").cells
    found = [{"fleets": "1", "split": "nearest", **row} for row in rows]
    assert [Cell(*(int(row[name]) for name in SETTINGS), row["split"]) for row in found] == cells
    assert {row["state"] for row in rows} == {"done"} and len({row["program"] for row in rows}) == 1
    drawn = [cell for cell in cells if cell.zones == 1]
    svg = Svg(PICTURES / "study.svg")
    for seats in {cell.seats for cell in drawn}:
        waits = {cell.wait for cell in drawn if cell.seats == seats}
        assert [svg.lines(f"{measure}-{seats}") for measure in MEASURES] == [len(waits)] * 4, seats


def test_studies_that_are_refused(folder):
    """Words and files that are wrong are said in one line."""
    path, playing = folder / "STUDY.toml", f"program={sys.executable}"
    for text, said in (
            ("[city]\n", "no [[grid]]"),
            ("[[grid]]\n", "one of [city] and [files] must stand there"),
            ("[city]\n[files]\n[[grid]]\n", "one of [city] and [files] must stand there"),
            ("[files]\n[[grid]]\n", "[files] has no network and no nodes and no trips"),
            ("[city]\ncars = 3\n[[grid]]\n", "unknown word cars in city"),
            ("[city]\n[[grid]]\nseats = 11\n", "seats = 11 is not a whole number from 1 to 10"),
            ("[city]\n[[grid]]\nwait = [1, \"2\"]\n", "wait = 2 is not a whole number from 0 to 7200"),
            ("[city]\n[[grid]]\ncars = 3\n", "unknown word cars in grid"),
            ("[grids]\n", "unknown table grids"),
            ("[city\n", "not a TOML file"),
            (CITY + "[[grid]]\nzones = 3\nvehicles = 2\n", "2 vehicles are too few for zones=3"),
            (CITY + "[[grid]]\nsplit = \"near\"\n", "split = near is none of nearest, random, zones"),
            (CITY + "[[grid]]\nzones = 2\nfleets = 2\n", "zones = 2 and fleets = 2: name one of the two"),
            (CITY + "[[grid]]\nvehicles = 501\n", "vehicles=501 fleets=1: 501 vehicles in one, and ridepool takes 500")):
        path.write_text(text)
        refuses(said, "study", path, folder / "out", playing)
    refuses("use: study.py", "study", path)
    refuses("No such file", "study", folder / "none.toml", folder / "out", playing)
    refuses("No such file", "study", path, folder / "out", f"program={folder / 'none'}")
    refuses("limit=0 is not", "study", path, folder / "out", "limit=0")
