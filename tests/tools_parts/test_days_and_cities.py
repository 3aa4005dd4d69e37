"""Tests of scripts and days that are run again, of made cities, and of how each tool starts."""

import re
import shutil
import subprocess

from tools_parts.shared import CASES, DATA, LINE, TOOLS, TOWN, refuses, works


def test_script_of_reports(folder):
    """A report's commands in their lanes, or all in lane 0 in the report's order; parties where there are any."""
    assert works("script_of", LINE / "two-riders.report") == (LINE / "two-riders.csv").read_text()
    rows = works("script_of", DATA / "every-line.report").splitlines()
    assert rows[:3] == ["round,lane,command,a,b,c,d,e", "0,0,submit,1,2,4,0,2", "0,1,submit,2,3,5,0,1"], rows
    assert rows[7] == "1,0,seal,0,,,," and "2,0,report,3,4,70,," in rows and len(rows) == 1 + 17 - 3, rows
    one_lane = works("script_of", DATA / "every-line.report", "lanes=1").splitlines()
    assert one_lane == [re.sub("^([0-9]+),[0-9]+,", r"\1,0,", row) for row in rows] != rows
    refuses("use: script_of.py", "script_of")
    refuses("lanes=0 is not", "script_of", LINE / "two-riders.report", "lanes=0")


def test_driven_days_run_again(program, folder):
    """The script of a driven day's report: its run prints the same but for the line of the day, and audits confirm it."""
    days = sorted(CASES.glob("day-*/stdout"))
    assert len(days) >= 8, days
    for stdout in days:
        at = folder / stdout.parent.name
        at.mkdir()
        for file in (*(CASES.parent / "street").iterdir(), *stdout.parent.iterdir()):
            shutil.copy(file, at / file.name)
        (at / "again.csv").write_text(works("script_of", stdout))
        given = [word for word in (at / "words").read_text().split() if not word.startswith(("notices=", "script="))]
        again = subprocess.run([program, "run", *given[1:], "script=again.csv"], cwd=at, capture_output=True, text=True)
        expected = re.sub("\nday .*", "", re.sub("\nround [0-9]+\nday ", "\nday ", stdout.read_text()))
        assert (again.returncode, again.stdout) == (0, expected), (at.name, again)
        proved = [word for word in given[1:] if not word.startswith("proof=")] + ["script=again.csv", "proof=1"]
        with open(at / "report", "wb") as report:
            subprocess.run([program, "run", *proved], cwd=at, stdout=report, check=True)
        files = [word for word in proved if word.startswith(("network=", "fleet=", "script=", "workers="))]
        audit = subprocess.run([program, "audit", *files, "report=report"], cwd=at, capture_output=True, text=True)
        assert audit.stdout.startswith("audit ok entries "), (at.name, audit)


def test_a_town_day_by_each_number_of_workers(program):
    """A driven day of six vehicles prints the same bytes for each number of workers, by rows and by labels."""
    inputs = [f"{name}={TOWN / name}.csv" for name in ("network", "fleet", "script")]
    ways = [[f"workers={n}", f"times={times}"] for n in (1, 2, 4, 64) for times in ("rows", "labels")]
    reports = {
        subprocess.run([program, "drive", *inputs, *way], capture_output=True, check=True).stdout for way in ways
    }
    assert len(reports) == 1 and b"\nday picked 74 " in reports.pop()


def test_made_city(folder):
    """The made city has the size of Manhattan, mostly one-way streets, and every node reaches every other."""
    from collections import Counter

    from ridepool.inputs import tables
    from scipy.sparse.csgraph import connected_components
    from ridepool.inputs.streets import Streets

    works("made_city", folder, "requests=3000")
    network, nodes = tables.read_network(folder / "network.csv"), tables.read_nodes(folder / "nodes.csv")
    assert 3500 <= len(nodes) <= 4500 and 8000 <= len(network) <= 10000, (len(nodes), len(network))
    assert max(n.x for n in nodes) == 17 * 215 and max(n.y for n in nodes) == 255 * 80
    arcs = {(start, end) for start, end, _ in network}
    assert sum((end, start) not in arcs for start, end in arcs) > len(arcs) / 2
    streets = Streets(network)
    assert connected_components(streets.graph, connection="strong")[0] == 1 and len(streets.names) == len(nodes)
    with open(folder / "trips.csv") as file:
        trips = [tuple(map(float, row.split(","))) for row in file.read().splitlines()[1:]]
    assert len(trips) == 3000 and trips == sorted(trips, key=lambda trip: trip[0])
    parties = Counter(int(trip[5]) for trip in trips)
    assert set(parties) == {1, 2, 3, 4, 5, 6} and 0.65 < parties[1] / 3000 < 0.75, parties
    thirds = Counter(int(trip[0]) // 1200 for trip in trips)
    assert set(thirds) == {0, 1, 2} and thirds[1] > 1.1 * max(thirds[0], thirds[2]), thirds
    begin = Counter(trip[1:3] for trip in trips)
    busiest = sum(count for _, count in begin.most_common(len(nodes) // 10))
    assert busiest > 0.35 * 3000, busiest


def test_made_cities_by_seed(folder):
    """The same words give the same city; other seeds and sizes others; a party of more than one only where asked."""
    small = ("avenues=5", "streets=20", "requests=50", "seconds=600")
    for name, more in (("a", ()), ("b", ()), ("c", ("seed=2",)), ("d", ("alone=100",))):
        works("made_city", folder / name, *small, *more)
    texts = {name: [(folder / name / file).read_text() for file in ("network.csv", "nodes.csv", "trips.csv")]
             for name in "abcd"}
    assert texts["a"] == texts["b"] and texts["a"][1] == texts["c"][1]
    assert texts["a"][0] != texts["c"][0] and texts["a"][2] != texts["c"][2]
    assert all(row.endswith(",1") for row in texts["d"][2].splitlines()[1:])
    refuses("streets=3 is not a whole number from 4 to 900", "made_city", folder, "streets=3")
    refuses("use: made_city.py", "made_city")


def test_scripts_start_by_themselves(folder):
    """Each tool is a program that says how it is used; a wrong word has status 2."""
    for tool in ("from_sumo", "from_trips", "draw", "made_city", "script_of", "study"):
        done = subprocess.run([TOOLS / f"{tool}.py", "--help"], capture_output=True, text=True)
        assert (done.returncode, done.stderr) == (0, "") and done.stdout.startswith(f"use: {tool}.py"), done
        done = subprocess.run([TOOLS / f"{tool}.py"], capture_output=True, text=True)
        assert (done.returncode, done.stdout) == (2, "") and done.stderr.count("\n") == 1, done
