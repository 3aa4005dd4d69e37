"""Tests of reports, of the pictures of them, and of the town in examples/."""

import os
import re
import shutil
import subprocess

import pytest
from tools_parts.shared import (
    DATA,
    EXPECTED,
    LINE,
    PICTURES,
    TOWN,
    Svg,
    drawn,
    made_report,
    refuses,
    rows_without_overlap,
    works,
)


def test_every_line_of_a_report(folder):
    """The reader of reports takes every line that ridepool prints."""
    from ridepool.report.reader import Move, Request, Stop, read_report

    report = read_report(DATA / "every-line.report")
    assert report.settings["dwell"] == 10 and (report.nodes, report.arcs, report.vehicles) == (5, 8, 3)
    assert report.requests() == {1: Request(1, 2, 4, 0, 2), 2: Request(2, 3, 5, 0, 1),
                                 3: Request(3, 1, 5, 0, 1), 4: Request(4, 5, 1, 0, 1)}
    assert report.entries[2].reply == "refused duplicate-rider" and len(report.entries) == 17
    first, second, third = report.batches
    assert first.counts == {"rv": 2, "rr": 1, "row": 5, "branch": 1, "leaf": 1, "dead": 1}
    assert first.trips[0].stops[1] == Stop("pick", 2, 3, 130) and first.moves == [Move(2, 3, 60)]
    assert (first.second, first.out, first.cost, first.bound, first.nodes) == (0, [3, 4], 20190, -5, 3)
    assert (second.second, second.expired, second.lapsed) == (130, [3], [2])
    assert [trip.delay for trip in second.late] == [75, None] and len(second.plans()) == 2
    assert third.overflow and third.cost is None
    assert report.day == {"picked": 1, "dropped": 1, "worst-wait": 60, "worst-delay": 155}


def test_reports_that_are_refused(folder):
    """A cut report, a summary of load, another file, a line that is none, a batch that isn't there."""
    text = (LINE / "two-riders.report").read_text()
    cut, bad, load, end = (folder / name for name in ("cut", "bad", "load", "end"))
    picture = folder / "picture.svg"
    for length in (len(text) - 1, len(text) - 8, len(text) // 2, 90):
        cut.write_text(text[:length])
        refuses("the report is cut: its last line is not `done N`", "draw", cut, "day", picture)
    load.write_text("load seed=1 side=2 vehicles=1 riders=1 rounds=1\nbatch 1 overflow\ndone 3\n")
    refuses("a summary of `load`", "draw", load, "service", picture)
    bad.write_text(text.replace("pick:2@3:120", "pick:2@3"))
    refuses("line 18 is not one of a report", "draw", bad, "day", picture)
    end.write_text(text.replace("done 4", "done 5"))
    refuses("line 23 is not one of a report", "draw", end, "day", picture)
    refuses("not a report of ridepool", "draw", DATA / "trips.csv", "day", picture)
    refuses("not a report of ridepool", "draw", os.devnull, "day", picture)
    assert not picture.exists()


def test_words_of_draw_that_are_refused(folder):
    """A picture that nobody can name, nodes that are missing, a network of another report."""
    report, network = LINE / "two-riders.report", f"network={LINE / 'network.csv'}"
    nodes, picture = f"nodes={LINE / 'nodes.csv'}", folder / "picture.svg"
    refuses("use: draw.py", "draw", report, picture)
    refuses("use: draw.py", "draw", report, "day", "batch=1", picture)
    refuses("ends in .svg or .png or .pdf", "draw", report, "day", folder / "picture.gif")
    refuses("no batch 2: the report has 1 to 1", "draw", report, "batch=2", nodes, network, picture)
    refuses("needs nodes=nodes.csv, or made=1", "draw", report, "batch=1", network, picture)
    refuses("needs network=network.csv", "draw", report, "batch=1", nodes, picture)
    refuses("5 nodes are not a made network's square", "draw", report, "batch=1", "made=1", network, picture)
    refuses("7 nodes and 11 arcs, and the report's network has 5 and 8", "draw", report, "service",
            f"network={EXPECTED / 'small-network.csv'}", picture)
    refuses("batch 3 has no plan", "draw", DATA / "every-line.report", "batch=3", nodes, network, picture)
    assert not picture.exists()


def test_day_of_two_riders(folder):
    """The example's plan: two pickups, two drop-offs, one seal, three bars."""
    svg = drawn(folder, LINE / "two-riders.report", "day")
    assert svg.size() == (10.0, 2.5), svg.size()
    svg.has("Planned day (no stop was entered): 1 vehicle, 2 pickups, 2 drop-offs", "second", "vehicle", "1",
            "pickup, planned", "drop-off, planned", "aboard, planned (thickest: 2 persons)", "seal")
    assert (svg.marks("pickups-planned"), svg.marks("dropoffs-planned"), svg.lines("seals")) == (2, 2, 1)
    assert svg.marks("pickups") == 0 and rows_without_overlap(svg) == 1


def test_service_of_two_riders(folder):
    """The example's service, without and with its network."""
    report = LINE / "two-riders.report"
    svg = drawn(folder, report, "service")
    svg.has("Service: 1 batch, 2 requests, 1 vehicle", "served", "left out", "mean", "worst", "limit 120",
            "limit 180", "cost", "bound", "batch", "no gap: cost and bound meet",
            "the worst delay is not in a report: name network=network.csv")
    assert svg.size() == (9.0, 9.5) and svg.marks("mean-wait") == 1 and svg.marks("worst-delay") == 0
    svg = drawn(folder, report, "service", f"network={LINE / 'network.csv'}")
    assert svg.marks("worst-delay") == svg.marks("cost") == svg.marks("bound") == 1


def test_delays_of_two_riders(folder):
    """Waits of 60 and 120 seconds, delays of 60 and 120 seconds."""
    from ridepool.draw import ground, service
    from ridepool.report.reader import read_report

    report = read_report(LINE / "two-riders.report")
    streets = ground.streets_of(report, {"network": str(LINE / "network.csv")})
    found = service.service_of(report.batches[0], report.requests(), service.direct_times(report, streets))
    assert (found.waits, found.mean_delay, found.worst_delay) == ((60, 120), 90.0, 120.0), found
    assert (found.served, found.out, found.cost, found.bound, found.rows) == (2, 0, 180, 180, 4), found


def test_delays_of_a_day(folder):
    """On the town's day each trip's printed delay is the sum of its riders' delays over the network."""
    from ridepool.draw import ground, service
    from ridepool.report.reader import read_report

    report = read_report(TOWN / "day.report")
    streets = ground.streets_of(report, {"network": str(TOWN / "network.csv")})
    requests, direct = report.requests(), service.direct_times(report, streets)
    for batch in report.batches:
        for trip in batch.plans():
            drops = [stop for stop in trip.stops if stop.kind == "drop"]
            delays = [service.delay_of(stop, requests, direct) for stop in drops]
            assert sum(delays) == trip.delay, (batch.number, trip, delays)


def test_map_of_two_riders(folder):
    """The example's map: four streets, one trip over all corners, four stops with their numbers."""
    words_of_map = ("batch=1", f"nodes={LINE / 'nodes.csv'}", f"network={LINE / 'network.csv'}")
    svg = drawn(folder, LINE / "two-riders.report", *words_of_map, f"fleet={LINE / 'fleet.csv'}")
    svg.has("Batch 1 at second 0: 1 trip, 0 riders left out, 0 moves", "vehicle 1: 4 stops, delay 180 s",
            "vehicle at this seal", "1", "2", "3", "4", "5")
    marks = svg.lines("streets"), svg.marks("pickups"), svg.marks("dropoffs"), svg.marks("vehicles")
    assert marks == (4, 2, 2, 1), marks
    assert len(svg.group("way-1")) == 1
    svg = drawn(folder, LINE / "two-riders.report", *words_of_map)
    assert svg.marks("vehicles") == 0 and "name fleet=fleet.csv for these" in svg.texts(), svg.texts()


def test_scale_numbers_and_ground_of_a_map(folder):
    """A bar of half a kilometre, the vehicle's number at each stop, and on a dark ground no black and no white but on marks."""
    from ridepool.draw import batch_map, style

    assert [batch_map.bar_metres(metres) for metres in (9.9, 10, 49, 50, 1234)] == [5, 10, 20, 50, 1000]
    words_of_map = ("batch=1", f"nodes={LINE / 'nodes.csv'}", f"network={LINE / 'network.csv'}")
    svg = drawn(folder, LINE / "two-riders.report", *words_of_map)
    assert svg.lines("scale") == 1 and "500 m" in svg.texts() and len(svg.group("stop-of-1")) == 4
    assert style.darker("#000000") == [(*style.to_rgb("#f2f2f2"), 1.0)] and style.darker(style.ORANGE)[0][:3] == style.to_rgb(style.ORANGE)
    plain, dark = svg.bytes.decode(), drawn(folder, LINE / "two-riders.report", *words_of_map, "dark=1").bytes.decode()
    assert style.GROUND in dark and style.GROUND not in plain
    assert style.PALE in plain and style.PALE not in dark and style.ON_DARK[style.PALE] in dark


def test_ways_of_a_map(folder):
    """A trip's line follows shortest ways, over one-way streets and streets of no time, too."""
    from ridepool.inputs.streets import Streets

    streets = Streets([(1, 2, 0), (2, 3, 5), (2, 3, 9), (3, 1, 0), (1, 3, 6), (4, 1, 1)])
    assert streets.way(1, 3) == [1, 2, 3] and streets.way(3, 2) == [3, 1, 2] and streets.way(1, 1) == [1]
    assert streets.way(1, 4) == []
    assert streets.times({(1, 3), (3, 2), (4, 3)}) == {(1, 3): 5.0, (3, 2): 0.0, (4, 3): 6.0}


def test_pictures_of_a_made_day(folder):
    """Ten vehicles: as many marks as the report has stops, all vehicles named, the map's trips and crosses."""
    report, network = made_report(folder, 10)
    text = report.read_text()
    picked, dropped, seals = (len(re.findall(word, text)) for word in (" picked\n", " dropped\n", " sealed "))
    svg = drawn(folder, report, "day")
    assert picked == dropped > 10 and seals == 20
    svg.has(f"Day: 10 vehicles, {picked} pickups, {dropped} drop-offs", *map(str, range(1, 11)))
    assert (svg.marks("pickups"), svg.marks("dropoffs"), svg.lines("seals")) == (picked, dropped, seals)
    assert svg.marks("pickups-planned") == 0 and rows_without_overlap(svg) == 10
    svg = drawn(folder, report, "service", f"network={network}")
    assert svg.marks("mean-wait") == svg.marks("worst-delay") == svg.marks("cost") == 20
    svg = drawn(folder, report, "batch=12", "made=1", f"network={network}")
    block = text.split("\nbatch 12\n")[1].split("\nend\n")[0]
    stops = [len(re.findall(f" {kind}:", block)) for kind in ("pick", "drop")]
    outs, moves = (len(re.findall(f"^{word} ", block, re.M)) for word in ("out", "move"))
    assert [svg.marks("pickups"), svg.marks("dropoffs")] == stops and svg.marks("left-out") == outs
    assert svg.lines("moves") == moves > 0
    assert svg.lines("streets") == 2 * 20 * 19 and svg.marks("vehicles") == 10


def test_pictures_of_500_vehicles(folder):
    """Only the busiest vehicles are named, and no names overlap."""
    report, network = made_report(folder, 500, batches=6)
    svg = drawn(folder, report, "day")
    assert svg.size()[0] == 10.0 and svg.size()[1] <= 16.0
    svg.has("vehicle (the busiest are named)")
    assert 5 <= rows_without_overlap(svg) <= 20
    svg = drawn(folder, report, "batch=6", "made=1", f"network={network}")
    assert sum(1 for text in svg.texts() if text.startswith("vehicle ") and "stops" in text) == 12
    assert any(re.fullmatch("[0-9]+ other trips: wider for more", text) for text in svg.texts())
    assert drawn(folder, report, "service").marks("cost") == 6


def test_town_trips(folder):
    """The worked example: its trips become the day's files."""
    works("from_trips", TOWN / "trips.csv", TOWN / "nodes.csv", folder, "vehicles=10",
          "from=2015-01-15T08:00:00", "to=2015-01-15T08:30:00", "zone=UTC")
    for name in ("fleet.csv", "script.csv"):
        assert (folder / name).read_text() == (TOWN / name).read_text(), name


def test_town_map(folder):
    """The worked example: its map becomes a network where netconvert is there."""
    if shutil.which("netconvert") is None:
        pytest.skip("there is no netconvert")
    home = {"SUMO_HOME": "/usr/share/sumo", **os.environ}
    net = folder / "town.net.xml"
    subprocess.run(["netconvert", "--osm-files", TOWN / "town.osm", "--output-file", net],
                   env=home, check=True, capture_output=True)
    out = works("from_sumo", net, folder / "out")
    assert "that cars may not use" in out and "nodes, with longitude and latitude" in out, out


def test_pictures_in_the_documents(folder):
    """The pictures in docs/pictures are of the town's day: as many marks as its report has stops."""
    report = (TOWN / "day.report").read_text()
    day, service, batch = (Svg(PICTURES / f"{name}.svg") for name in ("day", "service", "batch"))
    assert day.marks("pickups") == report.count(" picked\n") > 0
    assert day.marks("dropoffs") == report.count(" dropped\n") > 0
    assert day.lines("seals") == service.marks("cost") == report.count(" sealed ") == 30
    block = report.split("\nbatch 3\n")[1].split("\nend\n")[0]
    assert batch.marks("pickups") == block.count(" pick:") and batch.marks("dropoffs") == block.count(" drop:")
    assert batch.marks("left-out") == block.count("\nout ") and batch.lines("moves") == block.count("\nmove ")


def test_cancelled_and_entered_stops(folder):
    """After entered stops, what the last plan still holds is drawn hollow, without riders who cancelled."""
    text = (LINE / "two-riders.report").read_text().replace("done 4", "4 0 pickup 1 1 60 picked\ndone 5")
    (folder / "one.report").write_text(text)
    svg = drawn(folder, folder / "one.report", "day")
    assert (svg.marks("pickups"), svg.marks("pickups-planned"), svg.marks("dropoffs-planned")) == (1, 1, 2)
    (folder / "two.report").write_text(text.replace("done 5", "5 0 cancel 2 cancelled\ndone 6"))
    svg = drawn(folder, folder / "two.report", "day")
    assert (svg.marks("pickups"), svg.marks("pickups-planned"), svg.marks("dropoffs-planned")) == (1, 0, 1)


def test_pictures_are_the_same_again(folder):
    """The same report gives the same bytes; a PNG and a PDF are made, too."""
    report, network = made_report(folder, 10, batches=3)
    for picture in ("day", "service"):
        first, again = (drawn(folder, report, picture, name=f"{picture}{k}.svg").bytes for k in (1, 2))
        assert first == again
    for ending, magic in (("png", b"\x89PNG"), ("pdf", b"%PDF")):
        works("draw", report, "day", folder / f"picture.{ending}")
        assert (folder / f"picture.{ending}").read_bytes().startswith(magic)
