"""Tests of what makes a day's files: maps become networks, trips become scripts and fleets."""

import re

from tools_parts.shared import DATA, EXPECTED, refuses, same, works


def test_crossings_of_a_small_map(folder):
    """One-way street, bus street, dead end and island: network.csv and nodes.csv as expected."""
    out = works("from_sumo", DATA / "small.net.xml", folder)
    same(folder / "network.csv", "small-network.csv")
    same(folder / "nodes.csv", "small-nodes.csv")
    assert "17 streets\n  left out: 3 that cars may not use\n  left out: 3 streets and 3 crossings " in out, out
    assert "11 arcs of 7 to 10 seconds" in out and "7 nodes, with longitude and latitude" in out, out


def test_turns_of_a_small_map(folder):
    """With edges=1 a turn that the map forbids is no arc, and crossings take their time."""
    out = works("from_sumo", DATA / "small.net.xml", folder, "edges=1")
    same(folder / "network.csv", "turns-network.csv")
    same(folder / "nodes.csv", "turns-nodes.csv")
    assert "left out: 4 turns and 3 streets " in out, out


def test_map_without_degrees(folder):
    """A map without a projection has nodes without longitude and latitude."""
    plain = (DATA / "small.net.xml").read_text()
    (folder / "plain.net.xml").write_text(re.sub('projParameter="[^"]*"', 'projParameter="!"', plain))
    assert "without longitude" in works("from_sumo", folder / "plain.net.xml", folder / "out")
    assert (folder / "out" / "nodes.csv").read_text().splitlines()[1] == "1,0.00,100.00,,,A"


def test_maps_that_are_refused(folder):
    """No streets for cars, no map at all, more than the program takes."""
    text = (DATA / "small.net.xml").read_text()
    buses, slow, noise = folder / "buses.net.xml", folder / "slow.net.xml", folder / "noise.net.xml"
    buses.write_text(re.sub('(dis)?allow="pedestrian"', 'allow="bus"', text).replace(
        'index="0" speed', 'index="0" allow="bus" speed'))
    slow.write_text(text.replace('speed="10.00"', 'speed="0.0099"'))
    noise.write_text("<html></html>")
    refuses("none of the 17 streets may be used by cars", "from_sumo", buses, folder / "out")
    refuses("street AD takes 10102 seconds, and ridepool takes 10000", "from_sumo", slow, folder / "out")
    refuses("not a network of SUMO", "from_sumo", noise, folder / "out")
    refuses("not a network of SUMO", "from_sumo", DATA / "trips.csv", folder / "out")
    refuses("No such file", "from_sumo", folder / "none.net.xml", folder / "out")
    refuses("edges=2 is not a whole number from 0 to 1", "from_sumo", DATA / "small.net.xml", folder, "edges=2")
    assert not (folder / "out").exists()


def test_limits_of_maps_and_scripts(folder):
    """What the program doesn't take is refused with the figure."""
    from ridepool import words
    from ridepool.inputs import from_sumo, from_trips

    arc = from_sumo.Arc("A", "B", 10_000, "AB")
    from_sumo.check_limits("map", 100_000, 400_000, arc)
    from_trips.check_limits("trips", 100_000, 200_000, 1_000_000_000)
    for check, figures, text in (
            (from_sumo.check_limits, (100_001, 1, arc), "100001 nodes"),
            (from_sumo.check_limits, (1, 400_001, arc), "400001 arcs"),
            (from_trips.check_limits, (100_001, 1, 1), "100001 trips"),
            (from_trips.check_limits, (1, 200_001, 1), "200001 rows"),
            (from_trips.check_limits, (1, 1, 1_000_000_001), "second 1000000001")):
        try:
            check("file", *figures)
            raise AssertionError(text)
        except words.Fault as fault:
            assert str(fault).startswith("file: ") and text in str(fault), fault


SPAN = ("from=2015-01-15T08:00:00", "to=2015-01-15 08:04", "zone=UTC")


def test_ten_trips(folder):
    """Ten trips become the expected script; each unusable one is counted by its reason."""
    nodes = EXPECTED / "small-nodes.csv"
    out = works("from_trips", DATA / "trips.csv", nodes, folder, "vehicles=3", "seed=5", *SPAN)
    same(folder / "script.csv", "script.csv")
    same(folder / "fleet.csv", "fleet.csv")
    for line in ("19 trips, 10 used", "left out: 1 of more than 6 persons", "left out: 2 outside the span",
                 "left out: 1 that begin and end at one node", "left out: 1 too far from a street",
                 "left out: 1 without a number of persons", "left out: 1 without a time",
                 "left out: 2 without coordinates", "note: 2 of those used have more persons than the 4 seats"):
        assert line in out, (line, out)


def test_fleet_by_seed(folder):
    """The same seed draws the same fleet, another seed another one."""
    nodes = EXPECTED / "small-nodes.csv"
    for name, seed in (("a", 1), ("b", 1), ("c", 2)):
        works("from_trips", DATA / "trips.csv", nodes, folder / name, "vehicles=20", f"seed={seed}", *SPAN)
    fleets = [(folder / name / "fleet.csv").read_text() for name in "abc"]
    assert fleets[0] == fleets[1] != fleets[2]


def test_trips_with_other_columns(folder):
    """Columns named by words, seconds as numbers, x and y, no column of persons, no span."""
    (folder / "nodes.csv").write_text("node,x,y,lon,lat,name\n4,0,0,,,\n9,100,0,,,\n")
    (folder / "trips.csv").write_text("when,x,y,to x,to y\n1000.9,1,1,99,1\n1075,99,0,0,0\n")
    works("from_trips", folder / "trips.csv", folder / "nodes.csv", folder / "out", "time=when", "from_lon=x",
          "from_lat=y", "to_lon=to x", "to_lat=to y", "persons=", "every=30")
    rows = (folder / "out" / "script.csv").read_text().splitlines()[1:]
    assert rows == ["0,0,submit,1,4,9,0,1", "1,0,seal,30,,,,", "3,0,seal,60,,,,",
                    "4,0,submit,2,9,4,75,1", "5,0,seal,90,,,,"], rows


def test_trips_that_are_refused(folder):
    """A missing column, words out of range, nothing that can be used, files of another kind."""
    trips, nodes = DATA / "trips.csv", EXPECTED / "small-nodes.csv"
    refuses("no column rides (persons=NAME", "from_trips", trips, nodes, folder, "persons=rides")
    refuses("no column tpep_pickup_datetime", "from_trips", nodes, nodes, folder)
    refuses("vehicles=501 is not a whole number from 1 to 500",
            "from_trips", trips, nodes, folder, "vehicles=501")
    refuses("seats=0 is not", "from_trips", trips, nodes, folder, "seats=0")
    refuses("from=soon is neither a date", "from_trips", trips, nodes, folder, "from=soon")
    refuses("from= is not before to=", "from_trips", trips, nodes, folder, "from=10", "to=10")
    refuses("none of the 19 trips can be used", "from_trips", trips, nodes, folder, "from=10", "to=20", "zone=UTC")
    refuses("the first row is not node,x,y,lon,lat,name", "from_trips", trips, trips, folder)
    refuses("unknown word cars=3", "from_trips", trips, nodes, folder, "cars=3")
    refuses("use: from_trips.py", "from_trips", trips, nodes)
    refuses("No such file", "from_trips", folder / "none.csv", nodes, folder)
