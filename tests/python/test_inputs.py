"""What is refused of the inputs, each with its place; and the ways in."""

import pathlib

import numpy
import pandas
import pytest
import ridepool as rp

NET = {"from": [1, 2], "to": [2, 1], "seconds": [60, 60]}
FLEET = {"vehicle": [1, 2], "seats": [4, 4], "node": [1, 2], "second": [0, 0]}
ASKED = {"rider": [1, 2], "from": [1, 2], "to": [2, 1], "time": [0, 5], "persons": [1, 2]}
NUMBER = "a whole number from 0 to 1000000000"


def made(kind, **changed):
    """An input of a kind with some columns changed."""
    if kind == "network":
        return rp.Network.from_frame(pandas.DataFrame({**NET, **changed}))
    if kind == "fleet":
        return rp.Fleet.from_frame(pandas.DataFrame({**FLEET, **changed}))
    return rp.Requests.from_frame(pandas.DataFrame({**ASKED, **changed}), every=30)


@pytest.mark.parametrize("kind, column, values, row, expected", [
    ("network", "from", [1, -1], 2, NUMBER),
    ("network", "from", ["1", "x"], 2, NUMBER),
    ("network", "from", ["1", "+2"], 2, NUMBER),
    ("network", "to", [1.5, 2.0], 1, NUMBER),
    ("network", "to", [None, 2], 1, NUMBER),
    ("network", "seconds", [60, 10_001], 2, "a whole number from 0 to 10000"),
    ("fleet", "vehicle", [1, 1], 2, "a number that no earlier row has"),
    ("fleet", "vehicle", [True, False], 1, NUMBER),
    ("fleet", "seats", [0, 4], 1, "a whole number from 1 to 10"),
    ("fleet", "seats", [4, 11], 2, "a whole number from 1 to 10"),
    ("fleet", "second", [0, 1_000_000_001], 2, NUMBER),
    ("requests", "rider", [7, 7], 2, "a number that no earlier row has"),
    ("requests", "persons", [1, 7], 2, "a whole number from 1 to 6"),
    ("requests", "time", [0, -1], 2, NUMBER),
    ("requests", "time", ["8:00", "x"], 2, "seconds, a time of day, or a moment with its time zone"),
    ("requests", "time", ["2020-01-01T08:00:00Z", "2020-01-01T08:00:00"], 2,
     "seconds, a time of day, or a moment with its time zone"),
])
def test_a_value_is_refused_with_its_place(kind, column, values, row, expected):
    with pytest.raises(rp.RefusedInput) as refused:
        made(kind, **{column: values})
    fault = refused.value
    assert (fault.file, fault.line, fault.column, fault.expected) == (kind, row, column, expected)
    assert fault.value is values[row - 1] or fault.value == values[row - 1] or numpy.isnan(fault.value)


def test_what_is_at_its_limit_is_taken():
    made("network", seconds=[0, 10_000])
    made("fleet", seats=[1, 10], second=[0, 1_000_000_000])
    made("requests", persons=[1, 6])


@pytest.mark.parametrize("kind, column", [("fleet", "node"), ("requests", "from"), ("requests", "to")])
def test_an_unknown_node_is_refused(kind, column):
    table = made(kind, **{column: [1, 9]})
    with pytest.raises(rp.RefusedInput) as refused:
        table.csv(made("network")) if kind == "fleet" else table.script(made("network"))
    assert (refused.value.line, refused.value.column, refused.value.value) == (2, column, 9)


def test_the_line_of_a_file_counts_blank_lines(tmp_path):
    path = tmp_path / "network.csv"
    path.write_text("from,to,seconds\n1,2,60\n\n\n2,1,abc\n")
    with pytest.raises(rp.RefusedInput) as refused:
        rp.Network.from_csv(path)
    fault = refused.value
    assert (fault.file, fault.line, fault.column, fault.value) == (str(path), 5, "seconds", "abc")


@pytest.mark.parametrize("text", ["from,to\n1,2\n", "", "to,from,seconds\n1,2,3\n"])
def test_another_header_is_refused(tmp_path, text):
    path = tmp_path / "network.csv"
    path.write_text(text)
    with pytest.raises(rp.RefusedInput):
        rp.Network.from_csv(path)


@pytest.mark.parametrize("text, line, column, value", [
    ("round,lane,command,a,b,c,d\n0,0,submit,1,2,4,0\n\n0,0,jump,0,,,\n", 4, "command", "jump"),
    ("round,lane,command,a,b,c,d\n0,0,submit,1,x,4,0\n", 2, "b", "x"),
    ("round,lane,command,a,b,c,d\n0,16,submit,1,2,4,0\n", 2, "lane", "16"),
    ("round,lane,command,a,b,c,d\n1,0,seal,0,,,\n0,0,seal,0,,,\n", 3, "round", "0"),
    ("round,lane,command,a,b,c,d,e\n0,0,submit,1,2,4,0,7\n", 2, "e", "7"),
    ("round,lane,command,a,b,c,d\n0,1,seal,0,,,\n", 2, "lane", "1"),
    ("round,lane,command,a,b,c,d\n0,0,seal,0\n", 2, None, "0,0,seal,0"),
])
def test_the_programs_refusals_are_read(line, text, column, value):
    street = rp.Network.from_frame(pandas.DataFrame(NET))
    with pytest.raises(rp.RefusedInput) as refused:
        rp.run(street, made("fleet"), text)
    fault = refused.value
    assert (fault.file, fault.line, fault.column, fault.value) == ("script", line, column, value)
    assert fault.expected


@pytest.mark.parametrize("name, value", [
    ("wait", 7201), ("delay", -1), ("trip", 0), ("trip", 7), ("penalty", 1.5), ("budget", 0), ("workers", 65), ("dwell", 601),
    ("pairs", True), ("times", "columns")])
def test_a_setting_is_refused(name, value):
    with pytest.raises(rp.RefusedInput) as refused:
        rp.Settings(**{name: value})
    assert (refused.value.column, refused.value.value) == (name, value)


def test_moments_count_from_midnight():
    moments = pandas.to_datetime(["2015-01-15T08:00:00", "2015-01-15T08:00:40"]).tz_localize("Europe/Zurich")
    requests = made("requests", time=moments)
    assert requests.seconds.tolist() == [8 * 3600, 8 * 3600 + 40]
    assert str(requests.zero) == "2015-01-15 00:00:00+01:00"


def test_the_day_on_which_clocks_change_has_no_gap():
    moments = pandas.to_datetime(["2015-03-29T00:30:00Z", "2015-03-29T01:30:00Z"]).tz_convert("Europe/Zurich")
    assert made("requests", time=moments).seconds.tolist() == [5400, 9000]


def test_times_without_a_zone_are_refused():
    with pytest.raises(rp.RefusedInput):
        made("requests", time=pandas.to_datetime(["2015-01-15T08:00:00", "2015-01-15T08:00:40"]))


def test_times_of_day():
    assert made("requests", time=["8:05", "08:05:30"]).seconds.tolist() == [29_100, 29_130]


def test_the_script_has_each_rider_before_the_seal():
    requests = made("requests", time=[29, 30])
    assert requests.script() == ("round,lane,command,a,b,c,d,e\n0,0,submit,1,1,2,29,1\n1,0,seal,30,,,,\n"
                                 "2,0,submit,2,2,1,30,2\n3,0,seal,60,,,,\n")


def test_two_hundred_thousand_rows_and_no_more():
    count = 100_000
    frame = pandas.DataFrame({"from": 1, "to": 2, "time": numpy.arange(count)})
    requests = rp.Requests.from_frame(frame, every=1, until=count)
    assert requests.script(made("network")).count("\n") == 2 * count + 1
    with pytest.raises(rp.RefusedInput):
        rp.Requests.from_frame(frame, every=1, until=count + 1)


def test_places_go_to_the_nearest_node(town):
    net = town[0]
    place = net.nodes.iloc[7]
    assert net.nearest(place.lat, place.lon) == net.names[7]
    fleet = rp.Fleet.from_frame(pandas.DataFrame({"vehicle": [1], "seats": [4], "lat": [place.lat], "lon": [place.lon]}))
    assert fleet.nodes(net).tolist() == [net.names[7]]
    far = rp.Fleet.from_frame(pandas.DataFrame({"vehicle": [1], "seats": [4], "lat": [place.lat + 1], "lon": [place.lon]}))
    with pytest.raises(rp.RefusedInput) as refused:
        far.nodes(net)
    assert refused.value.line == 1


def test_travel_times_are_exact(town):
    net = town[0]
    plain = [net._plain_search(at) for at in range(0, len(net), 9)]
    assert all((net.seconds_from(int(net.names[at])) == found).all() for at, found in zip(range(0, len(net), 9), plain))
    least = {}
    for start, end, seconds in zip(net.starts, net.ends, net.durations):
        least[start, end] = min(seconds, least.get((start, end), seconds))
    way = net.route(1, 50)
    assert sum(least[pair] for pair in zip(way, way[1:])) == net.seconds(1, 50)


def test_a_network_that_is_cut_has_no_way():
    net = rp.Network.from_frame(pandas.DataFrame({"from": [1, 3], "to": [2, 4], "seconds": [0, 5]}))
    assert net.seconds(1, 2) == 0 and net.seconds(2, 1) is None and net.seconds(1, 4) is None
    assert net.route(1, 4) == [] and net.route(2, 2) == [2]
    with pytest.raises(rp.RefusedInput):
        net.seconds(1, 9)


class Graph:
    """A graph as networkx gives it, as far as it is asked."""

    def edges(self, data):
        return [(1, 2, 60), (2, 1, 70)]

    def nodes(self, data):
        return [(1, {"lat": 47.0, "lon": 8.0}), (2, {"lat": 47.001, "lon": 8.0})]


def test_from_networkx():
    net = rp.Network.from_networkx(Graph())
    assert net.seconds(2, 1) == 70 and net.nearest(47.0009, 8.0) == 2


def test_from_osm_xml(town):
    pytest.importorskip("sumolib", reason="there is no sumolib")
    import shutil

    if shutil.which("netconvert") is None:
        pytest.skip("there is no netconvert")
    osm = pathlib.Path(__file__).parent.parent.parent / "examples" / "town" / "town.osm"
    net = rp.Network.from_osm_xml(osm)
    assert net.csv() == town[0].csv() and net.has_degrees


def test_a_map_that_is_none_is_refused(tmp_path):
    import shutil

    if shutil.which("netconvert") is None:
        pytest.skip("there is no netconvert")
    (tmp_path / "town.osm").write_text("nothing")
    with pytest.raises(rp.RefusedInput):
        rp.Network.from_osm_xml(tmp_path / "town.osm")
