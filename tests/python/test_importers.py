"""Times of trips: zones, folds, dates with slashes, long files, duplicates; islands of a network."""

import math
from datetime import datetime, timedelta, timezone

import pandas
import pytest
import ridepool as rp
from ridepool.inputs import from_trips
from ridepool.inputs.moments import Moments, american, date_of, zone_of
from ridepool.words import Fault

HEADER = "tpep_pickup_datetime,pickup_longitude,pickup_latitude,dropoff_longitude,dropoff_latitude,passenger_count\n"


def zurich():
    try:
        return zone_of("Europe/Zurich")
    except Fault:
        pytest.skip("there are no time zones here")


@pytest.mark.parametrize("text, expected", [
    ("01/31/2015 07:05:39 PM", datetime(2015, 1, 31, 19, 5, 39)), ("1/2/2015 12:00:00 AM", datetime(2015, 1, 2)),
    ("12/31/2015 12:30 pm", datetime(2015, 12, 31, 12, 30)), ("01/02/2015 23:59:59", datetime(2015, 1, 2, 23, 59, 59)),
    ("01/02/2015", datetime(2015, 1, 2)), ("2015-01-31 07:05:39", None), ("noon", None)])
def test_dates_with_slashes(text, expected):
    assert american(text) == expected


@pytest.mark.parametrize("text", ["31/01/2015 07:05:39", "02/30/2015", "01/02/2015 13:00 PM", "01/02/2015 0:30 AM",
                                  "01/02/2015 24:00"])
def test_what_is_no_such_date(text):
    with pytest.raises(Fault, match="is not MM/DD/YYYY"):
        american(text)


def test_moments_with_a_zone():
    noon = datetime(2015, 1, 31, 12, tzinfo=timezone.utc).timestamp()
    for text in ("2015-01-31T12:00:00Z", "2015-01-31 13:00:00+01:00", "2015-01-31 12:00:00"):
        assert Moments(timezone.utc).second(text) == noon
    assert Moments(zurich()).second("2015-01-31 13:00:00") == noon == Moments(None).second("2015-01-31T12:00:00Z")
    assert Moments(None).second("12.9") == 12 and Moments(None).second("soon") is None and date_of("") is None
    with pytest.raises(Fault, match="says no time zone: name one, as zone=America/New_York or zone=UTC"):
        Moments(None).second("2015-01-31 12:00:00")
    with pytest.raises(Fault, match="zone=Nowhere is no time zone"):
        zone_of("Nowhere")


def test_clocks_that_change():
    """On the last Sunday of October the clock shows the hour from two on twice, on that of March it skips it."""
    moments = Moments(zurich())
    twice, skipped = moments.second("2015-10-25 02:30:00"), moments.second("2015-03-29 02:30:00")
    assert twice == datetime(2015, 10, 25, 0, 30, tzinfo=timezone.utc).timestamp()
    assert skipped == datetime(2015, 3, 29, 1, 30, tzinfo=timezone.utc).timestamp()
    moments.second("2015-10-25 03:00:00")
    assert (moments.twice, moments.skipped) == (1, 1) and len(moments.notes()) == 2


def read(tmp_path, rows, zone=timezone.utc):
    """What is read of rows of a time alone."""
    (tmp_path / "trips.csv").write_text(HEADER + "".join(f"{row},8.5,47.3,8.6,47.4,1\n" for row in rows))
    span = [-math.inf, math.inf]
    return from_trips.read_trips(str(tmp_path / "trips.csv"), from_trips.COLUMNS, True, span, zone)


def test_the_first_row_that_is_wrong_is_named(tmp_path):
    with pytest.raises(Fault, match="trips.csv: row 2: '13/01/2015 08:00' is not MM/DD/YYYY"):
        read(tmp_path, ["01/12/2015 08:00", "13/01/2015 08:00", "14/01/2015 08:00"])
    with pytest.raises(Fault, match="trips.csv: row 1: '2015-01-12 08:00' says no time zone"):
        read(tmp_path, ["2015-01-12 08:00"], None)
    assert [trip.second for trip in read(tmp_path, ["01/12/2015 08:00 PM", "2015-01-12 20:00"]).trips] == [1421092800] * 2


def test_duplicates_are_told(tmp_path):
    found = read(tmp_path, ["10", "11", "10", "10", "12"])
    assert len(found.trips) == 5 and found.notes == ["2 are exact duplicates of another row, and are used like it"]
    assert read(tmp_path, ["10", "11"]).notes == []


def test_more_than_two_days_must_be_asked_for():
    day = int(timedelta(days=1).total_seconds())
    from_trips.check_length("trips.csv", [-math.inf, math.inf], 2 * day)
    from_trips.check_length("trips.csv", [0, 9 * day], 9 * day)
    for span in ([-math.inf, math.inf], [0, math.inf], [-math.inf, 9]):
        with pytest.raises(Fault, match="the trips are of 9.0 days: say which"):
            from_trips.check_length("trips.csv", span, 9 * day)


def test_requests_in_a_zone():
    zurich()
    asked = pandas.DataFrame({"from": [1, 2], "to": [2, 1], "time": ["2015-01-31 08:00:00", "01/31/2015 08:01:00 AM"]})
    requests = rp.Requests.from_frame(asked, every=60, start="2015-01-31T00:00:00+01:00", zone="Europe/Zurich")
    assert requests.seconds.tolist() == [28800, 28860]
    for wrong in ("31/01/2015 08:00", "noon"):
        with pytest.raises(rp.RefusedInput, match="line 2"):
            rp.Requests.from_frame(asked.assign(time=["2015-01-31 08:00:00", wrong]), zone="Europe/Zurich")
    with pytest.raises(rp.RefusedInput, match="line 1"):
        rp.Requests.from_frame(asked)
    with pytest.raises(rp.RefusedInput, match="zone"):
        rp.Requests.from_frame(asked, zone="Nowhere")


def test_islands():
    """Three nodes in a ring, two beside them, and one that a street leads to but none from."""
    arcs = pandas.DataFrame([(1, 2, 9), (2, 3, 9), (3, 1, 9), (7, 8, 9), (8, 7, 9), (3, 5, 9)], columns=["from", "to", "seconds"])
    places = pandas.DataFrame({"node": [1, 2, 3, 5, 7, 8], "x": 0.0, "y": [0.0, 1, 2, 3, 4, 5]})
    net = rp.Network.from_frame(arcs, places)
    assert [island.tolist() for island in net.islands] == [[1, 2, 3], [7, 8], [5]]
    largest = net.largest_island()
    assert largest.names.tolist() == [1, 2, 3] and largest.seconds(1, 3) == 18 and largest.place(2) == net.place(2)
    assert len(rp.Network.made(side=3, seed=1).islands) == 1
