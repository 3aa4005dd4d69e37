"""Tests of what a shift needs: search, totals, tables, breaks, notices."""

import csv
import hashlib
import hmac
import http.server
import io
import json
import pathlib
import tempfile
import threading

from desk_parts.events import Events
from desk_parts.shared import LINE, LONG, TOWN, inputs, until


def test_rides_vehicles_and_places_are_found(desk):
    with desk(*inputs(LINE), *LONG) as it:
        it.gives("POST", "/rides", {"from": 2, "to": 4, "who": "Ada Lovelace", "phone": "+43 1 234"})
        it.gives("POST", "/rides", {"from": 3, "to": 4, "note": "with ada"})
        found = it.gives("GET", "/search?q=ADA")
        assert [ride["ride"] for ride in found["rides"]] == [2, 1] and found["rides"][1]["who"] == "Ada Lovelace", found
        assert it.gives("GET", "/search?q=1%20234")["rides"][0]["ride"] == 1
        found = it.gives("GET", "/search?q=1")
        assert (found["rides"][0]["ride"], found["vehicles"]) == (1, [1]) and found["places"][0]["node"] == 1, found
        found = it.gives("GET", "/search?q=corner")
        assert [place["node"] for place in found["places"]] == [1, 2, 3, 4, 5] and found["rides"] == [], found
        assert it.gives("GET", "/search?q=nothing") == {"rides": [], "vehicles": [], "places": []}
        assert it.call("GET", "/search?q=")[0] == it.call("GET", "/search")[0] == 422


def test_totals_say_what_a_day_came_to(desk):
    from ridepool.desk.totals import Trip, quantile, taken_by, totals_of

    assert [quantile(list(range(1, 101)), share) for share in (50, 99, 100)] == [50, 99, 100]
    assert quantile([7], 50) == 7 and quantile([], 50) is None
    assert taken_by([(0, 10), (5, 20), (30, 40)]) == (30, 2)
    assert taken_by([(0, 10), (10, 20)]) == (20, 0)
    assert taken_by([(0, 30), (5, 10), (12, 20)]) == (30, 3)
    found = totals_of([Trip(1, 0, 60, 180), Trip(1, 0, 120, 240), Trip(1, 0, 300, 360), Trip(2, 30, 40, 50)])
    assert found == {"waits": {"50": 60, "90": 300, "95": 300, "99": 300, "100": 300}, "mean_wait": 122, "shared": 2,
                     "vehicles_used": 2, "seconds_with_riders": 250, "seconds_without_riders": 60}, found
    with desk(*inputs(LINE), *LONG) as it:
        assert it.gives("GET", "/totals")["mean_wait"] is None
        it.gives("POST", "/rides", {"from": 2, "to": 4, "time": 0, "who": "Ada"})
        it.gives("POST", "/rides", {"from": 3, "to": 5, "time": 0})
        it.gives("DELETE", "/rides/2")
        pickup = it.plan()["second"] + 60
        it.gives("POST", "/vehicles/1/pickup", {"ride": 1, "second": pickup})
        it.gives("POST", "/vehicles/1/dropoff", {"ride": 1, "second": pickup + 120})
        found = it.gives("GET", "/totals")
        assert (found["delivered"], found["cancelled"], found["expired"], found["plans"]) == (1, 1, 0, 1), found
        assert (found["mean_wait"], found["seconds_with_riders"], found["shared"]) == (pickup, 120, 0), found
        status, text = it.call("GET", "/rides.csv")
        rows = list(csv.DictReader(io.StringIO(text.decode())))
        assert [(row["ride"], row["state"], row["wait"]) for row in rows] == [("1", "delivered", str(pickup)), ("2", "cancelled", "")]
        assert b"Ada" not in text, text
        rows = list(csv.DictReader(io.StringIO(it.call("GET", "/batches.csv")[1].decode())))
        assert [(row["batch"], row["served"], row["left_out"], row["gap"]) for row in rows] == [("1", "1", "0", "0")], rows


def test_a_vehicle_out_of_service_is_used_by_no_plan(desk, folder):
    with desk(*inputs(TOWN), *LONG, "trip=1", folder=folder) as it:
        for number in range(8):
            it.gives("POST", "/rides", {"from": 1 + number, "to": 40, "time": 0})
        it.plan()
        first = it.gives("GET", "/rides/1")["vehicle"]
        for vehicle in range(1, 11):
            if vehicle not in (first, 1 + first % 10):
                assert it.gives("POST", f"/vehicles/{vehicle}/break")["out"] is True
        moved = it.gives("POST", f"/vehicles/{first}/break")["moved"]
        assert 1 in moved, moved
        it.plan()
        used = {ride["vehicle"] for ride in it.gives("GET", "/rides?state=promised")}
        assert used <= {1 + first % 10}, used
        assert [v["vehicle"] for v in it.gives("GET", "/vehicles") if not v["out"]] == [1 + first % 10]
        ended = it.gives("DELETE", f"/vehicles/{first}/break")
        assert ended["out"] is False and ended["from"] > it.second(), ended
    with desk(folder=folder) as it:
        assert [v["vehicle"] for v in it.gives("GET", "/vehicles") if not v["out"]] == sorted([first, 1 + first % 10])
        assert it.second() < 7200, "what is told of vehicles out of service moved the clock"
    with desk(*inputs(LINE), *LONG) as it:
        it.gives("POST", "/rides", {"from": 2, "to": 4, "time": 0})
        second = it.plan()["second"] + 60
        it.gives("POST", "/vehicles/1/pickup", {"ride": 1, "second": second})
        it.refuses(409, "has-passengers", "POST", "/vehicles/1/break")


class Receiver(http.server.BaseHTTPRequestHandler):
    """Takes notices: refuses the first two, and keeps all."""

    def do_POST(self):
        body = self.rfile.read(int(self.headers["content-length"]))
        self.server.got.append((self.path, dict(self.headers), body))
        self.send_response(503 if len(self.server.got) <= 2 else 302 if len(self.server.got) == 4 else 204)
        self.send_header("location", "/elsewhere")
        self.end_headers()

    def log_message(self, *_):
        pass


def test_notices_come_as_an_event_and_to_the_one_address(desk, fails):
    with tempfile.TemporaryDirectory() as place, http.server.HTTPServer(("127.0.0.1", 0), Receiver) as receiver:
        receiver.got = []
        threading.Thread(target=receiver.serve_forever, daemon=True).start()
        secret = pathlib.Path(place) / "secret"
        secret.write_text("0123456789abcdef\n")
        hook = f"hook=http://127.0.0.1:{receiver.server_address[1]}/notices?desk=1"
        with desk(*inputs(LINE), *LONG, hook, f"secret={secret}") as it:
            events = Events(it)
            events.next("state")
            it.gives("POST", "/rides", {"from": 2, "to": 4, "time": 0, "who": "Ada"})
            it.gives("POST", "/rides", {"from": 5, "to": 1, "persons": 5, "time": 0})
            second = it.plan()["second"]
            told = events.next("notices", ("clock", "status", "places", "trouble", "reply", "plan"))
            assert told == {"batch": 1, "second": second, "notices": [
                {"ride": 1, "state": "promised", "vehicle": 1, "pickup_second": second + 60, "drop_off_second": second + 180},
                {"ride": 2, "state": "waiting", "vehicle": None, "pickup_second": None, "drop_off_second": None}]}, told
            until(lambda: len(receiver.got) == 3, "the third try")
            it.plan()
            until(lambda: len(receiver.got) == 4, "the notices of the second plan")
            it.plan()
            until(lambda: len(receiver.got) == 5, "those of the third, as the address that moved isn't followed")
        bodies = [json.loads(body) for _, _, body in receiver.got]
        assert bodies[:3] == [told] * 3 and [body["batch"] for body in bodies[3:]] == [2, 3], bodies
        for path, headers, body in receiver.got:
            signed = hmac.new(b"0123456789abcdef", headers["ridepool-time"].encode() + b"." + body, hashlib.sha256).hexdigest()
            assert path == "/notices?desk=1" and headers["ridepool-signature"] == signed, (path, headers)
        receiver.shutdown()
    fails("hook= needs secret=FILE", *inputs(LINE), "hook=http://127.0.0.1/x")
    fails("is not an address such as", *inputs(LINE), "hook=ftp://127.0.0.1/x", f"secret={LINE}/network.csv")
