"""Tests of the desk's calls: rides, vehicles, batches, refusals, the token, the words of the start, events."""

import concurrent.futures
import json
import pathlib
import re
import socket

from desk_parts.events import Events
from desk_parts.shared import LINE, LONG, OWN, PATIENCE, TOWN, folder_for_days, inputs


def test_a_ride_from_asking_to_arrival(desk):
    with desk(*inputs(LINE), *LONG) as it:
        asked = it.gives("POST", "/rides", {"from": 2, "to": 4, "persons": 2, "time": 0})
        assert asked == {"ride": 1, "from": 2, "to": 4, "reply": "accepted", "state": "waiting"}, asked
        batch = it.plan()
        pickup, before = batch["second"] + 60, it.second()
        ride = it.gives("GET", "/rides/1")
        after = it.second()
        assert (ride["state"], ride["vehicle"], ride["pickup_second"]) == ("promised", 1, pickup), ride
        assert (ride["drop_off_second"], ride["travel_time"]) == (pickup + 120, 120), ride
        assert pickup - after <= ride["wait_time"] <= pickup - before, (before, ride, after)
        assert ride["arrival_time"] == ride["wait_time"] + 120, ride
        stops = [{"kind": "pick", "ride": 1, "node": 2, "second": pickup},
                 {"kind": "drop", "ride": 1, "node": 4, "second": pickup + 120}]
        assert it.gives("GET", "/vehicles/1/stops") == stops
        took = it.gives("POST", "/vehicles/1/pickup", {"ride": 1, "second": pickup})
        assert took == {"reply": "picked"}, took
        aboard = it.gives("GET", "/vehicles/1")
        assert (aboard["persons"], aboard["aboard"], aboard["stops"], aboard["node"]) == (2, [1], stops[1:], 2), aboard
        assert it.gives("POST", "/vehicles/1/dropoff", {"ride": 1, "second": pickup + 120}) == {"reply": "dropped"}
        ride = it.gives("GET", "/rides/1")
        assert (ride["state"], ride["drop_off_second"], ride["arrival_time"]) == ("delivered", pickup + 120, None), ride


def test_batches_say_what_a_plan_is_worth(desk):
    with desk(*inputs(LINE), *LONG) as it:
        it.gives("POST", "/rides", {"from": 2, "to": 4, "time": 0})
        it.gives("POST", "/rides", {"from": 3, "to": 5, "time": 0})
        it.gives("POST", "/rides", {"from": 5, "to": 1, "persons": 5, "time": 0})
        batch = it.plan()
        seconds = batch.pop("seconds")
        late = batch["second"]
        assert 0 <= seconds < PATIENCE
        assert batch == {
            "batch": 1, "second": late, "overflow": False, "served": 2, "left_out": [3], "expired": [], "lapsed": [],
            "late": [], "cost": 10180 + 2 * late, "bound": 10180 + 2 * late, "gap": 0, "rows": 4, "nodes": 1,
            "mean_wait": 90 + late, "worst_wait": 120 + late}, batch
        assert it.gives("GET", "/rides/3")["left_out"] is True
        assert [b["batch"] for b in it.gives("GET", "/batches")] == [1]
        assert it.call("GET", "/batches/2")[0] == 404


def test_riders_and_vehicles_in_lists(desk):
    with desk(*inputs(LINE)) as it:
        it.gives("POST", "/rides", {"from": 2, "to": 4, "ride": OWN})
        assert it.gives("POST", "/rides", {"from": 2, "to": 4})["ride"] == 1
        assert it.gives("DELETE", f"/rides/{OWN}") == {"reply": "cancelled"}
        assert [(r["ride"], r["state"]) for r in it.gives("GET", "/rides")] == [(OWN, "cancelled"), (1, "waiting")]
        assert [r["ride"] for r in it.gives("GET", "/rides?state=waiting")] == [1]
        placed = it.gives("POST", "/vehicles/1/position", {"node": 3})
        assert placed == {"node": 3, "reply": "placed"}, placed
        assert [(v["vehicle"], v["node"], v["max_capacity"]) for v in it.gives("GET", "/vehicles")] == [(1, 3, 4)]


def test_places_become_the_nearest_nodes(desk):
    with desk(*inputs(TOWN)) as it:
        ride = {"pickup_lat": 47.1999, "pickup_lon": 11.4999, "drop_off_lat": 47.2016, "drop_off_lon": 11.5006}
        asked = it.gives("POST", "/rides", ride)
        assert (asked["from"], asked["to"]) == (1, 11), asked
        at = it.gives("POST", "/vehicles/1/position", {"lat": 47.2021, "lon": 11.5083})
        assert at == {"node": 14, "reply": "placed"}, at
        assert it.gives("GET", "/vehicles/1")["place"] == [47.2021, 11.5083, 14]
        status, answer = it.call("POST", "/rides", {**ride, "pickup_lat": 48.0})
        assert status == 422 and "no node lies within 500 metres" in answer["text"], answer


def test_the_books_refusals_are_409_with_their_word(desk):
    with desk(*inputs(LINE), *LONG) as it:
        ask = {"from": 2, "to": 4, "time": 0}
        it.gives("POST", "/rides", ask)
        it.gives("POST", "/rides", {**ask, "ride": OWN, "from": 3})
        it.gives("DELETE", f"/rides/{OWN}")
        it.refuses(409, "duplicate-rider", "POST", "/rides", {**ask, "ride": OWN})
        it.refuses(409, "unknown-node", "POST", "/rides", {**ask, "to": 99})
        it.refuses(409, "same-place", "POST", "/rides", {**ask, "to": 2})
        it.refuses(409, "not-promised", "POST", "/vehicles/1/pickup", {"ride": 1})
        it.refuses(409, "not-aboard", "POST", "/vehicles/1/dropoff", {"ride": 1})
        it.refuses(409, "unknown-node", "POST", "/vehicles/1/position", {"node": 99})
        pickup = it.plan()["second"] + 60
        it.gives("POST", "/vehicles/1/pickup", {"ride": 1, "second": pickup})
        it.refuses(409, "is-aboard", "DELETE", "/rides/1")
        it.refuses(409, "is-aboard", "POST", "/vehicles/1/pickup", {"ride": 1, "second": pickup})
        it.refuses(409, "time-back", "POST", "/vehicles/1/position", {"node": 1, "second": 0})
        it.refuses(409, "time-back", "POST", "/vehicles/1/dropoff", {"ride": 1, "second": 0})
        it.gives("POST", "/vehicles/1/dropoff", {"ride": 1, "second": pickup + 120})
        it.refuses(409, "ended", "DELETE", "/rides/1")
        with concurrent.futures.ThreadPoolExecutor(20) as pool:
            list(pool.map(lambda _: it.gives("POST", "/rides", {"from": 1, "to": 2, "time": 1000}), range(1000)))
        it.refuses(409, "pool-full", "POST", "/rides", {"from": 1, "to": 2})


def test_unknown_ones_are_404_and_bad_values_422(desk):
    with desk(*inputs(LINE)) as it:
        for method, path, body in (
                ("GET", "/rides/9", None), ("DELETE", "/rides/9", None), ("GET", "/vehicles/9", None),
                ("GET", "/vehicles/9/stops", None), ("POST", "/vehicles/9/position", {"node": 1}),
                ("POST", "/vehicles/9/pickup", {"ride": 1}), ("POST", "/vehicles/1/pickup", {"ride": 9}),
                ("POST", "/vehicles/1/dropoff", {"ride": 9}), ("GET", "/batches/9", None), ("GET", "/nothing", None),
                ("GET", "/rides/-1", None), ("GET", "/../desk.py", None), ("GET", "/%2e%2e/desk.py", None)):
            status, answer = it.call(method, path, body)
            assert status == 404 and answer["text"], (method, path, status, answer)
        good = {"from": 2, "to": 4}
        for path, body in (
                ("/rides", {}), ("/rides", {"from": 2}), ("/rides", {**good, "persons": 0}),
                ("/rides", {**good, "persons": 7}), ("/rides", {**good, "persons": "2"}), ("/rides", {**good, "from": -1}),
                ("/rides", {**good, "from": 1.5}), ("/rides", {**good, "from": 1_000_000_001}), ("/rides", [good]),
                ("/rides", {**good, "time": "now"}), ("/rides", {**good, "other": 1}),
                ("/rides", {**good, "pickup_lat": 1, "pickup_lon": 1}), ("/rides", {"pickup_lat": 1, "to": 4}),
                ("/rides", {**good, "from": True}), ("/rides", {**good, "ride": "1,2\n0,0,seal"}),
                ("/rides", {**good, "ride": OWN - 1}), ("/rides", {**good, "persons": True}),
                ("/vehicles/1/position", {}), ("/vehicles/1/position", {"node": "1"}), ("/vehicles/1/pickup", {}),
                ("/vehicles/1/position", {"lat": 90.1, "lon": 1}), ("/vehicles/1/position", {"lat": -91, "lon": 1}),
                ("/vehicles/1/position", {"lat": True, "lon": 1}), ("/vehicles/1/position", {"lat": "1", "lon": 1}),
                ("/vehicles/1/position", {"lat": 1, "lon": 180.5}), ("/vehicles/x/pickup", {"ride": 1}),
                ("/rides", {**good, "time": 1_000_000}), ("/vehicles/1/position", {"node": 1, "second": 1_000_000}),
                ("/vehicles/1/position", {"node": 1, "lat": 1, "lon": 1})):
            status, answer = it.call("POST", path, body)
            assert status == 422 and answer["text"], (path, body, status, answer)
        for path in ("/rides?limit=0", "/rides?limit=1001", "/rides?state=gone", "/rides?cursor=-1", "/vehicles?limit=x",
                     "/batches?last=0", "/rides?vehicle=x"):
            status, answer = it.call("GET", path)
            assert status == 422 and answer["text"], (path, status, answer)
        for raw in ("{", "[" * 60_000, '{"from": ' + "9" * 10_000 + "}", b"\xff"):
            status, answer = it.call("POST", "/rides", raw=raw, headers={"content-type": "application/json"})
            assert status == 422, (raw[:20], status, answer)
        assert it.call("PUT", "/rides", good)[0] == 405
        assert it.gives("GET", "/rides") == [] and (it.folder / "rows.csv").read_text().count("\n") == 1


def test_other_sites_and_large_bodies_are_refused(desk):
    with desk(*inputs(LINE)) as it:
        body = json.dumps({"from": 2, "to": 4})
        plain = {"content-type": "application/json"}
        for status, headers in (
                (403, {"origin": "http://evil.example"}), (403, {"origin": "null"}), (403, {"origin": "http://127.0.0.1:1"}), (403, {"sec-fetch-site": "cross-site"}),
                (403, {"sec-fetch-site": "same-site"}), (415, {"content-type": "text/plain"}), (415, {"content-type": ""}),
                (413, {"content-length": "65537"})):
            found = it.call("POST", "/rides", raw=body, headers={**plain, **headers})
            assert found[0] == status and found[1]["text"], (headers, found)
        for host in ("evil.example", f"127.0.0.1.evil.example:{it.port}", f"www.localhost:{it.port}", ""):
            for method, path in (("GET", "/rides"), ("GET", "/"), ("POST", "/seal")):
                assert it.call(method, path, headers={"host": host})[0] == 400, (host, method, path)
        for host in (f"localhost:{it.port}", f"[::1]:{it.port}"):
            assert it.call("GET", "/rides", headers={"host": host})[0] == 200, host
        assert it.call("GET", "/", headers={"sec-fetch-site": "cross-site", "sec-fetch-mode": "navigate"})[0] == 200
        chunked = iter([b" " * 40_000, b" " * 40_000])
        found = it.call("POST", "/rides", raw=chunked, headers=plain)
        assert found[0] == 413, found
        assert it.gives("GET", "/rides") == []
        own = {"origin": f"http://127.0.0.1:{it.port}", "sec-fetch-site": "same-origin", **plain}
        assert it.call("POST", "/rides", raw=body, headers=own)[0] == 201


def test_a_token_is_asked_of_each_writing_call(desk, fails, tmp_path):
    file = tmp_path / "token"
    file.write_text("0123456789abcdef\n")
    with desk(*inputs(LINE), f"token={file}", "host=0.0.0.0", "name=desk.example") as it:
        calls = (("POST", "/rides", {"from": 2, "to": 4}), ("DELETE", "/rides/1", None), ("POST", "/seal", None),
                 ("POST", "/vehicles/1/position", {"node": 1}), ("POST", "/vehicles/1/pickup", {"ride": 1}),
                 ("POST", "/vehicles/1/dropoff", {"ride": 1}), ("GET", "/rides"), ("GET", "/network"), ("GET", "/events"))
        for it.token in (None, "0123456789abcdeF", "0123456789abcde", "wrong"):
            assert all(it.call(*call)[0] == 401 for call in calls)
        it.token = "0123456789abcdef"
        assert it.gives("GET", "/rides") == []
        assert it.call("GET", "/rides", headers={"host": f"desk.example:{it.port}"})[0] == 200
        assert it.gives("POST", "/rides", {"from": 2, "to": 4})["ride"] == 1
        assert it.gives("GET", "/network")["needs_token"] is True
    file.write_text("short")
    fails("a token is one word of at least 16 letters", *inputs(LINE), f"token={file}")
    fails("host= needs tokens=FILE or token=FILE", *inputs(LINE), "host=0.0.0.0")
    fails("each name has to stand there in full", *inputs(LINE), "name=*.example")


def test_faults_of_the_words_are_said_in_a_line(desk, fails):
    fails("no day began there; give network=, nodes= and fleet=")
    fails("unknown word colour=red", *inputs(LINE), "colour=red")
    fails("is not a whole number from 0 to 65535", *inputs(LINE), "port=-1")
    with folder_for_days() as folder:
        fails("nodes: node 1 of the network isn't there", f"network={LINE}/network.csv", f"fleet={LINE}/fleet.csv",
              f"nodes={pathlib.Path(__file__).parent}/one-node.csv", folder=folder)
        fails("none: No such file or directory", *inputs(LINE), "program=none", folder=folder)
        assert not (folder / "day.json").exists(), "a day began that was never opened"
    fails("No such file", f"network={LINE}/none.csv", f"fleet={LINE}/fleet.csv", f"nodes={LINE}/nodes.csv")
    with folder_for_days() as folder:
        fails("words: bad value", *inputs(LINE), "wait=8000", folder=folder)
        fails("No such file", *inputs(LINE)[:2], "fleet=none", folder=folder)
        with desk(*inputs(LINE), "wait=7200", folder=folder) as it:
            assert it.gives("GET", "/rides") == []
    with folder_for_days() as folder:
        folder.mkdir()
        (folder / "fleet.csv").write_text("of another")
        fails("the file is there already", *inputs(LINE), folder=folder)
        assert (folder / "fleet.csv").read_text() == "of another"
        assert {it.name for it in folder.iterdir()} == {"fleet.csv", "lock"}
    with socket.socket() as taken:
        taken.bind(("127.0.0.1", 0))
        taken.listen()
        fails("Address already in use", *inputs(LINE), f"port={taken.getsockname()[1]}")


def test_events_tell_the_state_then_each_reply_and_plan(desk):
    with desk(*inputs(LINE), *LONG) as it:
        it.gives("POST", "/rides", {"from": 2, "to": 4, "time": 0})
        events = Events(it)
        state = events.next("state")
        assert [r["ride"] for r in state["rides"]] == [1] and state["vehicles"][0]["vehicle"] == 1, state
        it.gives("POST", "/rides", {"from": 3, "to": 5, "time": 0})
        reply = events.next("reply")
        assert (reply["command"], reply["reply"], reply["rides"][0]["ride"]) == ("submit", "accepted", 2), reply
        it.call("POST", "/rides", {"from": 3, "to": 3})
        assert events.next("reply")["reply"] == "refused same-place"
        it.plan()
        assert events.next("reply")["reply"] == "sealed 1"
        assert events.next("reply")["reply"] == "closed"
        plan = events.next("plan")
        assert plan["batch"]["served"] == 2 and [r["state"] for r in plan["rides"]] == ["promised"] * 2, plan
        assert len(plan["vehicles"][0]["stops"]) == 4, plan


def test_ways_come_of_the_desk(desk):
    with desk(*inputs(LINE)) as it:
        assert it.gives("GET", "/ways?pairs=1-4,3-3,4-2,2-4") == {"ways": [[1, 2, 3, 4], [3], [4, 3, 2], [2, 3, 4]]}
        for bad in ("", "1", "1-", "1-9", "1-2,", "a-b", ",".join(101 * ["1-2"])):
            status, answer = it.call("GET", f"/ways?pairs={bad}")
            assert status == 422 and "pairs" in answer["text"], (bad, status, answer)
        assert it.call("GET", "/ways")[0] == 422


def test_the_calls_describe_themselves_without_other_places(desk):
    with desk(*inputs(LINE)) as it:
        paths = set(it.gives("GET", "/openapi.json")["paths"])
        wanted = {"/rides", "/rides/{number}", "/vehicles", "/vehicles/{number}", "/vehicles/{number}/stops",
                  "/vehicles/{number}/position", "/vehicles/{number}/pickup", "/vehicles/{number}/dropoff",
                  "/vehicles/{number}/mistake", "/trouble", "/batches", "/batches/{number}", "/seal", "/events", "/health",
                  "/network", "/me", "/metrics", "/rides/{number}/contact", "/rides/{number}/trip",
                  "/vehicles/{number}/trip", "/vehicles/{number}/noshow", "/vehicles/{number}/break", "/search", "/totals",
                  "/rides.csv", "/batches.csv", "/ways"}
        assert paths == wanted, paths ^ wanted
        it.gives("POST", "/rides", {"from": 2, "to": 4})
        it.plan()
        for path in ("/rides", "/vehicles", "/batches", "/vehicles/1/stops"):
            said = it.gives("GET", "/openapi.json")["paths"][path.replace("/1/", "/{number}/")]["get"]["responses"]["200"]
            example = said["content"]["application/json"]["example"]
            assert it.gives("GET", path)[0].keys() == example[0].keys(), path
        for path in ("/", "/docs", "/desk.js", "/map.js", "/shapes.js", "/lists.js", "/words.js", "/known_ways.js", "/calls.js",
                     "/desk.css"):
            status, text = it.call("GET", path)
            assert status == 200 and not re.search(rb"(?<!xmlns=\")https?://(?!www\.w3\.org)", text), path
        assert b"<title>Calls of the desk" in it.call("GET", "/docs")[1]
