"""Tests of who may do what: tokens with roles, and the log of calls."""

import json
import socket

import pytest
from desk_parts.shared import LINE, LONG, PATIENCE, inputs
from desk_parts.tokens import made, token

CALLS = {
    ("GET", "/rides"): "dispatcher reader",
    ("GET", "/rides/1"): "dispatcher reader rider",
    ("GET", "/rides/2"): "dispatcher reader",
    ("GET", "/vehicles"): "dispatcher reader",
    ("GET", "/vehicles/1"): "dispatcher reader driver",
    ("GET", "/vehicles/1/stops"): "dispatcher reader driver",
    ("GET", "/vehicles/2/stops"): "dispatcher reader",
    ("GET", "/batches"): "dispatcher reader",
    ("GET", "/trouble"): "dispatcher reader",
    ("GET", "/totals"): "dispatcher reader",
    ("GET", "/rides.csv"): "dispatcher reader",
    ("GET", "/search?q=1"): "dispatcher reader",
    ("GET", "/network"): "dispatcher reader",
    ("GET", "/openapi.json"): "dispatcher reader",
    ("GET", "/metrics"): "dispatcher reader",
    ("GET", "/rides/1/trip"): "dispatcher reader rider",
    ("GET", "/rides/1/contact"): "dispatcher reader rider",
    ("GET", "/vehicles/1/trip"): "dispatcher reader driver",
    ("GET", "/vehicles/2/trip"): "dispatcher reader",
    ("GET", "/me"): "dispatcher reader driver rider",
    ("GET", "/health"): "dispatcher reader driver rider nobody",
    ("GET", "/"): "dispatcher reader driver rider nobody",
    ("GET", "/drive"): "dispatcher reader driver rider nobody",
    ("GET", "/ride/1"): "dispatcher reader driver rider nobody",
    ("GET", "/desk.js"): "dispatcher reader driver rider nobody",
    ("POST", "/rides"): "dispatcher",
    ("POST", "/seal"): "dispatcher",
    ("POST", "/vehicles/1/position"): "dispatcher driver",
    ("POST", "/vehicles/1/pickup"): "dispatcher driver",
    ("POST", "/vehicles/1/dropoff"): "dispatcher driver",
    ("POST", "/vehicles/1/noshow"): "dispatcher driver",
    ("POST", "/vehicles/2/noshow"): "dispatcher",
    ("POST", "/rides/1/contact"): "dispatcher",
    ("DELETE", "/rides/1/contact"): "dispatcher",
    ("POST", "/vehicles/1/mistake"): "dispatcher driver",
    ("POST", "/vehicles/01/mistake"): "dispatcher",
    ("POST", "/vehicles/2/position"): "dispatcher",
    ("POST", "/vehicles/10/position"): "dispatcher",
    ("DELETE", "/rides/1"): "dispatcher rider",
    ("DELETE", "/rides/2"): "dispatcher",
    ("DELETE", "/rides/10"): "dispatcher",
    ("POST", "/rides/1"): "dispatcher",
}


@pytest.fixture
def path(tmp_path):
    """Where a file of tokens may stand."""
    return tmp_path / "tokens"


@pytest.fixture
def tokens(path):
    """A token of each role by its role, in a file."""
    words = {"dispatcher": (), "reader": (), "driver": ("vehicle=1",), "rider": ("ride=1",)}
    return {role: made(path, f"role={role}", *more) for role, more in words.items()}


def test_each_role_may_call_what_is_its_own(desk, path, tokens):
    with desk(*inputs(LINE), f"tokens={path}") as it:
        for (method, place), roles in CALLS.items():
            for role in (*tokens, "nobody"):
                it.token = tokens.get(role)
                status, answer = it.call(method, place, {} if method == "POST" else None)
                refused = status == (401 if role == "nobody" else 403)
                assert refused == (role not in roles.split()), (method, place, role, status, answer)
                if refused:
                    assert answer["text"], answer
        it.token = tokens["driver"]
        assert it.gives("GET", "/me") == {"role": "driver", "vehicle": 1, "ride": None}


def test_a_driver_and_a_rider_do_a_whole_trip(desk, path, tokens):
    with desk(*inputs(LINE), *LONG, f"tokens={path}") as it:
        it.token = tokens["dispatcher"]
        it.gives("POST", "/rides", {"from": 2, "to": 4, "time": 0})
        it.gives("POST", "/rides", {"from": 3, "to": 5, "time": 0})
        second = it.plan()["second"] + 60
        it.token = tokens["rider"]
        assert it.gives("GET", "/rides/1")["pickup_second"] == second
        it.token = tokens["driver"]
        assert [stop["ride"] for stop in it.gives("GET", "/vehicles/1/stops")] == [1, 2, 1, 2]
        it.gives("POST", "/vehicles/1/pickup", {"ride": 1, "second": second})
        it.token = tokens["rider"]
        it.refuses(409, "is-aboard", "DELETE", "/rides/1")
        it.token = tokens["driver"]
        it.gives("POST", "/vehicles/1/dropoff", {"ride": 1, "second": second + 120})
        log = [json.loads(line) for line in (it.folder / "access.log").read_text().splitlines()]
    known = ["method", "path", "status", "role", "reply"]
    assert [[line.get(key) for key in known] for line in log] == [
        ["POST", "/rides", 201, "dispatcher", "accepted"], ["POST", "/rides", 201, "dispatcher", "accepted"],
        ["POST", "/seal", 200, "dispatcher", "sealed 1"], ["POST", "/vehicles/1/pickup", 200, "driver", "picked"],
        ["DELETE", "/rides/1", 409, "rider", "refused is-aboard 1"],
        ["POST", "/vehicles/1/dropoff", 200, "driver", "dropped"]], log
    assert [line.get("ride") for line in log[:2]] == [1, 2] and log[3]["vehicle"] == 1, log
    assert len({line["id"] for line in log}) == 3 and all(line["time"].startswith("2") for line in log), log
    assert not any(it in json.dumps(log) for it in tokens.values())


def read_until(stream, text, holds):
    """What comes behind a text, up to where something holds of all of it."""
    while not holds(text):
        more = stream.recv(65_536)
        assert more, text[-200:]
        text += more
    return text


def test_a_token_is_withdrawn_while_the_desk_runs(desk, path, tokens):
    with desk(*inputs(LINE), f"tokens={path}") as it:
        assert not any(it in path.read_text() for it in tokens.values()), "a token stands in the file"
        assert path.stat().st_mode & 0o077 == 0
        lines = token(path)[1].splitlines()
        assert [line.split()[1:] for line in lines] == [
            ["dispatcher"], ["reader"], ["driver", "vehicle=1"], ["rider", "ride=1"]], lines
        it.token = tokens["reader"]
        assert it.call("GET", "/rides")[0] == 200
        stream = socket.create_connection(("127.0.0.1", it.port), timeout=PATIENCE)
        stream.sendall(f"GET /events HTTP/1.1\r\nhost: 127.0.0.1:{it.port}\r\n"
                       f"authorization: Bearer {it.token}\r\n\r\n".encode())
        text = read_until(stream, b"", lambda text: b"event: clock" in text)
        assert token(path, f"withdraw={lines[1].split()[0]}")[0] == 0
        assert it.call("GET", "/rides")[0] == 401
        read_until(stream, text, lambda text: text.endswith(b"\r\n0\r\n\r\n"))
        stream.close()
        it.token = tokens["driver"]
        assert it.call("GET", "/vehicles/1")[0] == 200
        it.token = made(path, "role=reader")
        assert it.call("GET", "/rides")[0] == 200
        text = path.read_text()
        path.write_text("{}\n")
        assert it.call("GET", "/rides")[0] == 401, "a file that can't be read lets nobody in"
        path.write_text(text)
        assert it.call("GET", "/rides")[0] == 200
        path.unlink()
        assert it.call("GET", "/rides")[0] == 401


def test_faults_of_tokens_are_said_in_a_line(fails, path):
    for words, text in ((("role=driver",), "a driver's token needs vehicle="), (("role=king",), "role=king is none of"),
                        (("role=rider", "vehicle=1"), "a rider's token needs ride="),
                        (("role=reader", "vehicle=1"), "a reader has no vehicle="),
                        (("role=driver", "vehicle=x"), "is not a whole number"), (("withdraw=x",), "there is no token x"),
                        (("colour=red",), "unknown word colour=red")):
        status, out, errors = token(path, *words)
        assert status == 2 and text in errors and out == "", (words, status, out, errors)
    assert not path.exists()
    path.write_text("{}\n")
    assert token(path)[0] == 2
    fails("line 1 is not that of a token", *inputs(LINE), f"tokens={path}")
    fails("No such file", *inputs(LINE), f"tokens={path.parent}/none")


def test_a_desk_without_tokens_takes_all_calls_of_this_machine(desk):
    with desk(*inputs(LINE)) as it:
        assert it.gives("GET", "/me") == {"role": "dispatcher", "vehicle": None, "ride": None}
        it.gives("POST", "/rides", {"from": 2, "to": 4})
        (line,) = (it.folder / "access.log").read_text().splitlines()
        assert json.loads(line)["role"] == "none", line
