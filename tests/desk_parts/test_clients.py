"""Tests of many clients at once, and of how days and desks end and begin again."""

import concurrent.futures
import contextlib
import http.client
import json
import os
import re
import signal
import socket
import time

from desk_parts.shared import LINE, LONG, OWN, PATIENCE, TOWN, inputs, until


def one_client(it, number):
    """Forty calls of one client: rides asked, looked at and cancelled, a vehicle placed. Gives the rides."""
    asked = []
    for turn in range(10):
        origin, destination = 1 + (number + turn) % 80, 1 + (number + 3 * turn + 40) % 80
        answer = it.gives("POST", "/rides", {"from": origin, "to": destination, "time": number})
        asked.append(answer["ride"])
        assert it.gives("GET", f"/rides/{answer['ride']}")["from"] == origin
        status, placed = it.call("POST", f"/vehicles/{1 + number % 10}/position", {"node": origin})
        assert status == 200 or placed["word"] == "time-back", placed
        if turn % 2:
            assert it.gives("DELETE", f"/rides/{answer['ride']}") == {"reply": "cancelled"}
        else:
            it.gives("GET", f"/vehicles/{1 + number % 10}/stops")
    return asked


def test_a_number_of_a_clients_own_stops_no_other_client(desk, folder):
    with desk(*inputs(LINE), folder=folder) as it:
        it.gives("POST", "/rides", {"from": 2, "to": 4, "ride": 1_000_000_000})
        assert it.gives("POST", "/rides", {"from": 2, "to": 4})["ride"] == 1
        with concurrent.futures.ThreadPoolExecutor(8) as pool:
            bodies = [{"from": 2, "to": 4, **({"ride": OWN + number} if number % 2 else {})} for number in range(40)]
            found = [answer["ride"] for answer in pool.map(lambda body: it.gives("POST", "/rides", body), bodies)]
        assert sorted(found) == [*range(2, 22), *range(OWN + 1, OWN + 40, 2)], found
        it.end(signal.SIGKILL)
    with desk(folder=folder) as it:
        assert it.gives("POST", "/rides", {"from": 2, "to": 4})["ride"] == 22


def test_a_caller_who_leaves_in_the_middle_asks_for_nothing(desk):
    with desk(*inputs(LINE)) as it, socket.create_connection(("127.0.0.1", it.port)) as caller:
        caller.sendall(b"POST /rides HTTP/1.1\r\nhost: 127.0.0.1:%d\r\ncontent-type: application/json\r\n"
                       b'content-length: 30\r\n\r\n{"from": 2, "to": 4}' % it.port)
        caller.shutdown(socket.SHUT_WR)
        assert not caller.recv(100)
        assert it.gives("GET", "/rides") == []


def test_a_hundred_listeners_at_most(desk):
    with desk(*inputs(LINE)) as it, contextlib.ExitStack() as open_ones:
        def listen():
            caller = open_ones.enter_context(socket.create_connection(("127.0.0.1", it.port), timeout=PATIENCE))
            caller.sendall(b"GET /events HTTP/1.1\r\nhost: 127.0.0.1:%d\r\n\r\n" % it.port)
            return caller

        callers = [listen() for _ in range(130)]
        found = sorted(int(caller.recv(13).split(b" ")[1]) for caller in callers)
        assert found == [200] * 100 + [503] * 30, found
        for caller in callers:
            caller.close()
        until(lambda: b" 200 " in listen().recv(13), "a place for another listener")


def test_fifty_clients_at_once_and_the_state_after_a_kill(desk, audited, folder):
    with desk(*inputs(TOWN), "proof=1", "trip=2", folder=folder) as it:
        with concurrent.futures.ThreadPoolExecutor(50) as pool:
            began = time.monotonic()
            clients = [pool.submit(one_client, it, number) for number in range(50)]
            it.plan()
            asked = sorted(ride for client in clients for ride in client.result())
            print(f"  2,000 calls by 50 clients took {time.monotonic() - began:.1f} s")
        assert asked == list(range(1, 501)), asked
        it.plan()
        before, lines = it.state(), (folder / "transcript").read_text()
        assert lines.count(" submit ") == 500 and lines.count(" cancelled\n") == 250
        it.end(signal.SIGKILL)
    with desk(folder=folder) as it:
        after = it.state()
        assert after == before, "the state differs after a kill and a new start"
        it.plan()
        batches = len(it.gives("GET", "/batches"))
    audited(folder, batches)


def test_a_day_that_was_cut_behind_any_line_goes_on(desk, folder):
    with desk(*inputs(LINE), folder=folder) as it:
        it.gives("POST", "/rides", {"from": 2, "to": 4})
        it.plan()
        it.gives("POST", "/rides", {"from": 1, "to": 3})
    path = folder / "transcript"
    lines = path.read_text().splitlines(keepends=True)
    assert lines[4] == "round 0\n" and lines[-1] == "done 4\n", lines
    for count in range(4, len(lines) + 1):
        path.write_text("".join(lines[:count]))
        with desk(folder=folder) as it:
            rides = len(it.gives("GET", "/rides"))
        assert rides == sum(" submit " in line for line in lines[:count]), (count, rides)


def last_told(it, act):
    """Acts once a stream of events has begun. Gives the last event of each kind, once the stream has ended."""
    with socket.create_connection(("127.0.0.1", it.port), timeout=PATIENCE) as caller:
        caller.sendall(b"GET /events HTTP/1.1\r\nhost: 127.0.0.1:%d\r\nconnection: close\r\n\r\n" % it.port)
        text = b""
        while b"event: state" not in text:
            text += caller.recv(65_536)
        act()
        text += b"".join(iter(lambda: caller.recv(65_536), b""))
    return {kind.decode(): json.loads(value) for kind, value in re.findall(rb"event: (\w+)\ndata: (.*)\n", text)}


def test_live_that_is_killed_is_started_again_three_times(desk):
    with desk(*inputs(LINE)) as it:
        it.gives("POST", "/rides", {"from": 2, "to": 4})
        it.plan()
        for turn in range(3):
            before, old = it.state(), it.live()
            os.kill(old, signal.SIGKILL)
            until(lambda: it.call("GET", "/health")[1]["restarts"] == turn + 1, "a new start")
            until(lambda: it.call("GET", "/health")[0] == 200, "ready again")
            assert it.live() != old and it.state() == before
            it.gives("POST", "/rides", {"from": 1, "to": 3})
        told = last_told(it, lambda: os.kill(it.live(), signal.SIGKILL))
        why, trouble = told["status"]["why"], told["trouble"]["trouble"]
        assert told["status"]["status"] == "ended" and why.endswith("it was started again 3 times already"), told
        assert [(one["kind"], one["text"]) for one in trouble] == [("hangs", why)], told
        it.child.wait(PATIENCE)
        assert it.end() == 3, it.said
        assert sum("was ended by signal 9" in line for line in it.said) == 5, it.said
        assert it.said[-1].endswith("it was started again 3 times already"), it.said


def test_a_disk_that_takes_no_more_loses_nothing_answered(desk, folder):
    with desk(*inputs(LINE), folder=folder, most_bytes=2_000) as it:
        answered = []
        while (call := it.call("POST", "/rides", {"from": 1, "to": 2, "time": 0}))[0] == 201:
            answered.append(call[1]["ride"])
            assert len(answered) < 200, "the limit was not met"
        assert call[0] == 503 and answered, call
        with contextlib.suppress(OSError, http.client.HTTPException):
            while it.call("POST", "/rides", {"from": 1, "to": 2, "time": 0})[0] == 503:
                time.sleep(0.1)
        assert it.child.wait(PATIENCE) == 3
        it.end()
        assert "File too large" in it.said[-1] and "3 times already" in it.said[-1], it.said
    with desk(folder=folder) as it:
        kept = [ride["ride"] for ride in it.gives("GET", "/rides")]
        assert kept[:len(answered)] == answered and len(kept) <= len(answered) + 4, (answered, kept)
        it.gives("POST", "/rides", {"from": 1, "to": 2})


def test_a_day_goes_on_with_its_own_inputs_and_settings(desk, fails, folder):
    with desk(*inputs(LINE), "wait=300", folder=folder) as it:
        it.gives("POST", "/rides", {"from": 2, "to": 4})
        fails("another desk keeps this day", folder=folder)
    assert (folder / "transcript").read_text().endswith("done 1\n")
    fails("the day there has other settings: wait=300", "wait=200", folder=folder)
    fails("workers, times and every can be changed, no others", "pairs=10", folder=folder)
    fails("has another fleet", f"fleet={TOWN}/fleet.csv", folder=folder)
    with desk(*inputs(LINE), "wait=300", "every=40", "workers=2", "times=labels", folder=folder) as it:
        assert len(it.gives("GET", "/rides")) == 1
    assert '"every": 40' in (folder / "day.json").read_text()
    with open(folder / "transcript", "a", encoding="ascii") as file:
        file.write("1 4 submit 2 2 4 0 acce")
    with desk(folder=folder) as it:
        assert it.gives("POST", "/rides", {"from": 1, "to": 2})["ride"] == 2
    for text in ("{", "[]", "{}", '{"settings": [], "every": 0, "speed": "1", "began": 0}'):
        (folder / "day.json").write_text(text)
        fails("not the description of a day", folder=folder)


def test_a_transcript_that_is_spoiled_is_refused_and_stays(desk, fails, folder):
    with desk(*inputs(LINE), folder=folder) as it:
        it.gives("POST", "/rides", {"from": 2, "to": 4})
        it.plan()
    path = folder / "transcript"
    whole = path.read_text()
    for spoiled, fault in [
        (whole.replace(" accepted", " refused same-place"), "wrong entry"),
        (whole.replace("batch 1", "batch 2"), "wrong batch"),
        (whole.replace("trip 1 ", "trap 1 "), "bad form"),
    ]:
        path.write_text(spoiled)
        fails(f"ridepool: report: {fault} at line ", folder=folder)
        assert path.read_text() == spoiled and not list(folder.glob("*.part"))
    path.write_text(whole)
    with desk(folder=folder) as it:
        assert it.gives("GET", "/rides/1")["state"] == "promised"


def test_a_batch_that_was_open_is_planned_first(desk, audited, folder):
    with desk(*inputs(LINE), *LONG, folder=folder) as it:
        it.gives("POST", "/rides", {"from": 2, "to": 4})
        it.plan()
    path = folder / "transcript"
    whole = path.read_text()
    for torn in (whole[:whole.index("trip ") + 7], whole[:whole.index(" closed")], whole[:whole.index(" sealed 1\n") + 10]):
        path.write_text(torn)
        with desk(folder=folder) as it:
            assert it.gives("GET", "/rides/1")["state"] == "promised" and it.gives("GET", "/batches/1")["served"] == 1
            it.gives("DELETE", "/rides/1")
        assert path.read_text().startswith(whole[:whole.index("bound ")])
        audited(folder, 1)


RELAY = """#!/usr/bin/python3
import pathlib, signal, subprocess, sys
call = subprocess.Popen([{program!r}, *sys.argv[1:]], stdout=subprocess.PIPE)
for line in call.stdout:
    if sys.argv[1] == "live" and line.endswith(b" closed\\n"):
        call.kill()
        pathlib.Path({folder!r}, "holds").touch()
        signal.pause()
    sys.stdout.buffer.write(line)
    sys.stdout.buffer.flush()
"""


def events_of(it, kinds):
    """The names of events that come, from `state` on, until these have come."""
    with socket.create_connection(("127.0.0.1", it.port), timeout=PATIENCE) as caller:
        caller.sendall(b"GET /events HTTP/1.1\r\nhost: 127.0.0.1:%d\r\n\r\n" % it.port)
        text = b""
        while not kinds <= set(found := re.findall(rb"event: (\w+)\n", text)):
            text += caller.recv(65_536)
    return found


def test_live_that_is_killed_while_it_plans_goes_on_with_that_plan(desk, audited, program, folder):
    with concurrent.futures.ThreadPoolExecutor(2) as pool:
        relay = folder.parent / "relay"
        relay.write_text(RELAY.format(program=str(program), folder=str(folder.parent)))
        relay.chmod(0o755)
        with desk(*inputs(LINE), *LONG, f"program={relay}", folder=folder) as it:
            for ends in ({"from": 2, "to": 4}, {"from": 3, "to": 5}):
                it.gives("POST", "/rides", ends)
            events = pool.submit(events_of, it, {b"status", b"notices", b"plan"})
            until(lambda: it.call("POST", "/seal")[0] in (200, 201, 409) and (folder.parent / "holds").exists(), "a batch that is open")
            asked = pool.submit(it.call, "DELETE", "/rides/2")
            until(lambda: it.call("GET", "/health")[1]["open_batch"] == 1, "the batch is seen")
            os.kill(it.live(), signal.SIGKILL)
            assert asked.result()[0] in (200, 503), asked.result()
            until(lambda: it.call("GET", "/health")[0] == 200, "ready again")
            assert it.gives("GET", "/batches/1")["served"] == 2 and it.gives("GET", "/rides/1")["state"] == "promised"
            assert events.result()[0] == b"state"
            it.gives("DELETE", "/rides/1")
        audited(folder, 1)


def test_the_port_answers_while_the_day_so_far_is_read(desk, held_desk, folder):
    with desk(*inputs(LINE), folder=folder) as it:
        it.gives("POST", "/rides", {"from": 2, "to": 4})
    with held_desk(folder) as (it, let_go):
        status, health = it.call("GET", "/health")
        assert status == 503 and health["status"] == "starting" and " MB of the day so far" in health["why"], health
        for method, path in (("GET", "/rides"), ("POST", "/rides"), ("GET", "/events"), ("GET", "/network")):
            status, answer = it.call(method, path, {"from": 1, "to": 2} if method == "POST" else None)
            assert status == 503 and "is starting" in answer["text"], (path, status, answer)
        assert it.call("GET", "/")[0] == 200
        let_go()
        assert it.opened() and [ride["ride"] for ride in it.gives("GET", "/rides")] == [1]


def test_a_desk_that_is_closed_while_it_starts_leaves_the_day_as_it_was(desk, held_desk, folder):
    with desk(*inputs(LINE), folder=folder) as it:
        it.gives("POST", "/rides", {"from": 2, "to": 4})
    whole = (folder / "transcript").read_text()
    with held_desk(folder) as (it, _):
        assert it.end() == 0, it.said
    assert (folder / "transcript").read_text() == whole and not list(folder.glob("*.part"))


def test_a_day_without_trees_says_that_it_cannot_go_on(desk, fails, folder):
    with desk(*inputs(LINE), "proof=0", folder=folder) as it:
        assert any("this day can't go on once" in line for line in it.said), it.said
    fails("the day there can't go on: its report has no trees", folder=folder)


def test_a_demo_drives_by_itself_and_is_confirmed(desk, audited, folder):
    with desk("demo", "speed=60", "proof=1", folder=folder) as it:
        until(lambda: sum(r["state"] == "delivered" for r in it.gives("GET", "/rides")) >= 5, "five deliveries")
        batches = it.gives("GET", "/batches?last=1000")
        assert all(b["late"] == [] and b["lapsed"] == [] for b in batches), batches
    text = (folder / "transcript").read_text()
    cancelled = set(re.findall(r" cancel (\d+) ", text))
    refused = [it for it in re.findall(".* refused .*", text) if not cancelled & set(it.split(" ")[3:5])]
    assert refused == [], refused  # a rider may cancel in the moment of the pickup
    audited(folder, text.count("\nbatch "))
