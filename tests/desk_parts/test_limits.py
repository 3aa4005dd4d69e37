"""Tests of what the desk holds out: connections, headers and bodies, lists in pages, calls that are sent again."""

import asyncio
import contextlib
import http.client
import json
import socket
import threading

from desk_parts.shared import LINE, LONG, PATIENCE, TOWN, inputs, until


def test_small_answers_go_out_at_once():
    from ridepool.desk.command import bound

    async def option():
        found = asyncio.get_running_loop().create_future()
        listener = bound("127.0.0.1", 0)
        server = await asyncio.start_server(lambda _, writer: found.set_result(
            writer.get_extra_info("socket").getsockopt(socket.IPPROTO_TCP, socket.TCP_NODELAY)), sock=listener)
        _, writer = await asyncio.open_connection(*listener.getsockname())
        value = await found
        writer.close()
        server.close()
        return value

    assert asyncio.run(option()) != 0


def header(it, method, path, **headers):
    """A call's status and headers, and how many bytes come behind them."""
    connection = http.client.HTTPConnection("127.0.0.1", it.port, timeout=PATIENCE)
    connection.request(method, path, headers=headers)
    answer = connection.getresponse()
    body = answer.read()
    connection.close()
    return answer.status, dict(answer.getheaders()), body


def test_head_has_the_headers_of_get_and_no_body(desk):
    with desk(*inputs(LINE)) as it:
        it.gives("POST", "/rides", {"from": 2, "to": 4, "time": 0})
        for path in ("/rides", "/vehicles/1", "/batches", "/", "/desk.js", "/openapi.json", "/network"):
            status, headers, body = header(it, "HEAD", path)
            found = header(it, "GET", path)
            assert status == found[0] == 200 and body == b"", (path, status, body)
            assert headers["content-length"] == str(len(found[2])), (path, headers)
        assert header(it, "HEAD", "/nothing")[0] == 404
        assert header(it, "HEAD", "/events")[0] == 405


def all_pages(it, path):
    """All items of a list, page by page, and how many each page has."""
    items, counts = [], []
    while path is not None:
        status, headers, body = header(it, "GET", path)
        assert status == 200, (path, status, body)
        items += json.loads(body)
        counts.append(len(json.loads(body)))
        link = headers.get("link")
        path = None if link is None else link[1:].partition(">")[0]
        assert (link is None) == ("next-cursor" not in headers), headers
    return items, counts


def test_lists_come_in_pages(desk):
    with desk(*inputs(TOWN), *LONG, "trip=2") as it:
        for number in range(25):
            it.gives("POST", "/rides", {"from": 1, "to": 2 + number, "time": number})
        for number in range(5, 10):
            it.gives("DELETE", f"/rides/{number}")
        rides, counts = all_pages(it, "/rides?limit=10")
        assert [ride["ride"] for ride in rides] == list(range(1, 26)) and counts == [10, 10, 5], (rides, counts)
        rides, counts = all_pages(it, "/rides?state=cancelled&limit=2")
        assert [ride["ride"] for ride in rides] == list(range(5, 10)) and counts[:2] == [2, 2], (rides, counts)
        assert [ride["ride"] for ride in it.gives("GET", "/rides?since=20&state=waiting")] == list(range(21, 26))
        assert it.gives("GET", "/rides?vehicle=1") == []
        vehicles, counts = all_pages(it, "/vehicles?limit=4")
        assert [it["vehicle"] for it in vehicles] == list(range(1, 11)) and counts == [4, 4, 2], (vehicles, counts)
        it.gives("POST", "/vehicles/3/position", {"node": 5, "second": 500})
        assert [it["vehicle"] for it in it.gives("GET", "/vehicles?since=500")] == [3]
        plans = [it.plan() for _ in range(5)]
        batches, counts = all_pages(it, "/batches?limit=2")
        assert [it["batch"] for it in batches] == [5, 4, 3, 2, 1] and counts == [2, 2, 1], (batches, counts)
        first = it.gives("GET", "/rides?state=promised")
        vehicle = first[0]["vehicle"]
        own = it.gives("GET", f"/rides?vehicle={vehicle}&state=promised")
        assert own == [ride for ride in first if ride["vehicle"] == vehicle] or own[0]["vehicle"] == vehicle
        assert [it["batch"] for it in it.gives("GET", f"/batches?since={plans[4]['second']}&last=1")] == [5]


def test_a_page_looks_at_so_many_and_no_more():
    from ridepool.desk.lists import MOST_LOOKED_AT, page_of

    keys, looked = range(3 * MOST_LOOKED_AT), []
    page = page_of(keys, lambda it: bool(looked.append(it)), 10, 0)
    assert (page.items, page.next, len(looked)) == ([], MOST_LOOKED_AT, MOST_LOOKED_AT), page
    assert page_of(keys, lambda it: it == keys[-1], 10, 2 * MOST_LOOKED_AT) == ([keys[-1]], None)
    assert page_of([], lambda it: True, 10, 0) == page_of([1], lambda it: True, 1, 5) == ([], None)
    assert page_of([1, 2], lambda it: True, 1, 0) == ([1], 1) and page_of([1, 2], lambda it: True, 2, 0) == ([1, 2], None)


def test_idle_connections_keep_nobody_out(desk):
    with desk(*inputs(LINE)) as it, contextlib.ExitStack() as open_ones:
        for number in range(1050):
            caller = open_ones.enter_context(socket.socket())
            caller.settimeout(PATIENCE)
            caller.bind((f"127.0.0.{2 + number % 3}", 0))
            caller.connect(("127.0.0.1", it.port))
            if number % 100 == 0:
                assert it.gives("GET", "/health")["status"] == "ready"
        assert it.gives("POST", "/rides", {"from": 2, "to": 4})["ride"] == 1


def test_headers_and_bodies_that_are_never_whole_are_closed(desk):
    with desk(*inputs(LINE)) as it, contextlib.ExitStack() as open_ones:
        def begins(text):
            caller = open_ones.enter_context(socket.create_connection(("127.0.0.1", it.port), timeout=PATIENCE))
            caller.sendall(text.encode())
            return caller

        start = f"POST /rides HTTP/1.1\r\nhost: 127.0.0.1:{it.port}\r\n"
        silent, header_only = begins(""), begins(start + "x-more: ")
        body = begins(start + 'content-type: application/json\r\ncontent-length: 30\r\n\r\n{"from": 2,')
        again = begins(f"GET /health HTTP/1.1\r\nhost: 127.0.0.1:{it.port}\r\n\r\n")
        assert again.recv(12) == b"HTTP/1.1 200"
        again.sendall(start.encode())
        until(lambda: again.recv(65_536) == b"", "the end of the second header")
        assert silent.recv(100) == b"" == header_only.recv(100)
        found = body.recv(65_536)
        assert found.startswith(b"HTTP/1.1 408 "), found
        assert it.gives("GET", "/rides") == []


class Connection:
    """A connection of no network, which says whether it is busy."""

    def __init__(self, busy=False):
        self.busy, self.is_closed, self.transport = busy, False, self

    def is_busy(self):
        return self.busy

    def close(self):
        self.is_closed = True


def test_the_connection_that_was_used_longest_ago_makes_room():
    from ridepool.desk.connections import Connections

    held = Connections(3, 2)
    first, second, third, fourth = (Connection() for _ in range(4))
    assert held.add(first, "a") and held.add(second, "a") and held.add(third, "b")
    held.used(first)
    assert held.add(fourth, "b") and [it.is_closed for it in (first, second, third)] == [False, True, False]
    assert list(held.open) == [third, first, fourth] and held.of_address == {"a": 1, "b": 2}
    third.busy = fourth.busy = first.busy = True
    assert not held.add(Connection(), "b") and not held.add(Connection(), "c")
    held.remove(first)
    assert held.add(Connection(), "c") and held.of_address == {"b": 2, "c": 1}


def test_a_call_that_is_sent_again_is_made_once(desk):
    with desk(*inputs(LINE)) as it:
        body, key = {"from": 2, "to": 4}, {"idempotency-key": "one"}
        first = it.call("POST", "/rides", body, headers=key)
        assert first == it.call("POST", "/rides", body, headers=key) and first[1]["ride"] == 1
        assert it.call("POST", "/rides", {"from": 3, "to": 4}, headers=key)[0] == 422
        assert it.call("POST", "/rides", body, headers={"idempotency-key": "x" * 201})[0] == 422
        assert it.call("POST", "/rides", body, headers={"idempotency-key": "two"})[1]["ride"] == 2
        refused = it.call("POST", "/vehicles/1/dropoff", {"ride": 1}, headers=key)
        assert refused[0] == 409 and refused == it.call("POST", "/vehicles/1/dropoff", {"ride": 1}, headers=key)
        found, calls = [], []
        for _ in range(20):
            calls.append(threading.Thread(target=lambda: found.append(
                it.call("POST", "/rides", body, headers={"idempotency-key": "all"})[1]["ride"])))
        for call in calls:
            call.start()
        for call in calls:
            call.join()
        assert found == [3] * 20 and len(it.gives("GET", "/rides")) == 3, found
