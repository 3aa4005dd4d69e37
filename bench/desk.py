#!/usr/bin/env python3
"""How many calls a second the desk answers, and how long they take, over kept connections.

    bench/desk.py [clients=8] [seconds=10] [rides=3000] [words of the desk]

Opens a desk on a made square of 30 nodes a side with 500 vehicles, has rides asked for, and lets so many clients, each a
process, call it without a pause: GETs of a ride, GETs of a list of 1,000 rides beside GETs of /health, and commands; each
once while no batch is open, and the first and the last once more while batches are solved. Prints a table for bench/README.md.
At least 100 rides are needed. Run it by hand, where nothing else runs.
"""

import http.client
import itertools
import json
import multiprocessing
import pathlib
import re
import subprocess
import sys
import tempfile
import threading
import time

TOP = pathlib.Path(__file__).resolve().parent.parent
SIDE, VEHICLES = 30, 500
ROWS = (("GET /rides/N", "ride", False), ("GET /health", "list", False), ("commands", "command", False),
        ("GET /rides/N", "ride", True), ("commands", "command", True))


def made_inputs(folder):
    """The words that name the network, the nodes and the fleet."""
    last = SIDE * SIDE
    rows = [(n, m) for n in range(1, last + 1) for m in (n + 1, n + SIDE) if m <= last and (m == n + SIDE or n % SIDE)]
    texts = {
        "network": "from,to,seconds\n" + "".join(f"{a},{b},40\n{b},{a},40\n" for a, b in rows),
        "nodes": "node,x,y,lon,lat,name\n" + "".join(f"{n},{100 * ((n - 1) % SIDE)},{-100 * ((n - 1) // SIDE)},,,\n"
                                                     for n in range(1, last + 1)),
        "fleet": "vehicle,seats,node,second\n" + "".join(f"{v},4,{v},0\n" for v in range(1, VEHICLES + 1)),
    }
    for name, text in texts.items():
        (folder / f"{name}.csv").write_text(text, encoding="ascii")
    return [f"{name}={folder}/{name}.csv" for name in texts]


class Caller:
    """A kept connection to the desk."""

    def __init__(self, port):
        self.connection = http.client.HTTPConnection("127.0.0.1", port)

    def call(self, method, path, body=None):
        """A call. Gives its answer."""
        headers = {"content-type": "application/json"} if body is not None else {}
        self.connection.request(method, path, None if body is None else json.dumps(body), headers)
        answer = self.connection.getresponse()
        return answer.status, answer.read()


def client(port, number, kind, seconds, out):
    """A client. Gives the seconds that each of its calls took."""
    caller, took, end = Caller(port), [], time.monotonic() + seconds
    for turn in itertools.count():
        began = time.monotonic()
        if began > end:
            break
        if kind == "ride":
            status, _ = caller.call("GET", f"/rides/{1 + turn % 100}")
        elif kind == "list" and number == 0:
            status, _ = caller.call("GET", "/rides?limit=1000")
        elif kind == "list":
            status, _ = caller.call("GET", "/health")
        else:
            vehicle = 1 + (number * 60 + turn) % VEHICLES
            status, _ = caller.call("POST", f"/vehicles/{vehicle}/position", {"node": 1 + turn % 900})
        assert status in (200, 409), status
        if not (kind == "list" and number == 0):
            took.append(time.monotonic() - began)
    out.put(took)


def measured(port, kind, clients, seconds):
    """Calls a second, and the median, the 99th percentile and the longest in milliseconds."""
    out = multiprocessing.Queue()
    children = [multiprocessing.Process(target=client, args=(port, it, kind, seconds, out)) for it in range(clients)]
    for child in children:
        child.start()
    took = sorted(it for _ in children for it in out.get())
    for child in children:
        child.join()
    return len(took) / seconds, *(1000 * took[min(len(took) - 1, len(took) * share // 100)] for share in (50, 99)), 1000 * took[-1]


def keep_solving(port, stop):
    """Seals a batch as soon as the one before is closed."""
    caller = Caller(port)
    while not stop.is_set():
        caller.call("POST", "/seal")
        time.sleep(0.05)


def measure(port, clients, seconds, rides):
    """Asks for the rides, of which 800 at most wait at once, and prints a row for each kind of calls."""
    caller = Caller(port)
    for number in range(rides):
        caller.call("POST", "/rides", {"from": 1 + number % 899, "to": 900})
        if number >= 800:
            caller.call("DELETE", f"/rides/{number - 799}")
    print("| calls | meanwhile | a second | median, ms | 99 %, ms | longest, ms |\n|---|---|---|---|---|---|")
    for name, kind, is_solving in ROWS:
        stop = threading.Event()
        solving = threading.Thread(target=keep_solving, args=(port, stop))
        if is_solving:
            solving.start()
        row = measured(port, kind, clients, seconds)
        stop.set()
        if is_solving:
            solving.join()
        meanwhile = "batches are solved" if is_solving else "lists of 1,000 rides" if kind == "list" else "nothing"
        print(f"| {name} | {meanwhile} | {row[0]:,.0f} | {row[1]:.1f} | {row[2]:.1f} | {row[3]:.1f} |", flush=True)


def main():
    """Measures, and prints the table."""
    values = dict(word.split("=", 1) for word in sys.argv[1:])
    clients, seconds, rides = (int(values.pop(*it)) for it in (("clients", 8), ("seconds", 10), ("rides", 3000)))
    with tempfile.TemporaryDirectory() as place:
        words = [*made_inputs(pathlib.Path(place)), f"day={place}/day", "port=0", "every=0", "wait=7200", "delay=7200", "trip=1",
                 *(f"{key}={value}" for key, value in values.items())]
        desk = subprocess.Popen([sys.executable, TOP / "tools" / "desk.py", *words], stderr=subprocess.PIPE, text=True)
        port = next(int(found[1]) for line in desk.stderr if (found := re.search(r"http://.*:(\d+) keeps its day", line)))
        threading.Thread(target=desk.stderr.read, daemon=True).start()
        try:
            measure(port, clients, seconds, rides)
        finally:
            desk.terminate()
            desk.wait()


if __name__ == "__main__":
    main()
