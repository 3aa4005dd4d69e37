#!/usr/bin/env python3
"""How long the desk takes to open a day of many plans again.

    bench/desk_open.py [BATCHES [PROGRAM]]

A made day of so many batches (1,440 without a word), with a report of each of 500 vehicles and 40 riders in each, is printed
by `live`, which takes some minutes, and put into the folder of a day. Then the desk is opened with it. Prints the
transcript's lines and bytes, when the port answered first, when the desk was ready, and the peak memory of desk and
program. Run it by hand, where nothing else runs.
"""

import json
import pathlib
import random
import re
import subprocess
import sys
import tempfile
import time
import urllib.error
import urllib.request

TOP = pathlib.Path(__file__).resolve().parent.parent
SIDE, VEHICLES, RIDERS, APART = 40, 500, 40, 330  # nodes a side, vehicles, riders of a batch, seconds from batch to batch
BEGUN = re.compile(r"http://.*:(\d+) keeps its day|http://[^ ]*:(\d+)")


def made_inputs(folder, rng):
    """The files of network, nodes and fleet."""
    last = SIDE * SIDE
    arcs = []
    for node in range(last):
        for there in ([node + 1] if node % SIDE + 1 < SIDE else []) + ([node + SIDE] if node + SIDE < last else []):
            seconds = rng.randint(20, 60)
            arcs += [f"{node + 1},{there + 1},{seconds}", f"{there + 1},{node + 1},{seconds}"]
    texts = {
        "network": ["from,to,seconds", *arcs],
        "nodes": ["node,x,y,lon,lat,name", *(f"{it + 1},{100 * (it % SIDE)},{-100 * (it // SIDE)},,," for it in range(last))],
        "fleet": ["vehicle,seats,node,second", *(f"{it},4,{rng.randint(1, last)},0" for it in range(1, VEHICLES + 1))],
    }
    for name, lines in texts.items():
        (folder / f"{name}.csv").write_text("\n".join(lines) + "\n", encoding="ascii")
    return [f"{name}={folder}/{name}.csv" for name in texts]


def made_rows(batches, rng):
    """The rows of the day, in pieces."""
    last = SIDE * SIDE
    yield "round,lane,command,a,b,c,d\n"
    for batch in range(batches):
        now = APART * batch
        lines = [f"{batch},0,report,{it},{rng.randint(1, last)},{now}," for it in range(1, VEHICLES + 1)]
        lines += [f"{batch},0,submit,{RIDERS * batch + it},{rng.randint(1, last)},{rng.randint(1, last)},{now}" for it in range(1, RIDERS + 1)]
        yield "\n".join([*lines, f"{batch},0,seal,{now + 20},,,"]) + "\n"


def opened(words):
    """A desk that was started now, its port, and the seconds until it is ready to be asked and until its day is open."""
    start = time.monotonic()
    desk = subprocess.Popen([sys.executable, TOP / "tools" / "desk.py", *words, "port=0"], stderr=subprocess.PIPE, text=True)
    port = answered = None
    for line in desk.stderr:
        found = BEGUN.search(line)
        if found:
            port = int(found[1] or found[2])
            break
    if port is None:
        sys.exit("the desk ended")
    while True:
        try:
            with urllib.request.urlopen(f"http://127.0.0.1:{port}/health") as answer:
                text = answer.read().decode()
                status = answer.status
        except urllib.error.HTTPError as fault:
            text, status = fault.read().decode(), fault.code
        answered = answered or time.monotonic() - start
        if status == 200:
            return desk, answered, time.monotonic() - start, text
        time.sleep(0.02)


def peaks(desk):
    """The peak memory in megabytes of the desk and of the programs below it."""
    found = subprocess.run(["pgrep", "-P", str(desk.pid)], capture_output=True, text=True, check=False).stdout.split()
    status = [pathlib.Path(f"/proc/{it}/status").read_text(encoding="ascii") for it in (desk.pid, *found)]
    return [int(re.search(r"VmHWM:\s*(\d+)", it)[1]) // 1024 for it in status]


def close(desk):
    """Ends a desk."""
    desk.terminate()
    desk.stderr.close()
    desk.wait()


def main():
    """Makes the day, and opens it."""
    batches = int(sys.argv[1]) if len(sys.argv) > 1 else 1440
    program = sys.argv[2] if len(sys.argv) > 2 else TOP / "ridepool"
    rng = random.Random(1)
    with tempfile.TemporaryDirectory() as place:
        folder = pathlib.Path(place)
        words = [*made_inputs(folder, rng), f"day={folder}/day", "every=0", "wait=300", "delay=600"]
        desk, *_ = opened(words)
        close(desk)
        day = folder / "day"
        about = json.loads((day / "day.json").read_text(encoding="utf-8"))
        live = [program, "live", *(f"{it}={day}/{it}.csv" for it in ("network", "fleet")), *about["settings"]]
        with open(day / "transcript", "wb") as out:
            process = subprocess.Popen(live, stdin=subprocess.PIPE, stdout=out, text=True)
            with process.stdin as rows:
                for piece in made_rows(batches, rng):
                    rows.write(piece)
        if process.wait():
            sys.exit("live failed")
        (day / "day.json").write_text(json.dumps({**about, "began": time.time() - APART * batches}), encoding="utf-8")
        text = (day / "transcript").read_bytes()
        print(f"{text.count(10):,} lines, {len(text):,} bytes, {text.count(b' closed')} words closed", flush=True)
        desk, answered, ready, said = opened(words)
        print(f"the port answered after {answered:.1f} s, and the day was open after {ready:.1f} s; MB at most {peaks(desk)}")
        print(said)
        close(desk)


if __name__ == "__main__":
    main()
