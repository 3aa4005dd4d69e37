#!/usr/bin/env python3
"""Times `ridepool live` over pipes.

    bench/live.py PROGRAM [SIZE]

Prints rows a second through one pipe; the median and the 99th percentile from a row to its answer, while no batch is
open and while one is solved; and the most memory that a long run took. SIZE is 1, or a part of it for a short look.
"""

import os
import random
import select
import shutil
import subprocess
import sys
import tempfile
import time
from pathlib import Path

TESTS = Path(__file__).resolve().parent.parent / "tests"
HEADER = "round,lane,command,a,b,c,d\n"
SIDE, VEHICLES, SEED = 30, 60, 5  # of the city whose batch takes a while


def street(folder):
    """Puts the files of five corners in a row and of one vehicle into the folder."""
    for name in ("network", "fleet"):
        shutil.copy(TESTS / "street" / f"{name}.csv", folder)


def made_city(folder):
    """Puts the files of a square network and its fleet into the folder. Gives how many nodes it has."""
    for name in ("network", "fleet"):
        sizes = map(str, (SEED, SIDE, VEHICLES, 0, 1))
        with open(folder / f"{name}.csv", "wb") as file:
            subprocess.run([sys.executable, TESTS / "made_texts.py", *sizes, name], stdout=file, check=True)
    return SIDE * SIDE


class Call:
    """A call of `live` on the folder's files, its pipes in hand."""

    def __init__(self, program, folder, *words, **more):
        named = [f"network={folder}/network.csv", f"fleet={folder}/fleet.csv"]
        self.process = subprocess.Popen([program, "live", *named, *words], stdin=subprocess.PIPE, **{"stdout": subprocess.PIPE, **more})

    def send(self, text):
        """Sends rows at once."""
        self.process.stdin.write(text.encode())
        self.process.stdin.flush()

    def read_until(self, ending):
        """Reads until what came ends so."""
        output, came = self.process.stdout.fileno(), b""
        while not came.endswith(ending):
            select.select([output], [], [])
            more = os.read(output, 1 << 16)
            assert more, f"the call ended behind {came[-80:]!r}"
            came = (came + more)[-1000:]

    def end(self):
        """Ends the input, and reads the rest."""
        self.process.stdin.close()
        self.process.stdout.read()
        assert self.process.wait() == 0, self.process.returncode


def reports(count, seal_every=0):
    """Rows of reports and cancels, with a seal after each so many."""
    for number in range(count):
        if seal_every and number % seal_every == seal_every - 1:
            yield f"0,0,seal,{number},,,\n"
        elif number % 2:
            yield f"0,0,cancel,{number % 1000},,,\n"
        else:
            yield f"0,0,report,1,{1 + number % 5},{number},\n"


def through_a_pipe(program, folder, rows):
    """Seconds and the most kilobytes of a run whose rows are written as fast as they are taken."""
    street(folder)
    call = Call(program, folder, stdout=subprocess.DEVNULL)
    start = time.monotonic()
    waiting = [HEADER]
    for row in rows:
        waiting.append(row)
        if len(waiting) == 1000:
            call.send("".join(waiting))
            waiting = []
    call.send("".join(waiting))
    call.process.stdin.close()
    _, status, used = os.wait4(call.process.pid, 0)
    assert status == 0, status
    return time.monotonic() - start, used.ru_maxrss


def answer_seconds(call, rows):
    """Seconds from each row to its answer's line, in order. The lines aren't read, so that little of the time is the client's
    own."""
    times = []
    for row in rows:
        start = time.monotonic()
        call.send(row)
        call.read_until(b"\n")
        times.append(time.monotonic() - start)
    return sorted(times)


def shown(name, times):
    """A line for times: how many, the median and the 99th percentile, in milliseconds."""
    middle, late = times[len(times) // 2], times[len(times) * 99 // 100]
    print(f"{name}: {len(times)} rows, median {1000 * middle:.3f} ms, 99th percentile {1000 * late:.3f} ms", flush=True)


def while_idle(program, folder, count):
    street(folder)
    call = Call(program, folder)
    call.send(HEADER + "0,0,cancel,1,,,\n")
    call.read_until(b" 0 cancel 1 refused unknown-rider\n")
    shown("while no batch is open", answer_seconds(call, reports(count)))
    call.end()


def while_solving(program, folder, count):
    nodes, rng = made_city(folder), random.Random(1)
    call = Call(program, folder, "wait=600", "delay=600", "trip=4", "budget=20", "pairs=400000", "workers=4")
    call.send(HEADER)
    call.send("".join(f"0,0,submit,{rider},{rng.randint(1, nodes // 2)},{rng.randint(nodes // 2 + 1, nodes)},0\n" for rider in range(1, 260)))
    call.send("0,0,seal,1,,,\n")
    call.read_until(b" 0 seal 1 sealed 1\n")
    times = answer_seconds(call, (f"0,{1 + number % 15},cancel,{1000 + number},,,\n" for number in range(count)))
    shown("while a batch is solved", times)
    call.end()


def main(program, size=1.0):
    program, size = str(Path(program).resolve()), float(size)
    with tempfile.TemporaryDirectory() as name:
        folder = Path(name)
        count = max(1, int(500_000 * size))
        seconds, _ = through_a_pipe(program, folder, reports(count))
        print(f"through one pipe: {count} rows, {count / seconds:.0f} rows a second", flush=True)
        while_idle(program, folder, max(100, int(5_000 * size)))
        while_solving(program, folder, max(100, int(200 * size)))
        count = max(1, int(1_000_000 * size))
        _, kilobytes = through_a_pipe(program, folder, reports(count, 1000))
        print(f"a long run: {count} rows with a seal every 1000, {kilobytes // 1024} MB at most", flush=True)


if __name__ == "__main__":
    main(*sys.argv[1:])
