#!/usr/bin/env python3
"""Measures what a study of many tiny cells takes. Use: study_cells.py [CELLS [WORKERS]], 800 and 2 without words.

A scheduler and workers of one thread each run beside it, so that what is measured of the client is its own: the seconds by
the clock, its processor seconds, and its peak memory. The aims are 20 seconds and 150 MB for 800 cells with two workers,
and 300 processor seconds for 10,000 cells. The status is 1 where an aim of that many cells is missed.
"""

import json
import os
import pathlib
import subprocess
import sys
import tempfile
import time

TOP = pathlib.Path(__file__).resolve().parent.parent
CITY = """[city]
avenues = 4
streets = 8
requests = 5
seconds = 120

[all]
budget = 1

[[grid]]
vehicles = [1, 2]
seats = [1, 2, 4, 10]
wait = {waits}
"""
AIMS = {800: ("seconds", 20, "MB", 150), 10_000: ("processor seconds", 300)}


def cluster(folder, workers):
    """A scheduler with workers. Gives its address and the processes."""
    address, begun = folder / "scheduler.json", []
    for kind, words in [("scheduler", ["--host", "127.0.0.1", "--port", "0"])] + [("worker", ["--no-nanny", "--nthreads", "1"])] * workers:
        call = [sys.executable, "-m", f"distributed.cli.dask_{kind}", "--scheduler-file", address, "--no-dashboard", *words]
        begun.append(subprocess.Popen(call, cwd=folder, stdout=subprocess.DEVNULL, stderr=subprocess.DEVNULL))
        while not address.exists():
            if begun[-1].poll() is not None:
                sys.exit(f"{sys.executable} can't start a scheduler: it takes Dask's distributed")
            time.sleep(0.1)
    return json.loads(address.read_text())["address"], begun


def measure(folder, cells, address):
    """One study. Gives what it takes, by name."""
    (folder / "STUDY.toml").write_text(CITY.format(waits=list(range(1, cells // 8 + 1))))
    call = [sys.executable, TOP / "tools" / "study.py", folder / "STUDY.toml", folder / "out", f"cluster={address}"]
    begun = time.monotonic()
    with open(folder / "said", "wb") as said:
        process = subprocess.Popen(call, stdout=said, stderr=subprocess.STDOUT)
        _, status, used = os.wait4(process.pid, 0)
    took = time.monotonic() - begun
    last = (folder / "said").read_text().splitlines()[-1]
    if status or f"{cells} cells of " not in last:
        sys.exit(f"the study failed: {last}")
    return {"seconds": took, "processor seconds": used.ru_utime + used.ru_stime, "MB": used.ru_maxrss / 1024}


def main(cells=800, workers=2):
    """Measures, and compares with the aims."""
    with tempfile.TemporaryDirectory() as name:
        folder = pathlib.Path(name)
        address, begun = cluster(folder, workers)
        try:
            found = measure(folder, cells, address)
        finally:
            for process in begun:
                process.kill()
                process.wait()
    print(f"{cells} cells, {workers} workers: " + ", ".join(f"{value:.1f} {name}" for name, value in found.items()))
    aims = AIMS.get(cells, ())
    missed = [name for name, most in zip(aims[::2], aims[1::2]) if found[name] > most]
    if missed:
        sys.exit(f"missed: {', '.join(missed)}")


if __name__ == "__main__":
    main(*map(int, sys.argv[1:]))
