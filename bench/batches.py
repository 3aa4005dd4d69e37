#!/usr/bin/env python3
"""What made batches take, and how near their bounds are, by one program or by several in turn.

    bench/batches.py size|city|bound|NAME [repeat=N] [workers=N] [NAME=PROGRAM ..]

`size` has batches by their size, `city` twenty batches in cities of 2,500 to 57,600 nodes, `bound` the hard batches; a NAME of
one workload takes that one alone. Each program runs each workload, in turn and as often as `repeat` says (once). Without a
program it is the release. Prints a line of a table for each workload and program: rows of each batch, bound, cost and gap, the
least user seconds and seconds by the clock of the whole run, and its peak memory. Later batches rest on the plans of those before.
"""

import os
import pathlib
import subprocess
import sys
import tempfile
import time

TOP = pathlib.Path(__file__).resolve().parent.parent
SIZE = {
    "W1": "seed=7",
    "W2": "seed=7 vehicles=500 riders=250 rounds=3",
    "W3": "seed=7 vehicles=100 riders=250 rounds=3",
    "W6": "seed=7 vehicles=40 riders=150 rounds=3 wait=240 delay=240",
    "W7": "seed=7 vehicles=500 riders=250 rounds=3 trip=6 wait=300 delay=300 pairs=2000000",
    "W8": "seed=7 side=100 vehicles=500 riders=250 rounds=2",
    "W9": "seed=7 trip=6",
    "W10": "seed=7 side=10 vehicles=20 riders=100 rounds=3 wait=180 delay=240",
}
CITY = {f"side {side}": side for side in (50, 100, 150, 240)}
CITY_WORDS, CITY_SHAPE = ("wait=300", "delay=300"), (7, 500, 500, 20)  # seed, vehicles, riders a batch, batches
HARD = {
    "A": "side=10 vehicles=50 riders=150 rounds=3 pairs=2000000",
    "B": "vehicles=100 riders=150 rounds=3 wait=300 delay=300 pairs=2000000",
    "C": "vehicles=500 riders=250 rounds=3 trip=6 wait=300 delay=300 pairs=2000000",
    "D": "vehicles=500 riders=1000 rounds=1 wait=150 delay=200 pairs=2000000",
    "E": "side=40 vehicles=500 riders=1000 rounds=1 wait=240 delay=300 pairs=2000000",
}
HEAVY = (
    "seed=7 vehicles=500 wait=220 delay=300", "seed=7 vehicles=200 wait=190 delay=280", "seed=7 vehicles=200 wait=180 delay=260",
    "seed=7 vehicles=250 wait=190 delay=270", "seed=7 vehicles=300 wait=200 delay=280", "seed=7 vehicles=400 wait=190 delay=260",
    "seed=11 vehicles=200 wait=180 delay=260", "seed=7 vehicles=300 wait=180 delay=240", "seed=7 vehicles=500 wait=210 delay=290",
    "seed=7 vehicles=500 wait=200 delay=280",
)
BOUND = {**{f"{name}, seed {seed}": f"seed={seed} {words}" for name, words in HARD.items() for seed in (7, 11, 23)},
         **{f"H{at}": f"riders=1000 rounds=1 pairs=2000000 {words}" for at, words in enumerate(HEAVY, 1)}}
GROUPS = {"size": SIZE, "city": CITY, "bound": BOUND}


def call_of(name, folder, workers):
    """The words of a workload, after its files were made where it has some."""
    if name not in CITY:
        return ["load", *{**SIZE, **BOUND}[name].split(), f"workers={workers}"]
    seed, vehicles, riders, rounds = CITY_SHAPE
    words = []
    for kind in ("network", "fleet", "script"):
        path = folder / f"{kind}.csv"
        given = map(str, (TOP / "tests" / "made_texts.py", seed, CITY[name], vehicles, riders, rounds, kind))
        path.write_bytes(subprocess.run([sys.executable, *given], stdout=subprocess.PIPE, check=True).stdout)
        words.append(f"{kind}={path}")
    return ["run", *words, *CITY_WORDS, f"workers={workers}"]


def run(program, words, out):
    """One run. Gives its user seconds, its seconds by the clock and its peak memory in megabytes."""
    begun = time.monotonic()
    process = subprocess.Popen([program, *words], stdout=out)
    _, status, used = os.wait4(process.pid, 0)
    if status:
        sys.exit(f"{program} {' '.join(words)}: status {status}")
    return used.ru_utime, time.monotonic() - begun, used.ru_maxrss / 1024


def batches_of(text):
    """Rows, bound and cost of each batch of a summary or of a report."""
    found, rows, values = [], 0, {}
    for line in text.splitlines():
        words = line.split(" ")
        if words[0] == "batch" and len(words) > 2 and words[2] == "served":
            values = dict(zip(words[2::2], words[3::2]))
            found.append(tuple(int(values[name]) for name in ("rows", "bound", "cost")))
        elif words[0] == "row":
            rows += 1
        elif words[0] in ("bound", "cost") and len(words) == 2:
            values[words[0]] = words[1]
        elif line == "end" and "cost" in values:
            found.append((rows, int(values["bound"]), int(values["cost"])))
            rows, values = 0, {}
    return found


def measure(name, programs, repeat, workers, folder):
    """A workload by all programs. Prints their lines."""
    words, least, found = call_of(name, folder, workers), {}, {}
    for _ in range(repeat):
        for title, program in programs.items():
            with open(folder / "out", "wb") as out:
                took = run(program, words, out)
            found[title] = batches_of((folder / "out").read_text(encoding="ascii"))
            least[title] = tuple(map(min, zip(took, least.get(title, took))))
    if len({tuple(rows for rows, _, _ in batches) for batches in found.values() if name not in CITY}) > 1:
        print(f"{name}: the programs' later batches differ, as their plans do", file=sys.stderr)
    for title, batches in found.items():
        shown = batches if len(batches) < 4 else [tuple(map(sum, zip(*batches)))]
        gaps = ", ".join(f"{100 * (cost - bound) / max(1, cost):.2f} %" for _, bound, cost in shown)
        columns = [", ".join(str(it[at]) for it in shown) for at in range(3)]
        user, clock, memory = least[title]
        print(f"| {name} | {title} | {' | '.join(columns)} | {gaps} | {user:.2f}, {clock:.2f} | {memory:.0f} MB |", flush=True)


def main():
    """Measures what the words name."""
    names, values = [it for it in sys.argv[1:] if "=" not in it], dict(it.split("=", 1) for it in sys.argv[1:] if "=" in it)
    repeat, workers = int(values.pop("repeat", 1)), int(values.pop("workers", 1))
    programs = values or {"release": str(TOP / "release" / "ridepool_program")}
    known = {**SIZE, **CITY, **BOUND}
    chosen = [it for name in names for it in GROUPS.get(name, [name])]
    if not chosen or any(it not in known for it in chosen):
        sys.exit(f"use: {pathlib.Path(sys.argv[0]).name} size|city|bound|NAME [repeat=N] [workers=N] [NAME=PROGRAM ..]")
    print("| workload | program | rows | bound | cost | gap | user seconds, by the clock | memory |\n|---|---|---|---|---|---|---|---|")
    with tempfile.TemporaryDirectory() as place:
        for name in chosen:
            measure(name, programs, repeat, workers, pathlib.Path(place))


if __name__ == "__main__":
    main()
