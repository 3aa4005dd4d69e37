"""The assignment search on made workloads: ridepool alone, or beside a native search program on the same graphs.

    bench/search.py [native=PROGRAM] [ridepool=PROGRAM] [seed=N] [repeat=N] [NAME ..]

Makes each workload's files by tests/made_texts.py, runs ridepool on them (the proved program, by release/find, unless one is
named), and prints a line for each batch: rows, bound, cost, gap in percent of the cost, nodes; then the user seconds of the
whole run, the least of the repeats. Without a NAME it takes all workloads of the table below; `seed` takes another seed for
those of seed 7.

With `native`, that program is run on the graph of each batch as `PROGRAM FILE`, in turn with ridepool, and what it prints is
shown behind: its last line has `bound N`, `cost N` and `nodes N`. FILE holds, in the machine's byte order, five 64-bit numbers
(vehicles, riders, penalty, rows, riders of all rows), 32-bit starts of the vehicles' rows and their end, 64-bit costs of the
rows, 32-bit starts of the rows' riders and their end, 16-bit riders, and a byte for each rider: 1 for one who must be served.
Riders of a graph are those whom the plan picks and those who are out; who was picked by an earlier plan and isn't listed as
lapsed must be served, which is right for days without cancels, as made days are.
"""

import array
import os
import re
import resource
import struct
import subprocess
import sys
import tempfile

HERE = os.path.dirname(os.path.abspath(__file__))
SHAPE = {"seed": 7, "side": 20, "vehicles": 100, "riders": 150, "rounds": 4}
WORKLOADS = {
    "default": "",
    "500 vehicles": "vehicles=500 riders=250 rounds=3",
    "100 vehicles": "vehicles=100 riders=250 rounds=3",
    "50 vehicles, side 10": "side=10 vehicles=50 riders=150 rounds=3",
    "100 vehicles, wide": "rounds=3 wait=300 delay=300",
    "40 vehicles, wide": "vehicles=40 riders=150 rounds=3 wait=240 delay=240",
    "500 vehicles, trips of six": "vehicles=500 riders=250 rounds=3 trip=6 wait=300 delay=300 pairs=2000000",
    "side 100": "side=100 vehicles=500 riders=250 rounds=2",
    "trips of six": "trip=6",
    "20 vehicles, side 10": "side=10 vehicles=20 riders=100 rounds=3 wait=180 delay=240",
    "1000 riders": "seed=1 vehicles=500 riders=1000 rounds=1 wait=150 delay=200",
}


def timed(command, folder):
    """What a command prints, and its user seconds."""
    before = resource.getrusage(resource.RUSAGE_CHILDREN).ru_utime
    run = subprocess.run(command, cwd=folder, stdout=subprocess.PIPE, text=True)
    if run.returncode != 0:
        sys.exit(f"{command[0]} ended with status {run.returncode}")
    return run.stdout, resource.getrusage(resource.RUSAGE_CHILDREN).ru_utime - before


def make_files(shape, folder):
    sizes = [str(shape[word]) for word in SHAPE]
    for text in ("network", "fleet", "script"):
        maker = [sys.executable, os.path.join(HERE, "..", "tests", "made_texts.py"), *sizes, text]
        with open(os.path.join(folder, text), "wb") as file:
            subprocess.run(maker, stdout=file, check=True)


def batches(report):
    """The batches of a report that were closed with a plan."""
    penalty, promised, batch = 0, set(), None
    for line in report.splitlines():
        word, *fields = line.split() or [""]
        if word == "settings":
            penalty = int(dict(field.split("=") for field in fields)["penalty"])
        elif word == "batch":
            batch = {"number": fields[0], "penalty": penalty, "rows": [], "picked": [], "out": [], "lapsed": set()}
        elif word == "overflow":
            batch = None
        elif batch is None:
            continue
        elif word == "row":
            batch["rows"].append((int(fields[0]), int(fields[1]), [int(rider) for rider in fields[2:]]))
        elif word == "trip":
            batch["picked"] += [int(stop[5:].split("@")[0]) for stop in fields[2:] if stop.startswith("pick:")]
        elif word == "out":
            batch["out"].append(int(fields[0]))
        elif word == "lapsed":
            batch["lapsed"].add(int(fields[0]))
        elif word in ("cost", "bound", "nodes"):
            batch[word] = int(fields[0])
        elif word == "end":
            batch["must"] = promised - batch["lapsed"]
            promised = batch["must"] | set(batch["picked"])
            yield batch
            batch = None


def write_graph(batch, name):
    riders = sorted(set(batch["picked"]) | set(batch["out"]))
    number = {rider: place for place, rider in enumerate(riders)}
    vehicles = sorted({row[0] for row in batch["rows"]})
    costs, starts, members = array.array("q"), array.array("I", [0]), array.array("H")
    first, last = array.array("I"), None
    for vehicle, cost, trip in sorted(batch["rows"], key=lambda row: row[0]):
        if vehicle != last:
            first.append(len(costs))
            last = vehicle
        costs.append(cost)
        members.extend(number[rider] for rider in trip)
        starts.append(len(members))
    first.append(len(costs))
    with open(name, "wb") as file:
        file.write(struct.pack("5Q", len(vehicles), len(riders), batch["penalty"], len(costs), len(members)))
        for numbers in (first, costs, starts, members):
            numbers.tofile(file)
        file.write(bytes(rider in batch["must"] for rider in riders))


def measure(name, words, seed, native, ridepool, repeat):
    shape, others = dict(SHAPE), []
    for word in words.split():
        key, value = word.split("=")
        if key in shape:
            shape[key] = int(value)
        else:
            others.append(word)
    if "seed=" not in words:
        shape["seed"] = seed
    with tempfile.TemporaryDirectory() as folder:
        make_files(shape, folder)
        run = [ridepool, "run", "network=network", "fleet=fleet", "script=script", *others]
        report, seconds = timed(run, folder)
        found = list(batches(report))
        theirs = [("", 0.0)] * len(found)
        if native:
            for place, batch in enumerate(found):
                write_graph(batch, os.path.join(folder, batch["number"]))
        for turn in range(repeat):
            if turn > 0:
                seconds = min(seconds, timed(run, folder)[1])
            if native:
                for place, batch in enumerate(found):
                    text, used = timed([native, batch["number"]], folder)
                    if turn == 0 or used < theirs[place][1]:
                        theirs[place] = (text.splitlines()[-1], used)
    print(f"{name}: seed {shape['seed']}, {seconds:.2f} user seconds of the whole run")
    for batch, (line, used) in zip(found, theirs):
        print(f"  batch {batch['number']}: {len(batch['rows'])} rows, {shown(batch)}", end="")
        if native:
            other = {word: int(re.search(word + r" +(-?\d+)", line)[1]) for word in ("bound", "cost", "nodes")}
            print(f" | native: {shown(other)}, {used:.3f} s", end="")
        print(flush=True)


def shown(batch):
    gap = 100 * (batch["cost"] - batch["bound"]) / max(1, batch["cost"])
    return f"bound {batch['bound']}, cost {batch['cost']}, gap {gap:.3f} %, nodes {batch['nodes']}"


def main():
    words = dict(word.split("=", 1) for word in sys.argv[1:] if "=" in word)
    names = [word for word in sys.argv[1:] if "=" not in word] or list(WORKLOADS)
    native = os.path.abspath(words["native"]) if "native" in words else None
    ridepool = words.get("ridepool")
    if ridepool is None:
        find = os.path.join(HERE, "..", "release", "find")
        ridepool = subprocess.run([find], stdout=subprocess.PIPE, text=True, check=True).stdout.strip()
    for name in names:
        measure(
            name, WORKLOADS[name], int(words.get("seed", "7")), native, os.path.abspath(ridepool), int(words.get("repeat", "1"))
        )


if __name__ == "__main__":
    main()
