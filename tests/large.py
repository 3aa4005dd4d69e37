"""Judges reports of networks, fleets and batches that are too large for drawn.py, by growth.py.

    large.py PROGRAM [NAME ..]

The town's day, driven and run; the texts of `load` at its defaults; workloads whose trees branch or whose budget is spent;
drawn workloads and driven days of some hundred nodes. Each is run with proof=1 and judged: the graphs, each chosen trip,
the sum of costs, and the bound from the printed tree. The notices have to be those of the plans. Without the tree the
program has to print the same other lines, and `load` the summary of them. The last line is `N passed, M failed`, by reports.
"""

import multiprocessing
import os
import random
import subprocess
import sys
import tempfile
from dataclasses import dataclass, field
from itertools import zip_longest
from pathlib import Path
from typing import Dict, List, Optional, Sequence

from drawn import MadeWorkload, output_of, summary_of
from failing_parts.shared import notices_in
from growth import LargeRun
from judge import Wrong, judge

TOWN = Path(__file__).resolve().parent.parent / "examples" / "town"
FILES = ("network", "fleet", "script")
DRAWN = 12  # workloads and days that are drawn
Shape = List[int]  # seed, side, vehicles, riders, rounds


@dataclass
class Given:
    """What a run is given: its command, its texts by name, and its settings. Of a made workload also the shape."""

    name: str
    command: str
    texts: Dict[str, str]
    settings: List[str] = field(default_factory=list)
    shape: Shape = field(default_factory=list)

    def words(self, *more: str) -> List[str]:
        return [self.command, *(f"{name}={name}.csv" for name in FILES), *self.settings, *more]

    def load_words(self) -> List[str]:
        names = "seed side vehicles riders rounds".split()
        return ["load", *(f"{name}={value}" for name, value in zip(names, self.shape)), *self.settings]


def town(command: str) -> Given:
    texts = {name: (TOWN / f"{name}.csv").read_text() for name in FILES}
    return Given(f"town-{command}", command, texts)


def workload(name: str, shape: Shape, *settings: str) -> Given:
    made = MadeWorkload(shape[0], shape).files
    return Given(name, "run", {key: made[f"{key}.csv"] for key in FILES}, list(settings), shape)


def day(name: str, shape: Shape, *settings: str) -> Given:
    """A made workload without its reports, driven."""
    given = workload(name, shape, *settings)
    rows = given.texts["script"].splitlines(keepends=True)
    given.texts["script"] = "".join(row for row in rows if ",report," not in row)
    return Given(name, "drive", given.texts, list(settings))


def drawn(seed: int) -> Given:
    """A workload or a day that is drawn by a seed."""
    rng = random.Random(seed)
    shape = [seed, rng.randint(5, 12), rng.randint(2, 12), rng.randint(5, 25), rng.randint(2, 4)]
    choices = {"wait": [120, 200, 300], "delay": [120, 180, 300], "trip": [2, 3, 4, 6], "budget": [1, 7, 200]}
    settings = [f"{key}={rng.choice(of)}" for key, of in choices.items()]
    settings += rng.choice([[], ["dwell=15"], ["penalty=300"], ["times=labels"], ["workers=1"]])
    make = day if seed % 2 else workload
    return make(f"seed-{seed}", shape, *settings)


def all_given() -> List[Given]:
    return [
        town("drive"),
        town("run"),
        workload("load", [1, 20, 100, 150, 4]),
        workload("branches", [5, 20, 30, 80, 3], "wait=240", "delay=240"),
        workload("spent", [7, 10, 10, 40, 3], "wait=240", "delay=240", "budget=5"),
        day("day", [3, 15, 25, 30, 4], "dwell=10", "times=labels"),
        *map(drawn, range(1, DRAWN + 1)),
    ]


def but_for_order(report: str) -> List[str]:
    """The lines of a report without its trees. Entries of several lanes may come in any order: they stand behind, sorted
    and without their places."""
    entries, others = [], []
    for line in report.replace(" proof=1", " proof=0").split("\n"):
        word, _, rest = line.partition(" ")
        if word.isdigit():
            entries.append(rest)
        elif word not in ("branch", "leaf", "dead"):
            others.append(line)
    return others + sorted(entries)


def compare(what: str, wanted: Sequence[str], got: Sequence[str]) -> None:
    """Raises Wrong where the lines aren't those that are wanted, and shows the first that differs."""
    for one, other in zip_longest(wanted, got):
        if one != other:
            raise Wrong(f"{what} has {other!r} where {one!r} should stand")


def try_given(program: str, given: Given) -> None:
    """Raises Wrong where what the program prints isn't right."""
    with tempfile.TemporaryDirectory() as name:
        folder = Path(name)
        for key, text in given.texts.items():
            (folder / f"{key}.csv").write_text(text)
        report = output_of(program, given.words("proof=1", "notices=notices"), folder)
        judge(LargeRun(folder, given.words("proof=1")), report)
        notices = (folder / "notices").read_text()
        compare("the file of notices", notices_in(report).split("\n"), notices.split("\n"))
        plain = output_of(program, given.words(), folder)
        compare("the report without trees", but_for_order(report), but_for_order(plain))
        if given.shape:
            summary = output_of(program, given.load_words(), folder)
            compare("the summary", summary_of(given.load_words(), report).split("\n"), summary.split("\n"))


def fault(program: str, given: Given) -> Optional[str]:
    """Why what the program prints is wrong, if it is."""
    try:
        try_given(program, given)
    except (Wrong, subprocess.TimeoutExpired) as wrong:
        return str(wrong)
    return None


def main() -> int:
    if len(sys.argv) < 2:
        sys.exit(__doc__)
    program, names = os.path.abspath(sys.argv[1]), sys.argv[2:]
    chosen = [it for it in all_given() if not names or it.name in names]
    with multiprocessing.Pool(len(os.sched_getaffinity(0))) as pool:
        faults = pool.starmap(fault, [(program, it) for it in chosen], chunksize=1)
    for given, why in zip(chosen, faults):
        if why:
            print(f"{given.name}: {why}")
    failed = sum(why is not None for why in faults) or not chosen
    print(f"{len(chosen) - failed if chosen else 0} passed, {int(failed)} failed")
    return failed != 0


if __name__ == "__main__":
    sys.exit(main())
