"""Drives one day for each combination of settings, on as many processors and machines as there are.

Dask shares the days among the processors of this machine, or among the workers of a running dask-scheduler.
Days that were driven are kept, so the same call goes on where it stopped.
"""

from __future__ import annotations

import contextlib
import errno
import logging
import os
import pathlib
import signal
import sys
import tempfile
import time
import warnings
import zlib
from typing import TYPE_CHECKING, Any, Dict, Iterator, List, Mapping, Optional, Sequence, Tuple, Union

from ridepool import program
from ridepool.inputs import tables
from ridepool.days.one_day import Stopped, Task
from ridepool.study.kept import held
from ridepool.words import Fault, need, number, run_tool, split_words

if TYPE_CHECKING:  # what these need may be missing until the tool asks for it
    from ridepool.study.ground import Ground
    from ridepool.study.kept import Kept
    from ridepool.study.plan import Cell, Plan
    from ridepool.study.table import Table
    from ridepool.study.workers import Outcome, Workers

USAGE = "use: %(prog)s STUDY.toml OUT/ [cluster=ADDRESS] [processors=] [limit=] [timed=] [program=]"
WORDS = ("cluster", "processors", "limit", "timed", "program")
BAR = 30
CLOSE_SECONDS = 5
FULL = (errno.ENOSPC, errno.EDQUOT)
Row = Dict[str, Any]
Known = Union[Dict[str, Any], str]  # a day's facts, or why it has none


def is_city(cell: Cell) -> bool:
    """Whether the riders of a cell go from fleet to fleet, so that its fleets are planned side by side."""
    return cell.fleets > 1 and cell.split == "nearest"


def tasks_of(cell: Cell, ground: Ground, limit: Optional[int], timed: bool) -> List[Task]:
    """The days of a cell as tasks."""
    from ridepool.study.plan import OF_THE_CALL

    words = tuple(f"{name}={getattr(cell, name)}" for name in OF_THE_CALL)
    if is_city(cell):
        fleets, script, direct = ground.city(cell)
        return [Task("", script, words, dict(enumerate(direct, 1)), limit, False, fleets)]
    return [Task(fleet, script, words, dict(enumerate(direct, 1)), limit, timed)
            for fleet, script, direct in ground.days(cell)]


@contextlib.contextmanager
def without_interrupt() -> Iterator[None]:
    """What is started here doesn't end by Ctrl-C: the study itself ends it, so that one line is said and no other."""
    handler = signal.signal(signal.SIGINT, signal.SIG_IGN)
    try:
        yield
    finally:
        signal.signal(signal.SIGINT, handler)


def quiet() -> None:
    """What Dask warns of is not shown, nor what it says of its connections to those that died."""
    os.environ.setdefault("PYTHONWARNINGS", "ignore")
    warnings.simplefilter("ignore")
    own = [name for name in logging.root.manager.loggerDict if name.startswith("distributed.")]
    for name in ("asyncio", "distributed", "tornado", *own):  # Dask gives some of its parts a level of their own
        logging.getLogger(name).setLevel(logging.CRITICAL + 1)


@contextlib.contextmanager
def client_of(values: Mapping[str, str]) -> Iterator[Any]:
    """A client of the named cluster, or of one of this machine's processors."""
    from distributed import Client, LocalCluster

    quiet()
    if "cluster" in values:
        try:
            client = Client(values["cluster"], timeout=10)
        except (OSError, ValueError) as fault:
            raise Fault(f"cluster={values['cluster']}: {fault}") from None
        with closing(client):
            yield client
        return
    count = number(values, "processors", 1, 1024, len(os.sched_getaffinity(0)))
    with tempfile.TemporaryDirectory(prefix="ridepool-study-") as folder:
        with without_interrupt():
            cluster = LocalCluster(n_workers=count, threads_per_worker=1, memory_limit=None, dashboard_address=None,
                                   local_directory=folder, silence_logs=logging.CRITICAL)
        with closing(cluster), closing(Client(cluster)) as client:
            yield client


@contextlib.contextmanager
def closing(it: Any) -> Iterator[Any]:
    """Closes a client or a cluster, whatever became of it."""
    quiet()
    try:
        yield it
    finally:
        with without_interrupt(), contextlib.suppress(Exception):
            it.close(timeout=CLOSE_SECONDS)


class Progress:
    """Says what is done: a line for each cell, and on a terminal a bar with what is left."""

    def __init__(self, days: int) -> None:
        self.left, self.all, self.begun = days, days, time.monotonic()
        self.shown = sys.stderr.isatty()

    def bar(self) -> str:
        """The bar, and how long what is left may take if it goes on as so far."""
        done = self.all - self.left
        full = BAR * done // max(1, self.all)
        took = time.monotonic() - self.begun
        left = f", about {took / done * self.left / 60:.0f} minutes left" if done else ""
        return f"[{'#' * full}{'.' * (BAR - full)}] {done} of {self.all} days{left}"

    def show(self) -> None:
        """Draws the bar anew."""
        if self.shown:
            print(f"\r\033[K{self.bar()}", end="", file=sys.stderr, flush=True)

    def hide(self) -> None:
        """Takes the bar away."""
        if self.shown:
            print("\r\033[K", end="", file=sys.stderr, flush=True)

    def day(self) -> None:
        """A day is done."""
        self.left -= 1
        self.show()

    def say(self, text: str) -> None:
        """A line above the bar."""
        self.hide()
        print(text, flush=True)
        self.show()


class Study:
    """The cells of a study, and what is known of their days. A cell whose days are all known has a row."""

    def __init__(self, plan: Plan, ground: Ground, kept: Kept, limit: Optional[int], timed: bool = False) -> None:
        from ridepool.study.plan import Cell

        self.kept, self.ground, self.limit, self.timed = kept, ground, limit, timed
        self.varied = [name for name in Cell._fields if len({getattr(cell, name) for cell in plan.cells}) > 1]
        self.cells = plan.cells
        self.days: Dict[Cell, List[str]] = {}
        self.rows: Dict[Cell, Row] = {}
        self.known: Dict[str, Optional[Known]] = {}
        self.of: Dict[str, List[Tuple[Cell, int]]] = {}
        for cell in self.cells:
            self.look(cell)

    def look(self, cell: Cell) -> None:
        """Looks which days of a cell are kept."""
        keys = self.days[cell] = [self.kept.key_of(task) for task in self.tasks(cell)]
        found = [self.known[key] if key in self.known else self.kept.find(key, self.limit) for key in keys]
        if None not in found:
            self.rows[cell] = self.row(cell, found)
            return
        self.known.update(zip(keys, found))
        for at, key in enumerate(keys):
            self.of.setdefault(key, []).append((cell, at))

    def tasks(self, cell: Cell) -> List[Task]:
        """The days of a cell as tasks."""
        return tasks_of(cell, self.ground, self.limit, self.timed)

    def open(self) -> List[str]:
        """The days that have to be driven."""
        return [key for key, known in self.known.items() if known is None]

    def task(self, key: str) -> Task:
        """The task of a day."""
        cell, at = self.of[key][0]
        return self.tasks(cell)[at]

    def row(self, cell: Cell, days: Sequence[Known]) -> Row:
        """The row of a cell."""
        from ridepool.study.table import COLUMNS, row_of

        return dict(zip(COLUMNS, row_of(cell, days, self.kept.program)))

    def take(self, outcome: Outcome) -> List[Cell]:
        """Takes what became of a day. Gives the cells that are whole by it."""
        key, facts, fault = outcome
        if isinstance(fault, Stopped):
            self.kept.keep(self.kept.made_of(self.task(key)), {"stopped": self.limit})
        elif facts is not None:
            self.kept.keep(self.kept.made_of(self.task(key)), facts)
        self.known[key] = str(fault) if facts is None else facts
        return [cell for cell in dict.fromkeys(cell for cell, _ in self.of[key]) if self.is_whole(cell)]

    def is_whole(self, cell: Cell) -> bool:
        """Whether all days of a cell are known. Then it has its row, and days that no other cell has are forgotten."""
        found = [it for it in map(self.known.get, self.days[cell]) if it is not None]
        if len(found) < len(self.days[cell]):
            return False
        self.rows[cell] = self.row(cell, found)
        for key in self.days[cell]:
            self.of[key] = [it for it in self.of[key] if it[0] != cell]
            if not self.of[key]:
                del self.known[key]
        return True

    def line(self, cell: Cell) -> str:
        """What is said of a cell."""
        from ridepool.study.table import DONE, MARKED

        row = self.rows[cell]
        name = " ".join(f"{setting}={getattr(cell, setting)}" for setting in self.varied) or "the cell"
        if row["state"] not in (DONE, MARKED):
            return f"{name}: {row['state']}"
        said = f"{name}: {row['served']} of {row['requests']} served"
        over = [f"{row['over_seats']} of more persons than seats"] if row["over_seats"] else []
        few = [f"{row['refused']} refused ({row['refusals']})"] if row["refused"] and not row["mark"] else []
        return f"{said}{', MARKED: ' if row['mark'] else ''}{row['mark']}{''.join(f'; {it}' for it in (*few, *over))}"

    def count(self, *states: str) -> int:
        """How many cells have one of these states."""
        return sum(1 for row in self.rows.values() if row["state"] in states)


def outcomes(study: Study, todo: Sequence[str], workers: Workers, out: str, program_path: str) -> Iterator[Outcome]:
    """What becomes of each day. Those of cities come last, one after the other: each takes a worker for each fleet."""
    cities = [key for key in todo if is_city(study.of[key][0][0])]
    yield from workers.drive([key for key in todo if not is_city(study.of[key][0][0])], study.task)
    if cities:
        from ridepool.study.cities import outcome_of

        for key in cities:
            yield outcome_of(key, study.task(key), workers, study.ground.network, out, program_path)


def run(study: Study, values: Mapping[str, str], program_path: str, out: str, table: Table) -> None:
    """Drives the days that aren't known, on the cluster. Each cell's row is appended to the table."""
    from ridepool.study.workers import Lost, Workers

    todo = study.open()
    progress = Progress(len(todo))
    if not todo:
        return
    packed = zlib.compress(pathlib.Path(program_path).read_bytes()), zlib.compress(study.ground.network.encode())
    with client_of(values) as client:
        progress.show()
        try:
            workers = Workers(client, *packed, progress.say)
            for outcome in outcomes(study, todo, workers, out, program_path):
                for cell in study.take(outcome):
                    progress.say(study.line(cell))
                    table.append(study.rows[cell])
                progress.day()
        except Lost:
            raise Fault(f"the scheduler is gone: {go_on(progress)}") from None
        finally:
            progress.hide()


def go_on(progress: Progress) -> str:
    """What is said where a study ends before its time."""
    return f"{progress.all - progress.left} of {progress.all} days were driven and are kept; the same call goes on from there"


def convert(arguments: List[str]) -> None:
    """The tool."""
    plain, values = split_words(arguments, WORDS, USAGE)
    if len(plain) != 2:
        raise Fault(USAGE)
    path, out = plain
    limit = number(values, "limit", 1, tables.MOST_NUMBER, None)
    timed = number(values, "timed", 0, 1, 0) == 1
    need("distributed", "scipy")
    from ridepool.study.plan import read_plan

    program_path = values.get("program") or program.path()
    pathlib.Path(program_path).read_bytes()
    plan = read_plan(path)
    try:
        with held(out):
            failed = studied(plan, os.path.dirname(path), out, values, program_path, limit, timed)
    except KeyboardInterrupt:
        raise Fault(f"interrupted: the days that were driven are kept in {out}; the same call goes on from there") from None
    except OSError as fault:
        if fault.errno not in FULL:
            raise
        raise Fault(f"{fault.filename or out}: {fault.strerror}: the days that were driven are kept in {out}; the same call "
                    "goes on from there") from None
    if failed:
        sys.exit(1)


def studied(plan: Plan, here: str, out: str, values: Mapping[str, str], program_path: str, limit: Optional[int],
            timed: bool) -> int:
    """The study of a plan in a folder that is held. Gives how many cells failed."""
    from ridepool.study.ground import ground_of
    from ridepool.study.kept import Kept, checksum
    from ridepool.study.table import COLUMNS, DONE, MARKED, Table

    ground = ground_of(plan, here, out)
    of_program = checksum(pathlib.Path(program_path).read_bytes())
    study = Study(plan, ground, Kept(out, of_program, ground.network), limit, timed)
    driven, days = len(study.open()), len({key for keys in study.days.values() for key in keys})
    table = Table(os.path.join(out, "cells.csv"))
    table.write(study.rows[cell] for cell in study.cells if cell in study.rows)
    run(study, values, program_path, out, table)
    table.write(study.rows[cell] for cell in study.cells)
    failed, marked = len(study.rows) - study.count(DONE, MARKED), study.count(MARKED)
    print(f"{table.path}: {len(study.rows)} cells of {days} days, {driven} driven now, {failed} cells failed"
          + (f", {marked} marked: see the column mark" if marked else ""))
    return failed


def main() -> None:
    """The command."""
    run_tool(convert, USAGE)
