"""Drives one day by the program, wherever this is, and measures its report.

Dask sends this file to its workers, with those that it imports, so all of them stand on Python alone.
"""

import os
import pathlib
import resource
import shutil
import signal
import subprocess
import tempfile
import time
import zlib
from typing import Any, Dict, List, Mapping, NamedTuple, Optional, Tuple

from ridepool.days.batch_times import batch_times
from ridepool.report.measure import measure
from ridepool.report.reader import Report, read_report
from ridepool.words import Fault

DIES_WITH_ITS_WORKER = ("setpriv", "--pdeathsig", "KILL")
# How often a running program is looked at: soon after its start, since small days are over in milliseconds.
FIRST_LOOK, LAST_LOOK = 0.001, 0.05


class Task(NamedTuple):
    """A day: its fleet and script as texts, the words of the call, the least seconds of each rider's ride by rider, how
    long the program may take, and whether each batch is timed, by another run of the same day. The day of a city whose
    riders go from fleet to fleet has `fleets` in place of one."""

    fleet: str
    script: str
    words: Tuple[str, ...]
    direct: Mapping[int, float]
    limit: Optional[int]
    timed: bool = False
    fleets: Tuple[str, ...] = ()


class NotDriven(Exception):
    """Why a day has no report, in one line."""


class Stopped(NotDriven):
    """The day ran longer than it may."""


def place_town(where: str, program: bytes, network: bytes) -> None:
    """Writes the program and the network into a folder. Both are compressed, since they were sent."""
    folder = pathlib.Path(where)
    (folder / "ridepool").write_bytes(zlib.decompress(program))
    (folder / "ridepool").chmod(0o700)
    (folder / "network.csv").write_bytes(zlib.decompress(network))


def without_orphans() -> Tuple[str, ...]:
    """The words that end a program with the worker that called it; none where there is no setpriv."""
    return DIES_WITH_ITS_WORKER if shutil.which(DIES_WITH_ITS_WORKER[0]) else ()


def placed(where: str, town: str, task: Task) -> List[str]:
    """Writes the files of a day into a folder. Gives the words of the call, from the folder that has program and
    network."""
    folder = pathlib.Path(where)
    (folder / "fleet.csv").write_text(task.fleet)
    (folder / "script.csv").write_text(task.script)
    files = [f"network={town}/network.csv", "fleet=fleet.csv", "script=script.csv"]
    return [*without_orphans(), f"{town}/ridepool", "drive", *files, *task.words]


def peak_of(process: int) -> int:
    """The peak memory of a running process so far, in kB; 0 where it can't be read."""
    try:
        lines = pathlib.Path(f"/proc/{process}/status").read_text().splitlines()
    except OSError:
        return 0
    return next((int(line.split()[1]) for line in lines if line.startswith("VmHWM:")), 0)


def waited(process: "subprocess.Popen[bytes]", limit: Optional[int]) -> Tuple[float, Optional[float], bool]:
    """Waits for a process, and ends it at the limit. Gives its processor seconds, its peak memory in MB, and whether it
    was ended.

    What the system counts as a process's peak is at least that of this Python, which it began as; where it is no more
    than that, the peak is what was last seen, or None where the process was too short to be seen.
    """
    begun, peak, stopped, pid, look = time.monotonic(), 0, False, 0, FIRST_LOOK
    while not pid:
        peak = max(peak, peak_of(process.pid))
        if limit and not stopped and time.monotonic() - begun > limit:
            stopped = True
            os.kill(process.pid, signal.SIGKILL)
        time.sleep(look)
        look = min(2 * look, LAST_LOOK)
        pid, status, usage = os.wait4(process.pid, os.WNOHANG)
    process.returncode = os.waitstatus_to_exitcode(status)
    if usage.ru_maxrss > resource.getrusage(resource.RUSAGE_SELF).ru_maxrss:
        peak = usage.ru_maxrss
    # Below a megabyte the process was seen before it became the program.
    return usage.ru_utime + usage.ru_stime, peak / 1024 if peak >= 1024 else None, stopped


def drive(program: bytes, network: bytes, task: Task) -> Dict[str, Any]:
    """The facts of one day, with the seconds and the memory that it took; NotDriven where it has no report."""
    with tempfile.TemporaryDirectory(prefix="ridepool-study-") as folder:
        place_town(folder, program, network)
        return drive_in(folder, task)


def drive_in(town: str, task: Task) -> Dict[str, Any]:
    """The same, with the program and the network that lie in a folder."""
    with tempfile.TemporaryDirectory(prefix="ridepool-study-") as folder:
        command, begun = placed(folder, town, task), time.monotonic()
        with open(f"{folder}/report", "wb") as out, open(f"{folder}/errors", "wb") as errors:
            process = subprocess.Popen(command, cwd=folder, stdin=subprocess.DEVNULL, stdout=out, stderr=errors)
        seconds, memory, stopped = waited(process, task.limit)
        took = time.monotonic() - begun
        if process.returncode != 0:
            said = pathlib.Path(folder, "errors").read_text(errors="replace")
            raise reason(process.returncode, task.limit if stopped else None, " ".join(said.split()))
        report = read(folder)
        times = batch_times(folder, command, report) if task.timed else None
    return {**measure(report, task.direct), "seconds": seconds, "memory": memory, "wall": took, "batch_seconds": times}


def read(folder: str) -> Report:
    """The report in a folder; NotDriven where it is none."""
    try:
        return read_report(f"{folder}/report")
    except Fault as fault:
        raise NotDriven(str(fault).removeprefix(f"{folder}/")) from None


def reason(status: int, limit: Optional[int], said: str) -> NotDriven:
    """Why the program has made no report."""
    if limit:
        return Stopped(f"stopped after {limit} seconds")
    return NotDriven(f"status {status}{': ' if said else ''}{said}")
