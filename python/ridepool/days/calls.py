"""Calls of the program: drive, run, audit, load."""

import os
import pathlib
import subprocess
import tempfile
from typing import Any, Mapping, NamedTuple, Optional, Sequence, Union

import pandas as pd

from ridepool import program as installed
from ridepool.days.day import Day
from ridepool.faults import Given, ProgramFailed, RefusedInput, fault_of
from ridepool.inputs.checks import Path
from ridepool.inputs.fleet import Fleet
from ridepool.inputs.network import Network
from ridepool.inputs.requests import Requests
from ridepool.settings import Settings
from ridepool.words import Fault

Script = Union[str, "pathlib.PurePath", Any]


class Audit(NamedTuple):
    """A report that was confirmed: how many commands it has, and how many batches."""

    entries: int
    batches: int


def program_path(program: Optional[Path]) -> str:
    """The program that is named, or the package's own."""
    try:
        return installed.chosen(program)
    except Fault as fault:
        raise ProgramFailed(str(fault)) from None


def called(command: str, words: Sequence[str], files: Mapping[str, Given], program: Optional[Path]) -> bytes:
    """What the program prints on files; the exception where it fails."""
    path = program_path(program)
    with tempfile.TemporaryDirectory(prefix="ridepool-") as folder:
        for name, given in files.items():
            pathlib.Path(folder, f"{name}.csv").write_bytes(given.text.encode())
        call = [command, *(f"{name}={name}.csv" for name in files), *words]
        with open(os.path.join(folder, "out"), "w+b") as out:
            try:
                ran = subprocess.run([path, *call], cwd=folder, stdin=subprocess.DEVNULL, stdout=out,
                                     stderr=subprocess.PIPE, check=False)
            except OSError as fault:
                raise ProgramFailed(f"the program can't be started: {fault}") from None
            if ran.returncode != 0:
                raise fault_of(ran.returncode, ran.stderr.decode("ascii", "replace"), call, files)
            out.seek(0)
            return out.read()


def town_files(net: Network, fleet: Fleet) -> "dict[str, Given]":
    """The files of a network and a fleet."""
    return {"network": Given("network", net.csv()), "fleet": Given(fleet.table.file, fleet.csv(net))}


def script_text(script: Script) -> Given:
    """A script that is a path, a text of rows, or a frame."""
    if isinstance(script, pd.DataFrame):
        return Given("script", str(script.to_csv(index=False)))
    if isinstance(script, pathlib.PurePath) or "\n" not in script:
        return Given(str(script), pathlib.Path(script).read_text(encoding="utf-8-sig"))
    return Given("script", str(script))


def printed_day(printed: bytes, net: Network, fleet: Fleet, zero: Any = None) -> Day:
    """The day of a report that was just printed. A program that ended well and printed none is a ProgramFailed."""
    try:
        return Day.from_bytes(printed, net, fleet, zero=zero)
    except RefusedInput as fault:
        raise ProgramFailed(f"the program printed no report: {fault}", 0) from None


def drive(net: Network, fleet: Fleet, requests: Requests, settings: Optional[Settings] = None, *,
          program: Optional[Path] = None) -> Day:
    """Drives a day: the vehicles follow the plans that are made at each seal.

    A RefusedInput says what isn't taken of the inputs; a ProgramFailed that the program ended without a whole report.
    `program` names another program than the package's own.

    >>> import pandas as pd
    >>> net = Network.made(side=3, seed=1)
    >>> asked = pd.DataFrame({"from": [1, 2], "to": [9, 9], "time": [0, 5]})
    >>> day = drive(net, Fleet.drawn(net, vehicles=1), Requests.from_frame(asked, every=30), Settings(wait=300))
    >>> day.riders["state"].tolist()
    ['delivered', 'delivered']
    """
    files = {**town_files(net, fleet), "script": Given(requests.table.file, requests.script(net))}
    printed = called("drive", (settings or Settings()).words(), files, program)
    return printed_day(printed, net, fleet, requests.zero)


def run(net: Network, fleet: Fleet, script: Script, settings: Optional[Settings] = None, *,
        program: Optional[Path] = None) -> Day:
    """Runs a script: the path of script.csv, its text, or a frame of its columns. What vehicles do stands in the script.

    The exceptions are those of `drive`.

    >>> net = Network.made(side=3, seed=1)
    >>> day = run(net, Fleet.drawn(net, vehicles=1), "round,lane,command,a,b,c,d\\n0,0,submit,1,1,9,0\\n0,0,seal,10,,,\\n")
    >>> day.replies["reply"].tolist()
    ['accepted', 'sealed 1', 'closed']
    """
    files = {**town_files(net, fleet), "script": script_text(script)}
    return printed_day(called("run", (settings or Settings()).words(), files, program), net, fleet)


def audit(net: Network, fleet: Fleet, script: Script, report: Union[str, bytes, Day], *,
          program: Optional[Path] = None) -> Audit:
    """Judges a report of `run` with proof=True, whoever printed it: a Day, its text, or the path of its file.

    A report that no run of the script prints is an AuditFailed with the line.

    >>> net = Network.made(side=3, seed=1)
    >>> fleet, settings = Fleet.drawn(net, vehicles=1), Settings(proof=True)
    >>> script = "round,lane,command,a,b,c,d\\n0,0,submit,1,1,9,0\\n0,0,seal,10,,,\\n"
    >>> audit(net, fleet, script, run(net, fleet, script, settings))
    Audit(entries=3, batches=1)
    """
    files = {**town_files(net, fleet), "script": script_text(script), "report": Given("report", report_text(report))}
    words = called("audit", [], files, program).decode("ascii").split()
    if words[:3] != ["audit", "ok", "entries"]:
        raise ProgramFailed("the program printed no answer to the audit", 0)
    return Audit(int(words[3]), int(words[5]))


def report_text(report: Union[str, bytes, Day, "pathlib.PurePath"]) -> str:
    """A report as a text."""
    if isinstance(report, Day):
        if report.text is None:
            raise RefusedInput("report", reason="a simulated day has no printed report")
        return report.text
    if isinstance(report, bytes):
        return report.decode("ascii", "replace")
    if isinstance(report, pathlib.PurePath) or "\n" not in report:
        return pathlib.Path(report).read_text(encoding="ascii")
    return report


LOADED = ("batch", "served", "out", "rows", "trips", "cost", "bound")


def load(settings: Optional[Settings] = None, *, seed: int = 1, side: int = 20, vehicles: int = 100, riders: int = 150,
         rounds: int = 4, program: Optional[Path] = None) -> Any:
    """Makes a workload by a seed and runs it: a square town of `side` by `side` crossings, `vehicles` of four seats, and
    `rounds` batches of `riders` requests each.

    Gives a frame with a row for each batch: batch, served (riders), out (riders), rows (vehicle-trip pairs), trips,
    cost, bound (seconds). After an overflow all but the batch is missing.

    >>> load(seed=1, side=2, vehicles=1, riders=1, rounds=1).to_dict("list")
    {'batch': [1], 'served': [1], 'out': [0], 'rows': [2], 'trips': [1], 'cost': [74], 'bound': [74]}
    """
    made = {"seed": seed, "side": side, "vehicles": vehicles, "riders": riders, "rounds": rounds}
    words = [word for word in (settings or Settings()).words() if not word.startswith("proof=")]
    printed = called("load", [*(f"{name}={value}" for name, value in made.items()), *words], {}, program)
    if not printed.startswith(b"load "):
        raise ProgramFailed("the program printed no summary", 0)
    rows = [line.split(" ") for line in printed.decode("ascii").splitlines() if line.startswith("batch ")]
    found = [dict(zip(row[::2], row[1::2])) for row in rows]
    frame = pd.DataFrame(found, columns=list(LOADED), dtype=object)
    return frame.apply(pd.to_numeric).astype("Int64")
