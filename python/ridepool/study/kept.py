"""Keeps what was driven, so that no day is driven twice, and holds the folder of a study for one study at a time."""

import contextlib
import fcntl
import hashlib
import json
import os
import pathlib
import socket
import time
from functools import lru_cache
from typing import Any, Dict, Iterator, Mapping, Optional, Union

from ridepool.days.one_day import Task
from ridepool.inputs.tables import whole_file
from ridepool.words import Fault

# Changes with what is kept of a day, and with how it is measured.
FORM = 2
Path = Union[str, "pathlib.PurePath"]


def checksum(value: object) -> str:
    """The SHA-256 of bytes, or of what JSON makes of another value."""
    return hashlib.sha256(value if isinstance(value, bytes) else json.dumps(value).encode()).hexdigest()


@lru_cache(maxsize=256)
def checksum_of_text(text: str) -> str:
    """The SHA-256 of a text. A script is that of many days, so it is kept."""
    return checksum(text.encode())


class Kept:
    """The days that were driven, each under the checksum of all that it was made of, and with the checksums themselves."""

    def __init__(self, out: Path, program: str, network: str) -> None:
        self.folder = pathlib.Path(out, "kept")
        self.folder.mkdir(parents=True, exist_ok=True)
        self.program, self.network = program, checksum(network.encode())

    def made_of(self, task: Task) -> Dict[str, Any]:
        """What a day is made of: the checksums of its files and of the program, and the words of its call."""
        made: Dict[str, Any] = {"form": FORM, "program": self.program, "network": self.network,
                                "fleet": checksum(task.fleet.encode()), "script": checksum_of_text(task.script),
                                "words": list(task.words)}
        if task.fleets:
            made["fleets"] = [checksum(fleet.encode()) for fleet in task.fleets]
        return {**made, "timed": True} if task.timed else made

    def key_of(self, task: Task) -> str:
        """The name under which a day is kept."""
        return checksum(self.made_of(task))

    def find(self, key: str, limit: Optional[int]) -> Any:
        """What is known of a day: its facts, or a text where it ran as long as it may now; None where nothing is, or where
        what is kept isn't the day of this name or was changed, so that it is driven again."""
        try:
            known = json.loads((self.folder / f"{key}.json").read_text(encoding="ascii"))
            fits = checksum(known["made_of"]) == key and checksum(known["facts"]) == known["checksum"]
        except (FileNotFoundError, ValueError, KeyError, TypeError):
            return None
        if not fits:
            return None
        stopped = known["facts"].get("stopped")
        if stopped is None:
            return known["facts"]
        return stopped_text(stopped) if limit is not None and limit <= stopped else None

    def keep(self, made_of: Mapping[str, Any], facts: Mapping[str, Any]) -> None:
        """Keeps the facts of a day, or after how many seconds it was stopped."""
        text = json.dumps({"made_of": made_of, "checksum": checksum(facts), "facts": facts})
        whole_file(self.folder / f"{checksum(made_of)}.json", text)


def stopped_text(seconds: Optional[int]) -> str:
    """What the row of a day says that was stopped."""
    return f"stopped after {seconds} seconds"


@contextlib.contextmanager
def held(out: Path) -> Iterator[None]:
    """Holds the folder of a study. A Fault says who holds it where another study does. The system lets go of it when the
    process that holds it ends, however it ends."""
    folder = pathlib.Path(out)
    folder.mkdir(parents=True, exist_ok=True)
    with open(folder / "held", "a+", encoding="utf-8") as file:
        try:
            fcntl.flock(file, fcntl.LOCK_EX | fcntl.LOCK_NB)
        except BlockingIOError:
            file.seek(0)
            raise Fault(f"{out}: another study runs in this folder: {file.read().strip() or 'one that just began'}") from None
        file.truncate(0)
        file.write(f"process {os.getpid()} on {socket.gethostname()}, since {time.strftime('%Y-%m-%d %H:%M:%S %Z')}\n")
        file.flush()
        yield
        file.truncate(0)
