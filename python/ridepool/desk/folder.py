"""The folder of a day: the inputs, the words, the accepted rows and the transcript. It outlives the desk at any moment."""

from __future__ import annotations

import contextlib
import fcntl
import hashlib
import json
import os
import pathlib
import shutil
from typing import IO, Any, Dict, List, Mapping, Optional, Tuple, Union

from ridepool.desk.new_files import ROWS, TRANSCRIPT, NewFiles
from ridepool.inputs.tables import Path
from ridepool.words import Fault

INPUTS = ("network", "fleet", "nodes")
DESCRIPTION = "day.json"
HEAD_LINES = 4  # of a transcript, before the first round
KINDS: Dict[str, Union[type, Tuple[type, ...]]] = {"settings": list, "speed": int, "every": int, "began": (int, float)}


def write_whole(path: pathlib.Path, text: str, mode: int = 0o666) -> None:
    """Writes a file that is there whole or not at all, whenever the machine stops."""
    part = path.with_name(path.name + ".part")
    part.unlink(missing_ok=True)
    with open(os.open(part, os.O_WRONLY | os.O_CREAT | os.O_EXCL, mode), "w", encoding="utf-8") as file:
        file.write(text)
        file.flush()
        os.fsync(file.fileno())
    os.replace(part, path)
    sync_folder(path.parent)


def copy_whole(given: str, path: pathlib.Path) -> None:
    """Copies a file that is there whole or not at all, whenever the machine stops."""
    part = path.with_name(path.name + ".part")
    try:
        shutil.copyfile(given, part)
        with open(part, "rb+") as file:
            os.fsync(file.fileno())
        os.replace(part, path)
    finally:
        part.unlink(missing_ok=True)


def checksum_of(path: pathlib.Path) -> str:
    """The SHA-256 of a file; a word that is none where it can't be read."""
    try:
        return hashlib.sha256(path.read_bytes()).hexdigest()
    except OSError:
        return "missing"


def sync_folder(path: pathlib.Path) -> None:
    """Makes the names in a folder last."""
    handle = os.open(path, os.O_RDONLY)
    try:
        os.fsync(handle)
    finally:
        os.close(handle)


class Folder:
    """A day's folder, held by one desk at a time. `description` has the words and the second's beginning."""

    def __init__(self, path: Path) -> None:
        self.path = pathlib.Path(path)
        self.path.mkdir(parents=True, exist_ok=True)
        self.lock = open(self.path / "lock", "w", encoding="ascii")
        try:
            fcntl.flock(self.lock, fcntl.LOCK_EX | fcntl.LOCK_NB)
        except BlockingIOError:
            raise Fault(f"{path}: another desk keeps this day") from None
        self.rows: Optional[IO[str]] = None
        self.transcript: Optional[IO[str]] = None
        self.begun: List[pathlib.Path] = []  # the files that began the day, where it begins now
        self.description = self.described()

    @property
    def about(self) -> Dict[str, Any]:
        """The description of the day, which has begun."""
        assert self.description is not None
        return self.description

    @property
    def files(self) -> Tuple[IO[str], IO[str]]:
        """The files of rows and transcript, which are open."""
        assert self.rows is not None and self.transcript is not None
        return self.rows, self.transcript

    def described(self) -> Optional[Dict[str, Any]]:
        """What the folder says of its day, or None where the day begins now."""
        path = self.path / DESCRIPTION
        if not path.exists():
            if (self.path / TRANSCRIPT).exists():
                raise Fault(f"{path}: the file is missing, so the day can't go on")
            return None
        try:
            found: Dict[str, Any] = json.loads(path.read_text(encoding="utf-8"))
            if all(isinstance(found[key], kind) for key, kind in KINDS.items()):
                return found
        except (ValueError, TypeError, KeyError):
            pass
        raise Fault(f"{path}: not the description of a day")

    def begin(self, inputs: Mapping[str, str], description: Mapping[str, Any]) -> None:
        """Begins a day: copies of its inputs, then its description. A file that is there already isn't overwritten. A copy may
        be there, since a desk may have been killed as the day began."""
        copies = {self.input(name): inputs[name] for name in INPUTS}
        there = [path for path in (*copies, self.path / ROWS) if path.exists()]
        for path in there:
            if path not in copies or path.read_bytes() != pathlib.Path(copies[path]).read_bytes():
                raise Fault(f"{path}: the file is there already; a day begins in a folder of its own")
        self.begun = [path for path in (*copies, self.path / DESCRIPTION) if path not in there]
        try:
            for path in copies:
                if path not in there:
                    copy_whole(copies[path], path)
            self.describe({**description, "inputs": {name: checksum_of(self.input(name)) for name in INPUTS}})
        except OSError:
            self.forget_unbegun()
            raise

    def describe(self, description: Dict[str, Any]) -> None:
        """Keeps what the day is."""
        write_whole(self.path / DESCRIPTION, json.dumps(description, indent=1) + "\n")
        self.description = description

    def forget_unbegun(self) -> None:
        """Takes away what began the day, where no transcript stands: it may begin with other words."""
        if not (self.path / TRANSCRIPT).exists():
            for path in self.begun:
                path.unlink(missing_ok=True)

    def changed_inputs(self) -> List[str]:
        """The inputs that aren't those with which the day began. Days of older desks have no checksums."""
        return [name for name, checksum in self.about.get("inputs", {}).items()
                if name in INPUTS and checksum_of(self.input(name)) != checksum]

    def input(self, name: str) -> pathlib.Path:
        """The day's own copy of an input."""
        return self.path / f"{name}.csv"

    def has_lost_transcript(self) -> bool:
        """Whether rows were kept, and the transcript is missing or has lost its first lines, which are written at once."""
        return self.transcript_bytes() is None and self.count_rows() > 0

    def count_rows(self) -> int:
        """How many rows the script that stands beside the transcript has."""
        path = self.path / ROWS
        return max(0, path.read_bytes().count(b"\n") - 1) if path.exists() else 0

    @property
    def transcript_path(self) -> pathlib.Path:
        """Where the transcript stands."""
        return self.path / TRANSCRIPT

    def transcript_bytes(self) -> Optional[int]:
        """The bytes of the transcript so far; None where it has no first lines."""
        path = self.transcript_path
        if not path.exists():
            return None
        with open(path, "rb") as file:
            return os.fstat(file.fileno()).st_size if file.read(4096).count(b"\n") >= HEAD_LINES else None

    def begin_anew(self) -> NewFiles:
        """New files of rows and transcript, beside the old ones."""
        return NewFiles(self.path)

    def take(self, files: NewFiles) -> None:
        """Puts new files in the place of the old ones, and goes on with them."""
        self.close()
        files.take_place(self.path)
        sync_folder(self.path)
        self.rows, self.transcript = files.rows, files.transcript

    def append(self, rows: str, lines: str) -> None:
        """Hands rows and lines to the system; `sync` makes them last."""
        for file, text in zip(self.files, (rows, lines)):
            file.write(text)
            file.flush()

    def sync(self) -> None:
        """Waits until all that was appended is on disk."""
        for file in self.files:
            os.fdatasync(file.fileno())

    def close(self) -> None:
        """Closes the files of rows and transcript. What could not be written was told when it was appended."""
        for file in (self.rows, self.transcript):
            if file is not None:
                with contextlib.suppress(OSError):
                    file.close()
        self.rows = self.transcript = None
