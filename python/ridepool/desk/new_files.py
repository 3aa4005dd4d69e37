"""The day's files of rows and transcript, while they are made anew beside the old ones."""

from __future__ import annotations

import contextlib
import os
import pathlib
from typing import IO

from ridepool.sessions.rows import HEADER

ROWS, TRANSCRIPT = "rows.csv", "transcript"


class NewFiles:
    """The files of rows and transcript under other names, until they are whole enough to take the place of the old ones."""

    def __init__(self, path: pathlib.Path) -> None:
        self.parts = {name: path / f"{name}.part" for name in (TRANSCRIPT, ROWS)}
        for part in self.parts.values():
            part.unlink(missing_ok=True)
        self.transcript: IO[str] = open(self.parts[TRANSCRIPT], "a", encoding="ascii", newline="")
        self.rows: IO[str] = open(self.parts[ROWS], "a", encoding="ascii", newline="")
        self.rows.write(HEADER + "\n")

    def write(self, rows: str, lines: str) -> None:
        """Writes rows and lines."""
        self.rows.write(rows)
        self.transcript.write(lines)

    def sync(self) -> None:
        """Waits until all that was written is on disk."""
        for file in (self.rows, self.transcript):
            file.flush()
            os.fsync(file.fileno())

    def take_place(self, path: pathlib.Path) -> None:
        """Takes the place of the old files."""
        self.sync()
        for name, part in self.parts.items():
            os.replace(part, path / name)

    def drop(self) -> None:
        """Removes the files, where they don't take the place of the old ones."""
        for file in (self.rows, self.transcript):
            with contextlib.suppress(OSError):
                file.close()
        for part in self.parts.values():
            part.unlink(missing_ok=True)
