"""The day so far, as a started program prints it: by `ridepool resume` all that is kept of a transcript, by `live` the first
lines of a new one. It goes into a new book and into new files, which take the place of the old ones once it is through."""

from __future__ import annotations

from typing import List, Optional

from ridepool.desk.book import Book
from ridepool.desk.new_files import NewFiles
from ridepool.sessions.stand import Stand
from ridepool.sessions.state import Change

MEGABYTE = 1_000_000


class Past:
    """The day so far. `whole` are the bytes of the transcript that the program reads, None for `live`."""

    def __init__(self, book: Book, files: NewFiles, whole: Optional[int]) -> None:
        self.book, self.files, self.whole = book, files, whole
        self.stand: Optional[Stand] = None
        self.read = 0
        self.last: Optional[Change] = None

    def take(self, lines: List[str]) -> None:
        """Takes whole lines."""
        self.read += sum(map(len, lines)) + len(lines)
        rows, last = self.book.past(lines)
        self.files.write("".join(rows), "\n".join([*lines, ""]))
        self.last = last or self.last

    @property
    def is_through(self) -> bool:
        """Whether all that is kept has come, with the plan of the batch that was open."""
        if self.whole is None:
            return self.book.has_head
        return self.stand is not None and self.read >= self.stand.bytes and self.book.open_batch is None

    @property
    def closed(self) -> Optional[Change]:
        """The plan of the batch that was open, once it is made. Nobody was told it yet."""
        return self.last if self.stand is not None and self.stand.open is not None else None

    @property
    def round(self) -> int:
        """The round of the rows that come: behind the kept ones."""
        return 0 if self.stand is None else self.stand.next_round

    def progress(self) -> str:
        """How far it is, in words."""
        if self.whole is None:
            return ""
        if self.stand is not None and self.read >= self.stand.bytes and self.book.open_batch is not None:
            return f"plan {self.book.open_batch} is made, which was open"
        return f"{self.read / MEGABYTE:.1f} of {self.whole / MEGABYTE:.1f} MB of the day so far are read"
