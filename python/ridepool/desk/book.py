"""What a transcript tells the desk: the state, who was delivered, cancelled or expired, and how far the day's seconds went."""

from __future__ import annotations

from collections import Counter
from typing import Counter as Counts
from typing import List, Optional, Sequence, Tuple

from ridepool.desk.totals import Trip
from ridepool.report.reader import COUNTED, Entry
from ridepool.sessions.rows import entrys_row
from ridepool.sessions.state import Change, State, Vehicle

COUNTED_REPLIES = {"dropped": "delivered", "cancelled": "cancelled"}
GRAPH = frozenset(f"{word} "[:3] for word in COUNTED)  # what their lines begin with, and no others


class Seconds:
    """The last second of a seal, and the last that was entered of a vehicle."""

    def __init__(self) -> None:
        self.sealed = self.entered = 0

    def take(self, entry: Entry) -> None:
        """Takes an entry that the book didn't refuse."""
        if entry.command == "seal":
            self.sealed = max(self.sealed, entry.fields[0])
        elif entry.command in ("report", "pickup", "dropoff"):
            self.entered = max(self.entered, entry.fields[-1])

    def last(self, now: float, lead: int) -> int:
        """The second that the day's clock had reached. What vehicles did may lie a little ahead of the clock, and what is
        told of those out of service by the longest wait; where it is further ahead, the clock was there, too."""
        return max(self.sealed, self.entered) if self.entered > max(self.sealed, now) + lead else self.sealed


class Book:
    """A transcript as it was read so far."""

    def __init__(self, fleet: List[Vehicle]) -> None:
        self.state, self.seconds = State(fleet), Seconds()
        self.tally: Counts[str] = Counter()
        self.trips: List[Trip] = []

    @property
    def has_head(self) -> bool:
        """Whether the first lines are read."""
        return self.state.lines.report is not None

    @property
    def open_batch(self) -> Optional[int]:
        """The batch that is being solved, if so."""
        return None if self.state.sealing is None else int(self.state.sealing[0])

    def line(self, text: str) -> Optional[Change]:
        """Takes a line. Gives what it changed, if anything."""
        change: Optional[Change] = self.state.line(text)
        if change is not None and change.batch is not None:
            self.tally["expired"] += len(change.batch.expired)
            self.tally["lapsed"] += len(change.batch.lapsed)
        elif change is not None and change.entry is not None:
            self.count(change.entry)
        return change

    def past(self, texts: Sequence[str]) -> Tuple[List[str], Optional[Change]]:
        """Takes lines of which nobody waits for one. Gives the rows that they answer, and the last plan among them. Lines of
        graphs and trees are told by their first word, and only counted."""
        rows: List[str] = []
        last, begin = None, 0
        for place in [at for at, text in enumerate(texts) if text[:3] not in GRAPH]:
            self.skip(texts[begin:place])
            last = self.past_line(texts[place], rows) or last
            begin = place + 1
        self.skip(texts[begin:])
        return rows, last

    def past_line(self, text: str, rows: List[str]) -> Optional[Change]:
        """Takes such a line, and adds its row. Gives the plan that it closes, if so."""
        words, lines = text.split(" "), self.state.lines
        if lines.batch is not None and words[0] != "end":
            lines.batch_line(lines.batch, *words)
        elif words[2:3] == ["report"] and words[6:] == ["placed"]:
            rows.append(self.state.placed(*words[:2], *words[3:6]))
            self.seconds.entered = max(self.seconds.entered, int(words[5]))
        else:
            change = self.line(text)
            if change is not None and change.entry is not None and change.entry.command != "close":
                rows.append(entrys_row(change.entry))
            return change if change is not None and change.batch is not None else None
        return None

    def skip(self, texts: Sequence[str]) -> None:
        """Counts lines of a graph or of a tree."""
        if not texts:
            return
        batch = self.state.lines.batch
        if batch is None:
            raise ValueError("a line of a graph stands in no block")
        whole = "\n".join(["", *texts])
        for word in COUNTED:
            batch.counts[word] += whole.count(f"\n{word} ")

    def count(self, entry: Entry) -> None:
        """Counts who was delivered or cancelled."""
        if entry.reply.startswith("refused "):
            return
        self.seconds.take(entry)
        if entry.reply in COUNTED_REPLIES:
            self.tally[COUNTED_REPLIES[entry.reply]] += 1
        if entry.command == "dropoff":
            ride = self.state.rides[entry.fields[1]]
            assert ride.vehicle is not None and ride.pickup is not None and ride.dropoff is not None
            self.trips.append(Trip(ride.vehicle, ride.second, ride.pickup, ride.dropoff))
