"""What `ridepool resume` says of a transcript: how much of it is kept."""

import re
from dataclasses import dataclass
from typing import Optional

STAND = re.compile(r"ridepool: resumed entries=(\d+) bytes=(\d+) round=(\d+|none) open=(\d+|none)")


@dataclass(frozen=True)
class Stand:
    """What is kept of a transcript: so many entries and bytes, up to a row of this round. The batch `open` had no plan yet."""

    entries: int
    bytes: int
    round: Optional[int]
    open: Optional[int]

    @property
    def next_round(self) -> int:
        """The round of the rows that come."""
        return 0 if self.round is None else self.round + 1


def number_or_none(text: str) -> Optional[int]:
    """A number, or None for the word `none`."""
    return None if text == "none" else int(text)


def stand_of(line: str) -> Optional[Stand]:
    """What a line of standard error says is kept, if it does."""
    found = STAND.fullmatch(line)
    if found is None:
        return None
    entries, size, round_, open_ = found.groups()
    return Stand(int(entries), int(size), number_or_none(round_), number_or_none(open_))
