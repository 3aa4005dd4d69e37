"""What was last entered of each vehicle, so that it can be told as a mistake while the book allows it."""

from __future__ import annotations

import time
from dataclasses import dataclass, field
from typing import Optional

MISTAKE_SECONDS = 60


@dataclass(frozen=True)
class Entered:
    """A position or a stop that was taken, with the node where the vehicle was before."""

    command: str
    node: int
    ride: Optional[int] = None
    at: float = field(default_factory=time.monotonic)

    def way_out(self) -> str:
        """What can be done where the book can't take it back."""
        if self.command == "pickup":
            return (f"the book can't take a pickup back: enter the drop-off of ride {self.ride}, then where the vehicle "
                    "is, and ask for a new ride for the rider")
        return "the book can't take a drop-off back: ask for a new ride for the rider, from where the vehicle is"


class LastEntered:
    """The last entry of each vehicle."""

    def __init__(self) -> None:
        self.entries: dict[int, Entered] = {}

    def note(self, vehicle: int, entered: Entered) -> None:
        """Takes an entry in place of the vehicle's last one."""
        self.entries[vehicle] = entered

    def take(self, vehicle: int) -> Optional[Entered]:
        """The vehicle's last entry, once, where it isn't too old; a stop stays, as it can't be taken back."""
        entered = self.entries.get(vehicle)
        if entered is None or time.monotonic() - entered.at > MISTAKE_SECONDS:
            return None
        if entered.command == "report":
            del self.entries[vehicle]
        return entered
