"""Dates with a time of day, as texts of a trips' file, as seconds.

A text without a time zone says no moment: it is taken in a zone that is named, or not at all.
"""

import math
import re
from dataclasses import dataclass, field
from datetime import datetime, timezone, tzinfo
from typing import Optional

from ridepool.inputs.tables import finite
from ridepool.words import Fault

AMERICAN = re.compile(r"(\d{1,2})/(\d{1,2})/(\d{4})(?:[ T](\d{1,2}):(\d{2})(?::(\d{2})(?:\.\d+)?)?(?: ?([AaPp])[Mm])?)?")
EXAMPLE = "name one, as zone=America/New_York or zone=UTC"


def zone_of(name: Optional[str]) -> Optional[tzinfo]:
    """The time zone of a name such as Europe/Zurich; None where none is named."""
    if name is None:
        return None
    if name == "UTC":
        return timezone.utc
    from zoneinfo import ZoneInfo

    try:
        return ZoneInfo(name)
    except (ValueError, KeyError, OSError):
        raise Fault(f"zone={name} is no time zone: {EXAMPLE}") from None


def american(text: str) -> Optional[datetime]:
    """A date such as 01/31/2015 07:05:39 PM: the month, the day, the year, and the time of day on a clock of 12 or 24 hours.
    None where the text isn't written so. A Fault where it is, and is no date, as 31/01/2015."""
    found = AMERICAN.fullmatch(text)
    if found is None:
        return None
    month, day, year, hour, minute, second = (int(it or 0) for it in found.groups()[:6])
    half = (found.group(7) or "").lower()
    if half and not 1 <= hour <= 12:
        raise Fault(f"{text!r} is not MM/DD/YYYY with a time of day")
    try:
        return datetime(year, month, day, hour % 12 + 12 * (half == "p") if half else hour, minute, second)
    except ValueError:
        raise Fault(f"{text!r} is not MM/DD/YYYY with a time of day") from None


def date_of(text: str) -> Optional[datetime]:
    """The date of a text, with the zone that it says, if it says one; None where it is no date."""
    text = text.strip()
    found = american(text)
    if found is not None:
        return found
    try:
        return datetime.fromisoformat(text[:-1] + "+00:00" if text.endswith("Z") else text)
    except ValueError:
        return None


@dataclass
class Moments:
    """Takes texts as seconds. Dates without a zone are those of `zone`; `twice` are how many of them the clock shows twice,
    of which the first is taken, and `skipped` how many it never shows."""

    zone: Optional[tzinfo]
    twice: int = field(default=0)
    skipped: int = field(default=0)

    def second(self, text: Optional[str]) -> Optional[int]:
        """A date with a time of day, or a number, as whole seconds; None where it is neither. A Fault where a date says no
        zone and none is named."""
        value = finite(text)
        if value is not None:
            return math.floor(value)
        date = None if text is None else date_of(text)
        if date is None:
            return None
        if date.tzinfo is None:
            date = self.placed(date, str(text).strip())
        return math.floor(date.timestamp())

    def placed(self, date: datetime, text: str) -> datetime:
        """A date without a zone in the zone that is named."""
        if self.zone is None:
            raise Fault(f"{text!r} says no time zone: {EXAMPLE}")
        first, second = (date.replace(tzinfo=self.zone, fold=fold).utcoffset() for fold in (0, 1))
        if first is not None and second is not None and first != second:
            self.twice += first > second
            self.skipped += first < second
        return date.replace(tzinfo=self.zone)

    def notes(self) -> "list[str]":
        """What is told of the clock's changes."""
        notes = []
        if self.twice:
            notes.append(f"{self.twice} at a time that the clock shows twice, as it goes back: the first is taken")
        if self.skipped:
            notes.append(f"{self.skipped} at a time that the clock skips, as it goes forward: an hour later is taken")
        return notes
