"""What the desk says on standard error: lines with a time and a level, as journals and collectors of logs read them."""

from __future__ import annotations

import sys
from datetime import datetime, timezone

INFO, WARNING, ERROR = "INFO", "WARNING", "ERROR"


def say(text: object, level: str = INFO) -> None:
    """Says something, now."""
    time = datetime.now(timezone.utc).isoformat(timespec="milliseconds").replace("+00:00", "Z")
    print(f"{time} {level} desk: {text}", file=sys.stderr, flush=True)
