"""The log of who did what: a JSON object a line for each writing call."""

from __future__ import annotations

import json
import pathlib
from datetime import datetime, timezone
from typing import Any, Dict, Optional

from ridepool.desk import log
from ridepool.desk.tokens import Holder

MOST_READ = 4096  # of an answer, to find the book's reply in it


class AccessLog:
    """The file, which is written to as calls are answered. Where it can't be written, the desk goes on."""

    def __init__(self, path: pathlib.Path) -> None:
        self.path, self.failed = path, False
        self.file = open(path, "a", encoding="utf-8", buffering=1)

    def note(self, holder: Optional[Holder], method: str, path: str, status: int, body: bytes) -> None:
        """Keeps a call with its outcome."""
        value: Dict[str, Any] = {"time": datetime.now(timezone.utc).isoformat(timespec="milliseconds")}
        value["role"] = "none"
        if holder is not None:
            value.update({key: it for key, it in vars(holder).items() if it not in (None, "")})
        value.update(method=method, path=path, status=status, **outcome(body))
        try:
            self.file.write(json.dumps(value) + "\n")
        except OSError as fault:
            if not self.failed:
                log.say(f"{self.path}: {fault.strerror}; calls are no longer logged", log.ERROR)
            self.failed = True


def outcome(body: bytes) -> Dict[str, Any]:
    """What an answer says of the outcome: the book's reply, the ride's number, or why it was refused."""
    try:
        value = json.loads(body) if len(body) <= MOST_READ else {}
    except ValueError:
        return {}
    return {key: value[key] for key in ("reply", "ride", "text") if key in value} if isinstance(value, dict) else {}
