"""Names, telephone numbers and notes of riders, kept beside the day: no row and no report has them."""

from __future__ import annotations

import json
import os
import pathlib
from typing import Any, Dict, Mapping, Optional

from ridepool.desk.folder import write_whole

FIELDS = ("who", "phone", "note")
NOTHING: Dict[str, Optional[str]] = {it: None for it in FIELDS}


class Contacts:
    """The contacts by the rides' numbers. The file has a line for each; a line without contact takes one away."""

    def __init__(self, path: pathlib.Path) -> None:
        self.path = path
        self.known: Dict[int, Dict[str, Optional[str]]] = {}
        if path.exists():
            for line in path.read_text(encoding="utf-8").splitlines():
                self.take(line)
        self.keep_all()

    def take(self, line: str) -> None:
        """Takes a line of the file; one that was cut off by a crash is passed over."""
        try:
            value = json.loads(line)
            self.known[int(value["ride"])] = {it: value.get(it) for it in FIELDS}
        except (ValueError, KeyError, TypeError, AttributeError):
            pass

    def of(self, ride: int) -> Dict[str, Optional[str]]:
        """A ride's contact; each field is None where it isn't known."""
        return self.known.get(ride, NOTHING)

    def put(self, ride: int, contact: Mapping[str, Optional[str]]) -> None:
        """Keeps a ride's contact in place of the one before."""
        found = {it: contact.get(it) or None for it in FIELDS}
        if not any(found.values()):
            self.delete(ride)
            return
        self.known[ride] = found
        with os.fdopen(os.open(self.path, os.O_WRONLY | os.O_APPEND | os.O_CREAT, 0o600), "w", encoding="utf-8") as file:
            file.write(line_of(ride, found))

    def delete(self, ride: int) -> bool:
        """Deletes a ride's contact, from the file, too. Gives whether there was one."""
        if self.known.pop(ride, None) is None:
            return False
        self.keep_all()
        return True

    def keep_all(self) -> None:
        """Writes the file anew, with what is known alone."""
        if self.known or self.path.exists():
            write_whole(self.path, "".join(line_of(ride, it) for ride, it in self.known.items()), 0o600)


def line_of(ride: int, contact: Mapping[str, Any]) -> str:
    """The line of a contact."""
    return json.dumps({"ride": ride, **contact}) + "\n"
