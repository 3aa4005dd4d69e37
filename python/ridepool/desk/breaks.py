"""Vehicles that are out of service. The book has no such thing: the desk tells it before each plan that the vehicle is free
so late that it can pick up nobody in time, so that no plan uses it."""

from __future__ import annotations

import json
import pathlib
from typing import Dict

from ridepool.desk.folder import write_whole


class Breaks:
    """The vehicles out of service, each with the node where it stands. They are kept beside the day."""

    def __init__(self, path: pathlib.Path) -> None:
        self.path = path
        self.nodes: Dict[int, int] = {}
        if path.exists():
            self.nodes = {int(vehicle): int(node) for vehicle, node in json.loads(path.read_text(encoding="utf-8")).items()}

    def begin(self, vehicle: int, node: int) -> None:
        """Takes a vehicle out of service."""
        self.nodes[vehicle] = node
        self.keep()

    def end(self, vehicle: int) -> bool:
        """Takes a vehicle into service again. Gives whether it was out."""
        found = self.nodes.pop(vehicle, None) is not None
        self.keep()
        return found

    def keep(self) -> None:
        """Keeps them on disk."""
        write_whole(self.path, json.dumps({str(vehicle): node for vehicle, node in self.nodes.items()}) + "\n")
