"""How many connections may be open, and how long they may take with their headers: idle ones keep nobody out."""

from __future__ import annotations

import asyncio
import resource
from collections import Counter
from typing import Any, Dict, Optional, Type

MOST_OPEN, MOST_OF_ADDRESS = 800, 400
HEADER_SECONDS = 10
SPARE_FILES = 224  # for what is no connection: the day's files, pipes


class Connections:
    """The open connections, the one that was used longest ago first. A new one that is one too many takes the place of
    an idle one; where all are busy, it is closed."""

    def __init__(self, most: int = MOST_OPEN, most_of_address: int = MOST_OF_ADDRESS) -> None:
        self.most, self.most_of_address = most, most_of_address
        self.open: Dict[Any, str] = {}
        self.of_address: Counter[str] = Counter()

    def add(self, connection: Any, address: str) -> bool:
        """Takes a new connection. Gives whether it may stay."""
        if self.of_address[address] >= self.most_of_address and not self.close_idle(address):
            return False
        if len(self.open) >= self.most and not self.close_idle(None):
            return False
        self.open[connection] = address
        self.of_address[address] += 1
        return True

    def close_idle(self, address: Optional[str]) -> bool:
        """Closes the idle connection that was used longest ago, of an address or of all. Gives whether there is one."""
        found = next((it for it, of in self.open.items() if address in (None, of) and not it.is_busy()), None)
        if found is None:
            return False
        self.remove(found)
        found.transport.close()
        return True

    def used(self, connection: Any) -> None:
        """The connection was used just now."""
        if connection in self.open:
            self.open[connection] = self.open.pop(connection)

    def remove(self, connection: Any) -> None:
        """The connection is no longer open."""
        address = self.open.pop(connection, None)
        if address is not None:
            self.of_address[address] -= 1
            self.of_address += Counter()  # forgets addresses without connections


def limited(base: Type[Any], connections: Connections, seconds: float = HEADER_SECONDS) -> Type[Any]:
    """The server's class of connections, which holds the limits, too."""
    class Limited(base):  # type: ignore[misc]  # a class that uvicorn chooses as it starts
        """A connection whose headers have to be whole in time."""

        is_taken, unfinished = False, None

        def connection_made(self, transport: Any) -> None:
            self.transport = transport
            self.is_taken = connections.add(self, address_of(transport))
            if not self.is_taken:
                transport.abort()
                return
            super().connection_made(transport)
            self.await_headers()

        def data_received(self, data: bytes) -> None:
            if not self.is_taken:
                return
            connections.used(self)
            super().data_received(data)
            if self.is_busy():
                self.forget_headers()
            elif self.unfinished is None:
                self.await_headers()

        def connection_lost(self, fault: Optional[Exception]) -> None:
            if self.is_taken:
                self.forget_headers()
                connections.remove(self)
                super().connection_lost(fault)

        def is_busy(self) -> bool:
            """Whether a request is being answered."""
            cycle = getattr(self, "cycle", None)
            return cycle is not None and not cycle.response_complete

        def await_headers(self) -> None:
            """Ends the connection unless a request's headers are whole in time."""
            self.unfinished = asyncio.get_running_loop().call_later(seconds, self.transport.close)

        def forget_headers(self) -> None:
            """The headers are whole."""
            if self.unfinished is not None:
                self.unfinished.cancel()
                self.unfinished = None

    return Limited


def address_of(transport: Any) -> str:
    """The address from which a connection comes."""
    peer = transport.get_extra_info("peername")
    return str(peer[0]) if peer else ""


def allow_files() -> None:
    """Lets the desk hold as many files as its connections need, where the system allows it."""
    soft, hard = resource.getrlimit(resource.RLIMIT_NOFILE)
    wanted = MOST_OPEN + SPARE_FILES
    if soft != resource.RLIM_INFINITY and soft < wanted:
        most = wanted if hard == resource.RLIM_INFINITY else min(wanted, hard)
        resource.setrlimit(resource.RLIMIT_NOFILE, (most, hard))
