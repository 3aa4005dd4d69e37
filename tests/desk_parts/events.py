"""The stream of a desk's events."""

import json
import re
import select
import socket
import time

from desk_parts.shared import PATIENCE


class Events:
    """A stream of events that is read as it comes. What a slow machine may add to it is passed over."""

    def __init__(self, it):
        self.socket = socket.create_connection(("127.0.0.1", it.port), timeout=PATIENCE)
        self.socket.sendall(f"GET /events HTTP/1.1\r\nhost: 127.0.0.1:{it.port}\r\n\r\n".encode())
        self.text = b""

    def next(self, kind, passing=("clock", "status", "places", "trouble", "notices")):
        """The next event of this kind; only events of those kinds are passed over."""
        end = time.monotonic() + PATIENCE
        while time.monotonic() < end:
            found = re.search(rb"event: (\w+)\ndata: (.*)\n\n", self.text)
            if found is None:
                assert select.select([self.socket], [], [], PATIENCE)[0], f"no event {kind}"
                more = self.socket.recv(65_536)
                assert more, f"the stream ended before an event {kind}"
                self.text += more
                continue
            self.text = self.text[found.end():]
            name = found.group(1).decode()
            if name == kind:
                return json.loads(found.group(2))
            assert name in passing, (name, kind, found.group(2))
        raise AssertionError(f"no event {kind}")
