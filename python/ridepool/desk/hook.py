"""What riders are to be told after each plan, sent on to one address, with a signature that the receiver can check."""

from __future__ import annotations

import asyncio
import hashlib
import hmac
import http.client
import json
import pathlib
import time
from typing import Any, Dict, Optional, Type
from urllib.parse import urlsplit

from ridepool.desk import log
from ridepool.desk.tokens import LEAST_LETTERS
from ridepool.words import Fault

MOST_WAITING = 1000
PAUSES = (1, 2, 4, 8, 16, 32, 60, 60, 60)  # seconds before each new try
TIMEOUT = 10
AGAIN = (408, 425, 429)  # refusals that may pass, as those from 500 on


class Hook:
    """The address, and what waits to be sent. It is sent in order; an address that moves elsewhere isn't followed."""

    def __init__(self, address: str, secret: str) -> None:
        parts = urlsplit(address)
        if parts.scheme not in ("http", "https") or not parts.hostname or parts.username:
            raise Fault(f"hook={address} is not an address such as https://notices.example.org/ridepool")
        self.address, self.secret = parts, secret.encode()
        self.waiting: "asyncio.Queue[bytes]" = asyncio.Queue(MOST_WAITING)

    def tell(self, value: Dict[str, Any]) -> None:
        """Sends something as soon as all before it are sent. Where too much waits, the oldest is dropped."""
        if self.waiting.full():
            self.waiting.get_nowait()
            log.say(f"hook: more than {MOST_WAITING} notices wait; the oldest are dropped", log.WARNING)
        self.waiting.put_nowait(json.dumps(value, separators=(",", ":")).encode())

    async def run(self) -> None:
        """Sends, until the desk is closed."""
        while True:
            await self.deliver(await self.waiting.get())

    async def deliver(self, body: bytes) -> None:
        """Tries again with longer and longer pauses, where the address can't take it now."""
        why = ""
        for pause in (*PAUSES, None):
            status, why = await asyncio.to_thread(self.send, body)
            if status is not None and status < 500 and status not in AGAIN:
                break
            if pause is not None:
                await asyncio.sleep(pause)
        if status is None or status >= 300:
            log.say(f"hook: a notice wasn't taken: {why}", log.WARNING)

    def send(self, body: bytes) -> "tuple[Optional[int], str]":
        """One try: the status, None where there was no answer, and what it means."""
        is_safe = self.address.scheme == "https"
        kind: Type[http.client.HTTPConnection] = http.client.HTTPSConnection if is_safe else http.client.HTTPConnection
        connection = kind(self.address.hostname or "", self.address.port, timeout=TIMEOUT)
        path = (self.address.path or "/") + (f"?{self.address.query}" if self.address.query else "")
        try:
            connection.request("POST", path, body, {"content-type": "application/json", **signed(self.secret, body)})
            status = connection.getresponse().status
            return status, f"status {status}"
        except (OSError, http.client.HTTPException) as fault:
            return None, str(fault) or type(fault).__name__
        finally:
            connection.close()


def signed(secret: bytes, body: bytes) -> Dict[str, str]:
    """The headers by which the receiver knows who sends: the HMAC of the time, a point and the body."""
    now = str(int(time.time()))
    return {"ridepool-time": now, "ridepool-signature": hmac.new(secret, now.encode() + b"." + body, hashlib.sha256).hexdigest()}


def hook_of(address: Optional[str], secret: Optional[str]) -> Optional[Hook]:
    """The hook of the words, with the secret of its file."""
    if address is None:
        return None
    if secret is None:
        raise Fault("hook= needs secret=FILE, whose word signs what is sent")
    text = pathlib.Path(secret).read_text(encoding="utf-8").strip()
    if len(text) < LEAST_LETTERS:
        raise Fault(f"{secret}: a secret has at least {LEAST_LETTERS} letters and digits")
    return Hook(address, text)
