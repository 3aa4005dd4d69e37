"""What stands before the desk's calls: who may call what, from which page, with how much."""

from __future__ import annotations

import asyncio
import json
from typing import Collection, List, Mapping, NamedTuple, Optional, Tuple

from starlette.types import ASGIApp, Message, Receive, Scope, Send

from ridepool.desk.access import AccessLog
from ridepool.desk.calls.files import is_file
from ridepool.desk.once import MOST_LETTERS, Once
from ridepool.desk.tokens import ANYONE, Holder, Tokens

MOST_BYTES = 65_536
BODY_SECONDS = 10
WRITES = ("POST", "DELETE", "PUT", "PATCH")
OPEN = ("/health",)  # what may be read without a token, beside the pages, in which nothing of the day stands
HEADERS = [
    (b"x-content-type-options", b"nosniff"),
    (b"x-frame-options", b"DENY"),
    (b"referrer-policy", b"no-referrer"),
    (b"cross-origin-resource-policy", b"same-origin"),
]


class Refusal(NamedTuple):
    """The status and text with which a call is refused."""

    status: int
    text: str


class Who(NamedTuple):
    """The tokens that are taken, None where none is asked for; whether reading needs one, too; the log of calls."""

    tokens: Optional[Tokens]
    reading: bool
    log: Optional[AccessLog]


TOO_LARGE = Refusal(413, f"a body has at most {MOST_BYTES} bytes")
TOO_SLOW = Refusal(408, f"a body has to be whole within {BODY_SECONDS} s")
NO_TYPE = Refusal(415, "a body needs content-type: application/json")
OTHER_BODY = Refusal(422, "another body came with this idempotency-key before")
LONG_KEY = Refusal(422, f"an idempotency-key has at most {MOST_LETTERS} letters")


def policy(tiles: Optional[str]) -> bytes:
    """What the page may load: what the desk serves, and tiles from the one place that the operator named."""
    place = f" {tiles}" if tiles else ""
    return ("default-src 'none'; script-src 'self'; style-src 'self'; connect-src 'self'; "
            f"img-src 'self' data:{place}; base-uri 'none'; form-action 'none'; frame-ancestors 'none'").encode()


class Guard:
    """Wraps the desk's calls. Pages of `hosts`, names with their ports, may make them."""

    def __init__(self, app: ASGIApp, hosts: Collection[str], who: Who, tiles: Optional[str] = None) -> None:
        self.app, self.hosts, self.who, self.once = app, {it.lower() for it in hosts}, who, Once()
        self.headers = [(b"content-security-policy", policy(tiles)), *HEADERS]

    async def __call__(self, scope: Scope, receive: Receive, send: Send) -> None:
        if scope["type"] != "http":
            return await self.app(scope, receive, send)
        headers, method, path = dict(scope["headers"]), scope["method"], scope["path"]
        holder = self.holder(headers)
        if method in WRITES and self.who.log is not None:
            send = noted(self.who.log, holder, method, path, send)
        refusal = self.refusal(method, path, headers, holder)
        if refusal is None:
            refusal = await self.passed_on(scope, receive, send, headers, holder)
        if refusal is not None:
            await answer(send, self.headers, refusal)

    async def passed_on(self, scope: Scope, receive: Receive, send: Send, headers: Mapping[bytes, bytes],
                        holder: Optional[Holder]) -> Optional[Refusal]:
        """Reads the body and makes the call. Gives a refusal where it can't be made."""
        has_body = b"content-length" in headers or b"transfer-encoding" in headers
        try:
            body = await asyncio.wait_for(whole_body(receive), BODY_SECONDS) if has_body else b""
        except asyncio.TimeoutError:
            return TOO_SLOW
        if body is None:
            return TOO_LARGE
        if body and headers.get(b"content-type", b"").split(b";")[0].strip().lower() != b"application/json":
            return NO_TYPE
        method = "GET" if scope["method"] == "HEAD" and scope["path"] != "/events" else scope["method"]
        scope = {**scope, "method": method, "holder": holder or ANYONE,
                 "is_welcome": lambda: holder is None or self.holder(headers) == holder}
        key, again = headers.get(b"idempotency-key", b"").decode("latin-1"), given_first(body, receive)

        async def call(send: Send) -> None:
            await self.app(scope, again, self.marked(send))

        if not key or method not in WRITES:
            await call(send)
            return None
        if len(key) > MOST_LETTERS:
            return LONG_KEY
        who = holder.id if holder is not None else ""
        return None if await self.once.run((who, method, scope["path"], key), body, call, send) else OTHER_BODY

    def marked(self, send: Send) -> Send:
        """A `send` that adds the desk's headers."""
        async def sending(message: Message) -> None:
            if message["type"] == "http.response.start":
                message = {**message, "headers": [*message["headers"], *self.headers]}
            await send(message)

        return sending

    def refusal(self, method: str, path: str, headers: Mapping[bytes, bytes], holder: Optional[Holder]) -> Optional[Refusal]:
        """Why a call is refused before it is read; None where it may come."""
        if not self.own_page(method, headers):
            return Refusal(403, "another site's page can't call this desk")
        length = headers.get(b"content-length", b"0")
        if not length.isdigit() or int(length) > MOST_BYTES:
            return TOO_LARGE
        needed = self.needs_token(method, path)
        if needed and holder is None:
            return Refusal(401, "a bearer token is needed")
        if needed and holder is not None and not holder.may(method, path):
            return Refusal(403, f"a {holder.role}'s token can't do this")
        return None

    def needs_token(self, method: str, path: str) -> bool:
        """Whether a call needs a token: each writing one, and where others can call, each reading one."""
        if self.who.tokens is None:
            return False
        return method in WRITES or self.who.reading and not is_file(path) and path not in OPEN

    def own_page(self, method: str, headers: Mapping[bytes, bytes]) -> bool:
        """Whether the call comes from no page, from the desk's own, or opens the page by a link."""
        if headers.get(b"sec-fetch-site", b"none") not in (b"none", b"same-origin"):
            return method == "GET" and headers.get(b"sec-fetch-mode") == b"navigate"
        origin = headers.get(b"origin")
        if origin is None:
            return True
        scheme, _, host = origin.decode("latin-1").lower().partition("://")
        return scheme in ("http", "https") and host in self.hosts

    def holder(self, headers: Mapping[bytes, bytes]) -> Optional[Holder]:
        """Who has the call's token."""
        kind, _, given = headers.get(b"authorization", b"").partition(b" ")
        if self.who.tokens is None or kind.lower() != b"bearer":
            return None
        return self.who.tokens.holder(given.strip().decode("latin-1"))


def noted(log: AccessLog, holder: Optional[Holder], method: str, path: str, send: Send) -> Send:
    """A `send` that puts the call and its outcome into the log."""
    status, bodies = 0, []

    async def sending(message: Message) -> None:
        nonlocal status
        if message["type"] == "http.response.start":
            status = message["status"]
        else:
            bodies.append(message.get("body", b""))
            if not message.get("more_body", False):
                log.note(holder, method, path, status, b"".join(bodies))
        await send(message)

    return sending


async def whole_body(receive: Receive) -> Optional[bytes]:
    """The body of a call; None where it is too large, or where the caller left before it was whole."""
    body, more = b"", True
    while more:
        message = await receive()
        if message["type"] == "http.disconnect":
            return None
        body, more = body + message.get("body", b""), message.get("more_body", False)
        if len(body) > MOST_BYTES:
            return None
    return body


def given_first(body: bytes, receive: Receive) -> Receive:
    """A `receive` that gives the body, then what else comes."""
    given = False

    async def receiving() -> Message:
        nonlocal given
        if given:
            return await receive()
        given = True
        return {"type": "http.request", "body": body, "more_body": False}

    return receiving


async def answer(send: Send, headers: List[Tuple[bytes, bytes]], refusal: Refusal) -> None:
    """Answers a call without the desk."""
    body = json.dumps({"text": refusal.text}).encode()
    extra = [(b"www-authenticate", b"Bearer")] if refusal.status == 401 else []
    await send({"type": "http.response.start", "status": refusal.status, "headers": [
        (b"content-type", b"application/json"), (b"content-length", str(len(body)).encode()),
        (b"connection", b"close"), *extra, *headers]})
    await send({"type": "http.response.body", "body": body})
