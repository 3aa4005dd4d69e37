"""Calls that come with a key of the caller's own are made once, however often they are sent."""

from __future__ import annotations

import asyncio
from collections import OrderedDict
from typing import Awaitable, Callable, List, NamedTuple, Optional, Tuple

from starlette.types import Message, Send

MOST_KEPT = 10_000
MOST_LETTERS = 200
Key = Tuple[str, str, str, str]


class Kept(NamedTuple):
    """An answer, with the body of the call."""

    body: bytes
    messages: List[Message]


class Once:
    """The answers of the last calls by their keys: who calls, the method, the path, the caller's key."""

    def __init__(self) -> None:
        self.answers: "OrderedDict[Key, asyncio.Future[Optional[Kept]]]" = OrderedDict()

    async def run(self, key: Key, body: bytes, call: Callable[[Send], Awaitable[None]], send: Send) -> bool:
        """Makes a call, or gives the answer of the same one before. False where the one before had another body."""
        while key in self.answers:
            kept = await asyncio.shield(self.answers[key])
            if kept is None:
                continue  # it came to nothing, so it is made now
            if kept.body != body:
                return False
            for message in marked(kept.messages):
                await send(message)
            return True
        for message in await self.made(key, body, call):
            await send(message)
        return True

    async def made(self, key: Key, body: bytes, call: Callable[[Send], Awaitable[None]]) -> List[Message]:
        """Makes a call. Its answer is kept, unless the desk could not do it at that moment."""
        future = self.answers[key] = asyncio.get_running_loop().create_future()
        messages: List[Message] = []

        async def keep(message: Message) -> None:
            messages.append(message)

        kept = None
        try:
            await call(keep)
            if messages and messages[0]["status"] < 500:
                kept = Kept(body, messages)
        finally:
            if kept is None:
                del self.answers[key]
            future.set_result(kept)
        while len(self.answers) > MOST_KEPT:
            self.answers.popitem(last=False)
        return messages


def marked(messages: List[Message]) -> List[Message]:
    """An answer that says that it was given before."""
    first = messages[0]
    return [{**first, "headers": [*first["headers"], (b"idempotent-replayed", b"true")]}, *messages[1:]]
