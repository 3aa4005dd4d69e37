"""Calls on batches."""

from __future__ import annotations

from typing import Optional

from fastapi import FastAPI, HTTPException, Query
from fastapi.responses import Response

from ridepool.desk.numbers import MOST as MOST_NUMBER
from ridepool.desk.calls.examples import BATCH
from ridepool.desk.calls.riders import listed
from ridepool.desk.calls.shared import TEXTS, Desk, answered, answers
from ridepool.desk.lists import MOST, page_of


def add_batches(app: FastAPI, desk: Desk) -> None:
    """Looking at plans, and having one made."""
    @app.get("/batches", tags=["batches"], responses=answers([BATCH]))
    async def batches(limit: int = Query(50, ge=1, le=MOST), since: Optional[int] = None,
                      cursor: Optional[int] = Query(None, ge=0, le=MOST_NUMBER),
                      last: Optional[int] = Query(None, ge=1, le=MOST, deprecated=True)) -> Response:
        """The batches that are closed, the newest first, or those with a `second` of `since` or later. At most `limit`
        are given; the header `link` leads to the next ones. `last` is an older name of `limit`."""
        book, most = desk.state.batches, last or limit
        # Batches are numbered from 1 on, so the cursor, the number of the next batch, stays right as others close.
        keys = range(len(book) if cursor is None else min(cursor, len(book)), 0, -1)
        page = page_of(keys, lambda it: since is None or book[it]["second"] >= since, most, 0)
        following = None if page.next is None else keys[page.next]
        return listed("/batches", [book[it] for it in page.items], {"since": since, "limit": most}, following)

    @app.get("/batches/{number}", tags=["batches"], responses=answers(BATCH))
    async def batch(number: int) -> Response:
        """A closed batch: served, left out, cost, bound, gap, rows, seconds."""
        if number not in desk.state.batches:
            raise HTTPException(404, "there is no such closed batch")
        return answered(200, desk.state.batches[number])

    @app.post("/seal", tags=["batches"], responses=answers({"reply": "sealed 4", "batch": 4}))
    async def seal() -> Response:
        """Closes the list of requests and has a plan made. The plan comes later, as an event."""
        entry = await desk.dispatcher.seal()
        if entry is None:
            reply = f"refused batch-open {desk.dispatcher.open_batch()}"
            return answered(409, {"reply": reply, "word": "batch-open", "text": TEXTS["batch-open"]})
        if entry.reply.startswith("refused "):
            word = entry.reply.split(" ")[1]
            return answered(409, {"reply": entry.reply, "word": word, "text": TEXTS[word]})
        return answered(200, {"reply": entry.reply, "batch": int(entry.reply.split(" ")[1])})
