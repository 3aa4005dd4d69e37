"""Calls on the desk itself: whether it works, what goes wrong, the map, the stream of events."""

from __future__ import annotations

import asyncio
import re
from typing import AsyncIterator, List, Optional, Tuple

from fastapi import FastAPI, HTTPException, Query, Request
from fastapi.responses import Response, StreamingResponse
from starlette.background import BackgroundTask

from ridepool.desk.calls.examples import TROUBLE
from ridepool.desk.calls.shared import Desk, answered, answers
from ridepool.desk.metrics import TYPE

QUIET_SECONDS = 3
MOST_PAIRS = 100
PAIRS = re.compile(r"[0-9]{1,10}-[0-9]{1,10}(,[0-9]{1,10}-[0-9]{1,10})*")


def add_desk(app: FastAPI, desk: Desk) -> None:
    """Health, trouble, the network and the events."""
    @app.get("/health", tags=["desk"])
    async def health() -> Response:
        """Whether commands are taken; 503 where they aren't, with the reason."""
        value = desk.dispatcher.health()
        return answered(200 if value["status"] == "ready" else 503, value)

    @app.get("/trouble", tags=["desk"], responses=answers(TROUBLE))
    async def trouble() -> Response:
        """What goes wrong, the most urgent first. `late` counts from `second`, and is negative before it."""
        desk.dispatcher.look()
        return answered(200, desk.dispatcher.trouble_view())

    @app.get("/network", tags=["desk"])
    async def network() -> Response:
        """Nodes with their places on the map, and streets. The settings that a page needs stand beside them."""
        return Response(desk.network(), media_type="application/json")

    @app.get("/ways", tags=["desk"], responses=answers({"ways": [[1, 2, 5], None]}))
    async def ways(pairs: str = Query(...)) -> Response:
        """Shortest ways between pairs of nodes, written such as `1-5,5-9`, at most 100 of them: the nodes of each, both
        ends included; null where there is none."""
        wanted = pairs_of(desk, pairs)
        async with desk.searching:
            return answered(200, {"ways": await asyncio.to_thread(desk.ways.all, wanted)})

    @app.get("/metrics", tags=["desk"])
    async def metrics() -> Response:
        """Figures in Prometheus' text form, where its client is installed."""
        text = desk.dispatcher.meter.text()
        if text is None:
            raise HTTPException(404, "Prometheus' client isn't installed: apt-get install python3-prometheus-client")
        return Response(text, media_type=TYPE)

    @app.get("/me", tags=["desk"], responses=answers({"role": "driver", "vehicle": 3, "ride": None}))
    async def me(request: Request) -> Response:
        """Who calls: the role of the token, and its vehicle or ride."""
        holder = request.scope["holder"]
        return answered(200, {"role": holder.role, "vehicle": holder.vehicle, "ride": holder.ride})

    @app.get("/events", tags=["desk"])
    async def events(request: Request) -> Response:
        """Server-sent events: first `state`, then `reply`, `plan`, `places`, `status` and `clock` as they come."""
        queue = desk.dispatcher.listen()
        return StreamingResponse(stream(desk, request, queue), media_type="text/event-stream",
                                 headers={"cache-control": "no-store", "x-accel-buffering": "no"},
                                 background=BackgroundTask(desk.dispatcher.listeners.discard, queue))


def pairs_of(desk: Desk, text: str) -> List[Tuple[int, int]]:
    """The pairs of nodes of a text; 422 where there are none such."""
    if not PAIRS.fullmatch(text) or text.count(",") >= MOST_PAIRS:
        raise HTTPException(422, f"pairs: give at most {MOST_PAIRS} pairs of nodes such as 1-5,5-9")
    pairs = [(int(start), int(goal)) for start, _, goal in (it.partition("-") for it in text.split(","))]
    unknown = [node for pair in pairs for node in pair if node not in desk.places.at]
    if unknown:
        raise HTTPException(422, f"pairs: there is no node {unknown[0]}")
    return pairs


async def stream(desk: Desk, request: Request, queue: "asyncio.Queue[Optional[str]]") -> AsyncIterator[str]:
    """The events as they come. Something comes every three seconds, so that a lost connection is seen. The stream ends
    soon after the caller's token was withdrawn."""
    while request.scope["is_welcome"]() and not await request.is_disconnected():
        try:
            text = await asyncio.wait_for(queue.get(), QUIET_SECONDS)
        except asyncio.TimeoutError:
            queue.put_nowait(desk.dispatcher.clock_event())
            continue
        texts = [text]
        while not queue.empty():
            texts.append(queue.get_nowait())
        yield "".join(it for it in texts if it is not None)
        if None in texts:
            return
