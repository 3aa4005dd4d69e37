"""Calls for a shift: search, totals, tables to take away, vehicles out of service."""

from __future__ import annotations

import asyncio
import csv
import io
from typing import Any, AsyncIterator, Dict, Iterator, List, Sequence

from fastapi import FastAPI, Query
from fastapi.responses import Response, StreamingResponse

from ridepool.desk.calls.shared import Desk, answered, answers
from ridepool.desk.totals import totals_of
from ridepool.sessions.state import Ride

MOST_FOUND = 20
CHUNK = 500  # rows of a table that are made at once
RIDE_COLUMNS = ("ride", "state", "from", "to", "persons", "time", "vehicle", "pickup_second", "drop_off_second", "wait")
BATCH_COLUMNS = ("batch", "second", "overflow", "served", "left_out", "expired", "lapsed", "late", "cost", "bound", "gap",
                 "mean_wait", "worst_wait", "seconds")
FOUND = {"rides": [{"ride": 7, "state": "promised", "who": "A. Rider"}], "vehicles": [3],
         "places": [{"node": 12, "name": "Station"}]}
TOTALS = {"second": 3600, "delivered": 40, "expired": 1, "cancelled": 2, "lapsed": 0, "plans": 120, "waits": {"50": 120, "90": 240,
          "95": 270, "99": 300, "100": 310}, "mean_wait": 130, "shared": 22, "vehicles_used": 9, "seconds_with_riders": 16200,
          "seconds_without_riders": 5100}


def add_shift(app: FastAPI, desk: Desk) -> None:
    """Search and totals."""
    @app.get("/search", tags=["desk"], responses=answers(FOUND))
    async def search(q: str = Query(..., min_length=1, max_length=100)) -> Response:
        """Rides by number, name or telephone number, vehicles by number, places by name. At most 20 of each are given."""
        return answered(200, found(desk, q.strip().lower()))

    @app.get("/totals", tags=["desk"], responses=answers(TOTALS))
    async def totals() -> Response:
        """What the day has come to: rides by outcome, waits in seconds by quantile, rides that were shared, and the seconds
        of vehicles with and without riders, from each one's first pickup to its last drop-off."""
        it = desk.dispatcher
        counts = {name: it.tally[name] for name in ("delivered", "expired", "cancelled", "lapsed")}
        rest = await asyncio.to_thread(totals_of, list(it.trips))
        return answered(200, {"second": it.clock.now(), **counts, "plans": len(it.state.batches), **rest})


def add_tables(app: FastAPI, desk: Desk) -> None:
    """Tables as CSV."""
    @app.get("/rides.csv", tags=["rides"], response_class=Response)
    async def rides() -> Response:
        """All rides of the day. Names and telephone numbers aren't among them."""
        numbers, book = list(desk.state.asked), desk.state.rides
        return table(RIDE_COLUMNS, (ride_row(book[it]) for it in numbers), "rides.csv")

    @app.get("/batches.csv", tags=["batches"], response_class=Response)
    async def batches() -> Response:
        """All plans of the day. Riders and vehicles stand as their numbers of them."""
        book = list(desk.state.batches.values())
        return table(BATCH_COLUMNS, (batch_row(it) for it in book), "batches.csv")


def add_breaks(app: FastAPI, desk: Desk) -> None:
    """Vehicles out of service."""
    @app.post("/vehicles/{number}/break", tags=["vehicles"], responses=answers({"vehicle": 3, "out": True, "moved": [7]}))
    async def begin(number: int) -> Response:
        """Takes a vehicle without passengers out of service, where it stands. `moved` are the rides promised to it, which
        the next plan gives to others where it can."""
        vehicle = desk.state.vehicles[desk.vehicle(number)]
        if vehicle.aboard:
            return answered(409, {"word": "has-passengers", "text": "drop off the passengers first"})
        moved = [it for it in sorted(desk.state.pool) if desk.state.rides[it].vehicle == number]
        desk.dispatcher.breaks.begin(number, vehicle.node)
        desk.dispatcher.publish_vehicle(number)
        return answered(200, {"vehicle": number, "out": True, "moved": moved})

    @app.delete("/vehicles/{number}/break", tags=["vehicles"], responses=answers({"vehicle": 3, "out": False, "from": 900}))
    async def end(number: int) -> Response:
        """Takes a vehicle into service again. Plans may use it for pickups from the second `from` on, as the book was told
        that it isn't free before."""
        vehicle = desk.vehicle(number)
        desk.dispatcher.breaks.end(vehicle)
        desk.dispatcher.publish_vehicle(vehicle)
        return answered(200, {"vehicle": vehicle, "out": False, "from": desk.state.vehicles[vehicle].second})


def found(desk: Desk, text: str) -> Dict[str, Any]:
    """What a text in small letters is part of."""
    state, contacts = desk.state, desk.contacts.known
    named = [ride for ride, it in contacts.items() if any(text in (value or "").lower() for value in it.values())]
    numbers: List[int] = [int(text)] if text.isdecimal() else []
    rides = [it for it in dict.fromkeys(numbers + named[::-1]) if it in state.rides][:MOST_FOUND]
    places = [node for node, name in desk.places.names.items() if text in name.lower() and node in desk.places.at]
    nodes = [it for it in dict.fromkeys(numbers + places) if it in desk.places.at][:MOST_FOUND]
    return {"rides": [{"ride": it, "state": state.rides[it].state, "who": desk.contacts.of(it)["who"]} for it in rides],
            "vehicles": [it for it in numbers if it in state.vehicles],
            "places": [{"node": it, "name": desk.name(it)} for it in nodes]}


def ride_row(ride: Ride) -> List[Any]:
    """A ride's row."""
    view = ride.view()
    wait = ride.pickup - ride.second if ride.state in ("aboard", "delivered") and ride.pickup is not None else None
    return [*(view[it] for it in RIDE_COLUMNS[:-1]), wait]


def batch_row(batch: Dict[str, Any]) -> List[Any]:
    """A plan's row."""
    return [len(value) if isinstance(value, list) else value for value in (batch.get(it) for it in BATCH_COLUMNS)]


def table(columns: Sequence[str], rows: Iterator[List[Any]], name: str) -> Response:
    """A table that is made piece by piece, so that other calls are answered meanwhile."""
    return StreamingResponse(pieces(columns, rows), media_type="text/csv",
                             headers={"content-disposition": f'attachment; filename="{name}"'})


async def pieces(columns: Sequence[str], rows: Iterator[List[Any]]) -> AsyncIterator[str]:
    """The header, then so many rows at a time."""
    text = io.StringIO()
    writer = csv.writer(text, lineterminator="\n")
    writer.writerow(columns)
    for count, row in enumerate(rows, 1):
        writer.writerow(row)
        if count % CHUNK == 0:
            yield text.getvalue()
            text.seek(0)
            text.truncate()
            await asyncio.sleep(0)
    yield text.getvalue()
