"""Calls of drivers."""

from __future__ import annotations

from typing import Any, Dict, Optional, Tuple

from fastapi import FastAPI, Query
from fastapi.responses import Response

from ridepool.desk.numbers import MOST as MOST_NUMBER
from ridepool.desk.bodies import PositionBody, StopBody
from ridepool.desk.calls.examples import STOPS, VEHICLE
from ridepool.desk.calls.riders import listed
from ridepool.desk.calls.shared import MOST_LEAD, Desk, answered, answers
from ridepool.desk.lists import MOST, page_of
from ridepool.desk.mistakes import MISTAKE_SECONDS, Entered

TAKEN_BACK = {"node": 9, "second": 130, "reply": "placed"}


def add_vehicles(app: FastAPI, desk: Desk) -> None:
    """Looking at vehicles."""
    @app.get("/vehicles", tags=["vehicles"], responses=answers([VEHICLE]))
    async def vehicles(since: Optional[int] = None, limit: int = Query(MOST, ge=1, le=MOST),
                       cursor: int = Query(0, ge=0, le=MOST_NUMBER)) -> Response:
        """The vehicles by their numbers, or those whose `second` is `since` or later. At most `limit` are given; the
        header `link` leads to the next ones."""
        book = desk.state.vehicles
        page = page_of(desk.dispatcher.fleet_numbers(), lambda it: since is None or book[it].second >= since, limit, cursor)
        return listed("/vehicles", [desk.dispatcher.vehicle_view(it) for it in page.items],
                      {"since": since, "limit": limit}, page.next)

    @app.get("/vehicles/{number}", tags=["vehicles"], responses=answers(VEHICLE))
    async def vehicle(number: int) -> Response:
        """A vehicle: where it was seen, who is aboard, its next stops."""
        return answered(200, desk.dispatcher.vehicle_view(desk.vehicle(number)))

    @app.get("/vehicles/{number}/stops", tags=["vehicles"], responses=answers(STOPS))
    async def stops(number: int) -> Response:
        """A driver's next stops, in order."""
        return answered(200, desk.dispatcher.vehicle_view(desk.vehicle(number))["stops"])


def add_entries(app: FastAPI, desk: Desk) -> None:
    """What drivers enter."""
    @app.post("/vehicles/{number}/position", tags=["vehicles"], responses=answers({"node": 12, "reply": "placed"}))
    async def position(number: int, body: PositionBody) -> Response:
        """The vehicle is at this node or place, or comes to the node at a later second."""
        vehicle = desk.vehicle(number)
        node = desk.end(body.node, body.lat, body.lon, "position")
        before = desk.state.vehicles[vehicle].node
        status, answer = await desk.command("report", vehicle, node, desk.second(body.second, MOST_LEAD))
        if status == 200:
            desk.entered.note(vehicle, Entered("report", before))
            at = desk.places.at[node] if body.lat is None or body.lon is None else (body.lat, body.lon)
            desk.dispatcher.show({vehicle: (*at, node)})
        return answered(status, {"node": node, **answer})

    @app.post("/vehicles/{number}/pickup", tags=["vehicles"], responses=answers({"reply": "picked"}))
    async def pickup(number: int, body: StopBody) -> Response:
        """A rider got in."""
        return await stop(desk, "pickup", number, body)

    @app.post("/vehicles/{number}/dropoff", tags=["vehicles"], responses=answers({"reply": "dropped"}))
    async def dropoff(number: int, body: StopBody) -> Response:
        """A rider got out."""
        return await stop(desk, "dropoff", number, body)

    @app.post("/vehicles/{number}/mistake", tags=["vehicles"], responses=answers(TAKEN_BACK))
    async def mistake(number: int) -> Response:
        """What was entered last of the vehicle was a mistake. A position is taken back for 60 s: the vehicle is where
        it was before, as of now. The book can't take stops back: the answer says what can be done."""
        return answered(*await take_back(desk, desk.vehicle(number)))


async def stop(desk: Desk, command: str, number: int, body: StopBody) -> Response:
    """Enters a pickup or a drop-off."""
    vehicle, ride = desk.vehicle(number), desk.ride(body.ride).ride
    node = desk.state.vehicles[vehicle].node
    status, answer = await desk.command(command, vehicle, ride, desk.second(body.second, MOST_LEAD))
    if status == 200:
        desk.entered.note(vehicle, Entered(command, node, ride))
    return answered(status, answer)


async def take_back(desk: Desk, vehicle: int) -> Tuple[int, Dict[str, Any]]:
    """Takes a vehicle's last position back; of a stop it says what can be done."""
    entered = desk.entered.take(vehicle)
    if entered is None:
        text = f"nothing of this vehicle was entered within the last {MISTAKE_SECONDS} s"
        return 409, {"word": "no-mistake", "text": text}
    if entered.command != "report":
        return 409, {"word": "book-keeps-it", "text": entered.way_out()}
    second = max(desk.dispatcher.clock.now(), desk.state.vehicles[vehicle].second)
    status, answer = await desk.command("report", vehicle, entered.node, second)
    if status == 200:
        desk.dispatcher.show({vehicle: (*desk.places.at[entered.node], entered.node)})
    return status, {"node": entered.node, "second": second, **answer}
