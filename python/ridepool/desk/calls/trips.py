"""Calls of the pages for phones: a driver's stops with all that is to be known of them, a rider's ride on its way."""

from __future__ import annotations

from typing import Any, Dict, Optional

from fastapi import FastAPI
from fastapi.responses import Response

from ridepool.desk.bodies import NoShowBody
from ridepool.desk.calls.examples import RIDE, STOPS
from ridepool.desk.calls.shared import Desk, answered, answers

TRIP = {"vehicle": 3, "at": 100, "speed": 1, "free_from": 100, "node": 9, "name": "Market", "persons": 0, "max_capacity": 4,
        "degrees": True, "stops": [{**STOPS[0], "name": "Station", "persons": 2, "who": None, "phone": None, "note": None}]}
ON_ITS_WAY = {**RIDE, "at": 100, "speed": 1, "from_name": "Station", "to_name": "Market", "vehicle_at": "Market", "metres": 420}


def add_trips(app: FastAPI, desk: Desk) -> None:
    """All three."""
    @app.get("/vehicles/{number}/trip", tags=["vehicles"], responses=answers(TRIP))
    async def trip(number: int) -> Response:
        """What a driver has to know: the next stops with their places, riders and seconds, and the second `at` now."""
        return answered(200, trip_of(desk, desk.vehicle(number)))

    @app.get("/rides/{number}/trip", tags=["rides"], responses=answers(ON_ITS_WAY))
    async def on_its_way(number: int) -> Response:
        """What a rider has to know: the ride, where its vehicle is, and by how many metres it is away as the crow flies."""
        view = desk.ride_view(desk.ride(number))
        ahead = view["state"] in ("promised", "aboard")
        at = place_of(desk, view["vehicle"]) if ahead else None
        view.update(at=desk.dispatcher.clock.now(), speed=desk.dispatcher.clock.speed, from_name=desk.name(view["from"]),
                    to_name=desk.name(view["to"]), vehicle_at=None if at is None else desk.name(at[2]),
                    metres=None if at is None else round(desk.places.metres(at[:2], desk.places.at[view["from"]])))
        return answered(200, view)

    @app.post("/vehicles/{number}/noshow", tags=["vehicles"], responses=answers({"reply": "cancelled"}))
    async def noshow(number: int, body: NoShowBody) -> Response:
        """The rider isn't at the pickup. The ride is cancelled, if it is promised to this vehicle."""
        vehicle, ride = desk.vehicle(number), desk.ride(body.ride)
        if ride.state == "promised" and ride.vehicle == vehicle:
            return answered(*await desk.command("cancel", ride.ride))
        word = {"aboard": "is-aboard", "promised": "not-promised", "waiting": "not-promised"}.get(ride.state, "ended")
        return answered(409, desk.refused(word))


def trip_of(desk: Desk, number: int) -> Dict[str, Any]:
    """A vehicle as its driver sees it."""
    view, clock = desk.dispatcher.vehicle_view(number), desk.dispatcher.clock
    stops = [{**it, "name": desk.name(it["node"]), "persons": desk.state.rides[it["ride"]].party,
              **desk.contacts.of(it["ride"])} for it in view["stops"]]
    return {"vehicle": number, "at": clock.now(), "speed": clock.speed, "free_from": view["second"], "node": view["node"],
            "name": desk.name(view["node"]), "persons": view["persons"], "max_capacity": view["max_capacity"],
            "degrees": desk.places.degrees, "stops": stops}


def place_of(desk: Desk, vehicle: Optional[int]) -> Any:
    """Where a vehicle was last seen: two coordinates and the node."""
    if vehicle is None:
        return None
    node = desk.state.vehicles[vehicle].node
    return desk.dispatcher.places.get(vehicle) or (*desk.places.at[node], node)
