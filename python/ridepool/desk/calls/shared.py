"""What all calls share: the desk that they are made to, its refusals in words, and answers."""

from __future__ import annotations

import asyncio
import json
from typing import Any, Dict, Optional, Sequence, Tuple

from fastapi import HTTPException
from fastapi.responses import JSONResponse, Response

from ridepool.desk.contacts import Contacts
from ridepool.desk.dispatcher import Dispatcher
from ridepool.desk.mistakes import LastEntered
from ridepool.desk.ways import Ways
from ridepool.inputs.roads import Places
from ridepool.sessions.state import Ride, State

MOST_AHEAD = 86_400  # a request may be made a day before
MOST_LEAD = 900  # a position or a stop may be entered so many seconds before
UNKNOWN = ("unknown-rider", "unknown-vehicle")
TEXTS = {
    "duplicate-rider": "a ride with this number is there already",
    "unknown-node": "there is no such node on the network",
    "same-place": "the ride begins and ends at the same node",
    "pool-full": "1,000 riders wait or are promised already",
    "book-full": "the day has 100,000 rides already",
    "unknown-rider": "there is no such ride",
    "is-aboard": "the rider is aboard already",
    "ended": "the ride is over",
    "unknown-vehicle": "there is no such vehicle",
    "time-back": "the vehicle was already seen later",
    "not-promised": "the ride isn't promised to this vehicle",
    "vehicle-full": "the vehicle has too few seats left",
    "not-aboard": "the rider isn't aboard this vehicle",
    "batch-open": "a batch is being solved",
    "clock-back": "a batch was sealed at a later second",
}


class Desk:
    """The calls over a dispatcher, the places of its nodes, its streets and the ways over them. `page` is what the page has
    to know."""

    def __init__(self, dispatcher: Dispatcher, places: Places, streets: Sequence[Sequence[int]], ways: Ways,
                 page: Dict[str, Any]) -> None:
        self.dispatcher, self.places, self.streets, self.ways = dispatcher, places, streets, ways
        self.entered, self.page, self.searching = LastEntered(), page, asyncio.Lock()
        self.network_text: Optional[bytes] = None

    @property
    def state(self) -> State:
        """The book as the transcript tells it."""
        return self.dispatcher.state

    def network(self) -> bytes:
        """Nodes and streets as JSON, which never change in a day."""
        if self.network_text is None:
            at = [[node, round(a, 6), round(b, 6)] for node, (a, b) in self.places.at.items()]
            value = {"degrees": self.places.degrees, "nodes": at, "streets": self.streets, **self.page}
            self.network_text = json.dumps(value, separators=(",", ":")).encode()
        return self.network_text

    @property
    def contacts(self) -> Contacts:
        """Who the riders are."""
        return self.dispatcher.contacts

    def name(self, node: int) -> str:
        """What a node is called."""
        return self.places.names.get(node) or f"node {node}"

    def refused(self, word: str) -> Dict[str, Any]:
        """What the book would answer."""
        return {"reply": f"refused {word}", "word": word, "text": TEXTS[word]}

    def node_at(self, lat: Optional[float], lon: Optional[float], what: str) -> int:
        """The node nearest to a place of a body; 422 where there is none."""
        if lat is None or lon is None:
            raise HTTPException(422, f"{what}: give a node, or a latitude and a longitude")
        if not self.places.degrees:
            raise HTTPException(422, f"{what}: this network has no longitudes and latitudes; give a node")
        node = self.places.nearest((lat, lon))
        if node is None:
            raise HTTPException(422, f"{what}: no node lies within {self.places.far} metres")
        return node

    def end(self, node: Optional[int], lat: Optional[float], lon: Optional[float], what: str) -> int:
        """The node of one end of a request."""
        if node is None:
            return self.node_at(lat, lon, what)
        if lat is not None or lon is not None:
            raise HTTPException(422, f"{what}: give a node or a place, not both")
        return node

    def second(self, given: Optional[int], most: int = MOST_AHEAD) -> int:
        """The second of a command: the given one, or now. Where it is too far ahead, that is 422."""
        now: int = self.dispatcher.clock.now()
        if given is not None and given > now + most:
            raise HTTPException(422, f"second {given} is more than {most} s ahead of now, second {now}")
        return now if given is None else given

    async def command(self, command: str, *fields: int, party: int = 1, made: int = 200) -> Tuple[int, Dict[str, Any]]:
        """Sends a command and answers with the book's reply: 404 for unknown ones, 409 for its other refusals."""
        entry = await self.dispatcher.command(command, *fields, party=party)
        answer = {"reply": entry.reply}
        if not entry.reply.startswith("refused "):
            return made, answer
        word = entry.reply.split(" ")[1]
        answer.update(word=word, text=TEXTS.get(word, word))
        return 404 if word in UNKNOWN else 409, answer

    def ride(self, number: int) -> Ride:
        """A ride, or 404."""
        if number not in self.state.rides:
            raise HTTPException(404, "there is no such ride")
        return self.state.rides[number]

    def vehicle(self, number: int) -> int:
        """A vehicle's number, or 404."""
        if number not in self.state.vehicles:
            raise HTTPException(404, "there is no such vehicle")
        return number

    def ride_view(self, ride: Ride) -> Dict[str, Any]:
        """A ride with the seconds from now."""
        view: Dict[str, Any] = self.dispatcher.ride_view(ride)
        now = self.dispatcher.clock.now()
        ahead = ride.state in ("promised", "aboard")
        view["wait_time"] = ride.pickup - now if ride.state == "promised" and ride.pickup is not None else None
        view["arrival_time"] = ride.dropoff - now if ahead and ride.dropoff is not None else None
        due = ride.pickup if ride.state == "promised" else ride.dropoff if ride.state == "aboard" else None
        view["late"] = max(0, now - due) if due is not None else None
        view["travel_time"] = None if ride.pickup is None or ride.dropoff is None else ride.dropoff - ride.pickup
        return view


def answers(example: Any, status: int = 200) -> Any:
    """What the description of a call says of its answer."""
    return {status: {"content": {"application/json": {"example": example}}}}


def answered(status: int, answer: Any) -> Response:
    """An answer with its status."""
    return JSONResponse(answer, status_code=status)
