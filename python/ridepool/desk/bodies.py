"""The bodies of the desk's calls, checked by pydantic, version 1 or 2."""

from __future__ import annotations

from typing import TYPE_CHECKING, Any, Dict, Optional, Union

import pydantic
from pydantic import BaseModel, Field

from ridepool.desk.numbers import FIRST_OWN, MOST

MOST_LETTERS = 200
IS_2 = pydantic.VERSION.startswith("2.")

if TYPE_CHECKING:
    Number = int
    Own = int
    Persons = int
    Latitude = float
    Longitude = float
    Text = str
else:
    from pydantic import confloat, conint, constr

    def whole(least: int, most: int) -> Any:
        """A whole number; a boolean or a text is none."""
        return conint(strict=True, ge=least, le=most)

    def degrees(most: int) -> Any:
        """Degrees from -most to most, with a fraction or without."""
        return Union[whole(-most, most), confloat(strict=True, ge=-most, le=most)]

    Number, Own, Persons = whole(0, MOST), whole(FIRST_OWN, MOST), whole(1, 6)
    Latitude, Longitude = degrees(90), degrees(180)
    Text = constr(strict=True, max_length=MOST_LETTERS)


def settings(example: Dict[str, Any]) -> Dict[str, Any]:
    """What a body's class is given: no field but its own, and an example in the description."""
    return {"extra": "forbid", ("json_schema_extra" if IS_2 else "schema_extra"): {"example": example}}


class RideBody(BaseModel, **settings({"from": 12, "to": 40, "persons": 2})):
    """A request: each end is a node, or a latitude with a longitude."""

    origin: Optional[Number] = Field(None, alias="from", description="the node where the ride begins; or else the "
                                     "pickup's place")
    destination: Optional[Number] = Field(None, alias="to", description="the node where it ends; or else the "
                                          "drop-off's place")
    pickup_lat: Optional[Latitude] = None
    pickup_lon: Optional[Longitude] = None
    drop_off_lat: Optional[Latitude] = None
    drop_off_lon: Optional[Longitude] = None
    persons: Persons = 1
    time: Optional[Number] = Field(None, description="the second of the request; now without it")
    ride: Optional[Own] = Field(None, description="a number of the caller's own; without it one is given, below "
                                f"{FIRST_OWN:,}")
    who: Optional[Text] = Field(None, description="the rider's name, which is kept beside the day")
    phone: Optional[Text] = None
    note: Optional[Text] = None


class ContactBody(BaseModel, **settings({"who": "A. Rider", "phone": "+43 1 234", "note": "wheelchair"})):
    """Who a rider is, for the people at the desk and the driver."""

    who: Optional[Text] = None
    phone: Optional[Text] = None
    note: Optional[Text] = None


class NoShowBody(BaseModel, **settings({"ride": 7})):
    """A rider who isn't there."""

    ride: Number


class PositionBody(BaseModel, **settings({"node": 12})):
    """Where a vehicle is, or the node that it comes to next and when."""

    node: Optional[Number] = Field(None, description="the node where it is, or to which it comes next; or else its place")
    lat: Optional[Latitude] = None
    lon: Optional[Longitude] = None
    second: Optional[Number] = Field(None, description="the second at which it is there; now without it")


class StopBody(BaseModel, **settings({"ride": 7})):
    """A rider who got in or out."""

    ride: Number
    second: Optional[Number] = Field(None, description="the second of the stop; now without it")
