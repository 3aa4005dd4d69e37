"""The desk as an application: all calls, and its faults in one shape."""

from __future__ import annotations

from typing import Any, Dict, Mapping

from fastapi import FastAPI, Request
from fastapi.exceptions import RequestValidationError
from fastapi.responses import JSONResponse, Response
from starlette.exceptions import HTTPException as AnyHTTPException
from starlette.types import ASGIApp, Receive, Scope, Send

from ridepool.desk.calls.about import add_desk
from ridepool.desk.calls.batches import add_batches
from ridepool.desk.calls.files import add_files, is_file
from ridepool.desk.calls.riders import add_contacts, add_rides
from ridepool.desk.calls.shared import Desk, answered
from ridepool.desk.calls.shift import add_breaks, add_shift, add_tables
from ridepool.desk.calls.trips import add_trips
from ridepool.desk.calls.vehicles import add_entries, add_vehicles
from ridepool.desk.dispatcher import Dispatcher, Refused, Unavailable
from ridepool.desk.guard import OPEN

NO_JSON = ("value_error.jsondecode", "json_invalid")  # pydantic 1, pydantic 2
NO_OBJECT = ("type_error.dict", "model_attributes_type", "dict_type", "model_type")


def make_app(desk: Desk) -> FastAPI:
    """The application with all calls."""
    app = FastAPI(title="ridepool desk", version="1", docs_url=None, redoc_url=None,
                  description="Calls of a dispatcher's desk. Seconds are those of the book.")
    add_faults(app)
    for add in (add_tables, add_rides, add_contacts, add_vehicles, add_entries, add_trips, add_breaks, add_batches, add_shift,
                add_desk):
        add(app, desk)
    add_files(app)
    return app


def problem_of(fault: Mapping[str, Any]) -> Dict[str, str]:
    """A fault of a value: its field, which is empty for the whole body, and what is wrong with it."""
    if fault["type"] in NO_JSON:
        return {"field": "", "text": f"not JSON: {fault.get('ctx', {}).get('error') or fault['msg']}"}
    if fault["type"] in NO_OBJECT:
        return {"field": "", "text": "a JSON object is needed"}
    return {"field": str(fault["loc"][1]) if len(fault["loc"]) > 1 else "", "text": fault["msg"]}


def add_faults(app: FastAPI) -> None:
    """Faults in one shape: a `text` that a person understands."""
    @app.exception_handler(AnyHTTPException)
    async def plain(request: Request, fault: AnyHTTPException) -> Response:
        status = 422 if fault.status_code == 400 else fault.status_code  # a body that nobody can read is 400
        return JSONResponse({"text": fault.detail}, status_code=status, headers=fault.headers)

    @app.exception_handler(RequestValidationError)
    async def bad_value(request: Request, fault: RequestValidationError) -> Response:
        # A number that may have a fraction or none has a fault for either; the first says enough.
        problems = list({it["field"]: it for it in map(problem_of, reversed(fault.errors()))}.values())[::-1]
        text = "; ".join(f"{it['field'] or 'body'}: {it['text']}" for it in problems)
        return answered(422, {"text": text, "problems": problems})

    @app.exception_handler(Unavailable)
    async def unavailable(request: Request, fault: Unavailable) -> Response:
        return JSONResponse({"text": str(fault)}, status_code=503, headers={"retry-after": "2"})

    @app.exception_handler(Refused)
    async def refused(request: Request, fault: Refused) -> Response:
        return answered(500, {"text": str(fault)})


class Opening:
    """Stands before the calls while the day so far is read for the first time: only the pages and `/health` are answered."""

    def __init__(self, app: ASGIApp, dispatcher: Dispatcher) -> None:
        self.app, self.dispatcher = app, dispatcher

    async def __call__(self, scope: Scope, receive: Receive, send: Send) -> None:
        path = scope.get("path", "")
        if self.dispatcher.has_opened or scope["type"] != "http" or is_file(path) or path in OPEN:
            await self.app(scope, receive, send)
        else:
            response = JSONResponse({"text": self.dispatcher.why_in_full()}, status_code=503, headers={"retry-after": "2"})
            await response(scope, receive, send)
