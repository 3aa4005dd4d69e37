"""The pages, their parts and Leaflet: these files by these names, and no others."""

from __future__ import annotations

import pathlib

from fastapi import FastAPI
from fastapi.responses import FileResponse, Response

PAGE = pathlib.Path(__file__).resolve().parent.parent / "page"
LEAFLET = pathlib.Path("/usr/share/javascript/leaflet")
PARTS = ("desk.css", "desk.js", "alarm.js", "map.js", "shapes.js", "lists.js", "words.js", "known_ways.js", "calls.js",
         "icon.svg", "stream.js", "shared.js", "events.js", "make.js", "chosen.js", "search.js", "day.js", "plans.js",
         "phone.css", "phone.js", "drive.js", "ride.js", "presses.js")
FILES = {
    "/": PAGE / "index.html", "/docs": PAGE / "calls.html", "/drive": PAGE / "drive.html", "/ride/{number}": PAGE / "ride.html",
    **{f"/{name}": PAGE / name for name in PARTS},
    "/leaflet.js": LEAFLET / "leaflet.js", "/leaflet.css": LEAFLET / "leaflet.css",
}


def add_files(app: FastAPI) -> None:
    """All of them."""
    for address, file in FILES.items():
        add_file(app, address, file)


def add_file(app: FastAPI, address: str, file: pathlib.Path) -> None:
    """One of them."""
    @app.get(address, include_in_schema=False)
    async def serve() -> Response:
        return FileResponse(file, headers={"cache-control": "no-cache"})


def is_file(path: str) -> bool:
    """Whether a path is one of these, which everyone may read."""
    first, _, rest = path[1:].partition("/")
    return path in FILES or (first == "ride" and rest.isdigit())
