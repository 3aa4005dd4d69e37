"""How much the program takes, and the headers of its files."""

from types import MappingProxyType

MOST_NODES = 100_000
MOST_ARCS = 400_000
MOST_SECONDS = 10_000
MOST_NUMBER = 1_000_000_000
MOST_VEHICLES = 500
MOST_SEATS = 10
MOST_RIDERS = 100_000
MOST_ROWS = 200_000
MOST_PARTY = 6

NETWORK = ("from", "to", "seconds")
FLEET = ("vehicle", "seats", "node", "second")
SCRIPT = ("round", "lane", "command", "a", "b", "c", "d", "e")
NODES = ("node", "x", "y", "lon", "lat", "name")
HEADERS = MappingProxyType({"network": NETWORK, "fleet": FLEET, "script": SCRIPT})
NUMBER = f"a whole number from 0 to {MOST_NUMBER}"
