"""Ride pooling: a network, a fleet and requests go in, and a day of plans comes out, each proved to be the best or with
its gap.

    import ridepool as rp
    net = rp.Network.from_csv("network.csv", nodes="nodes.csv")
    day = rp.drive(net, rp.Fleet.from_csv("fleet.csv"), rp.Requests.from_csv("requests.csv", every=30))
    day.riders
"""

import importlib
from typing import TYPE_CHECKING, Any

if TYPE_CHECKING:
    from ridepool.city.day import CityDay, drive_fleets, parted
    from ridepool.days.calls import Audit, audit, drive, load, run
    from ridepool.days.day import Day
    from ridepool.faults import AuditFailed, ProgramFailed, RefusedInput, UnlawfulPlan
    from ridepool.inputs.fleet import Fleet
    from ridepool.inputs.network import Network
    from ridepool.inputs.requests import Requests
    from ridepool.policies.known import CheapestInsertion, NearestFree, Policy, Ridepool
    from ridepool.policies.matching import OptimalMatching
    from ridepool.policies.simulation import simulate
    from ridepool.policies.state import Asking, Decision, Standing, State, Visit
    from ridepool.sessions.awaited import Alive, alive
    from ridepool.sessions.blocking import Live, live
    from ridepool.sessions.dialogue import Answer, Plan, RefusedCommand
    from ridepool.sessions.resumed import Resumed, resume
    from ridepool.settings import Settings
    from ridepool.study.sweep import sweep

# Where each public name stands. They are read when they are asked for: a tool that needs none needs no pandas.
PLACES = {
    "Alive": "sessions.awaited",
    "Answer": "sessions.dialogue",
    "Asking": "policies.state",
    "Audit": "days.calls",
    "AuditFailed": "faults",
    "CheapestInsertion": "policies.known",
    "CityDay": "city.day",
    "Day": "days.day",
    "Decision": "policies.state",
    "Fleet": "inputs.fleet",
    "Live": "sessions.blocking",
    "NearestFree": "policies.known",
    "Network": "inputs.network",
    "OptimalMatching": "policies.matching",
    "Plan": "sessions.dialogue",
    "Policy": "policies.known",
    "ProgramFailed": "faults",
    "RefusedCommand": "sessions.dialogue",
    "RefusedInput": "faults",
    "Requests": "inputs.requests",
    "Resumed": "sessions.resumed",
    "Ridepool": "policies.known",
    "Settings": "settings",
    "Standing": "policies.state",
    "State": "policies.state",
    "UnlawfulPlan": "faults",
    "Visit": "policies.state",
    "alive": "sessions.awaited",
    "audit": "days.calls",
    "drive": "days.calls",
    "drive_fleets": "city.day",
    "live": "sessions.blocking",
    "load": "days.calls",
    "parted": "city.day",
    "resume": "sessions.resumed",
    "run": "days.calls",
    "simulate": "policies.simulation",
    "sweep": "study.sweep",
}
__all__ = list(PLACES)


def __getattr__(name: str) -> Any:
    if name not in PLACES:
        raise AttributeError(f"module ridepool has no {name}")
    return getattr(importlib.import_module(f"ridepool.{PLACES[name]}"), name)
