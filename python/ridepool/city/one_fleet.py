"""One fleet of a city: a running session, and vehicles that follow its plans by the rules of a driven day.

An object of this class is called from elsewhere, as an actor of Dask. Each call is whole numbers and texts.
"""

import time
from dataclasses import replace
from typing import Any, Iterator, NamedTuple, Optional, Sequence, Tuple

from ridepool.faults import ProgramFailed
from ridepool.inputs.checks import Path
from ridepool.inputs.fleet import Fleet
from ridepool.inputs.network import Network
from ridepool.policies.known import Policy, Ridepool, decision_of
from ridepool.policies.simulation import Simulation
from ridepool.policies.state import Decision, State
from ridepool.sessions.dialogue import plans_of
from ridepool.settings import Settings

Ask = Tuple[int, int, int, int, int]


class Batch(NamedTuple):
    """What a fleet is told for a batch: riders who leave it, riders who ask (rider, origin, destination, second, persons),
    and the second of the seal."""

    cancels: Tuple[int, ...]
    asks: Tuple[Ask, ...]
    second: int


class Sealed(NamedTuple):
    """What comes of a batch: riders whom the book didn't take, with its reply; those left out by the plan; those whose wait
    was over; those who have a promise. Then each vehicle's node, the second at which it can leave it, and how many
    riders its stops have. `seconds` is how long the batch took by the clock, `text` what the transcript gained."""

    refused: Tuple[Tuple[int, str], ...]
    out: Tuple[int, ...]
    expired: Tuple[int, ...]
    promised: Tuple[int, ...]
    nodes: Tuple[int, ...]
    ready: Tuple[int, ...]
    load: Tuple[int, ...]
    is_overflow: bool
    seconds: float
    text: str

    @property
    def plan(self) -> "tuple[Any, ...]":
        """All but the seconds and the text: the same commands give the same."""
        return self[:-2]


class Retold(Policy):
    """The plans that a transcript tells, one at each seal. Nothing is planned."""

    def __init__(self, transcript: str) -> None:
        self.decisions: Iterator[Decision] = map(decision_of, plans_of(transcript.encode("ascii")))

    def plan(self, state: State) -> Decision:
        """The next one."""
        return next(self.decisions)


class OneFleet:
    """A fleet on its day. Its report has trees, whatever the settings say, so that the day can go on elsewhere; with a
    `transcript` it goes on behind that one."""

    def __init__(self, net: Network, fleet: Fleet, settings: Settings, program: Optional[Path] = None,
                 transcript: str = "") -> None:
        settings = replace(settings, proof=True)
        self.simulation, self.policy = Simulation(net, fleet, settings), Ridepool(program)
        self.lines = transcript.count("\n")
        if transcript:
            self.policy.go_on(net, fleet, settings, transcript.encode("ascii"))
        else:
            self.policy.begin(net, fleet, settings)

    def retell(self, told: Sequence[Batch], transcript: str) -> "list[Sealed]":
        """Lets the vehicles drive through batches that were planned elsewhere."""
        policy = Retold(transcript)
        return [self.through(it, policy) for it in told]

    def batch(self, told: Batch) -> Sealed:
        """Takes what is told, lets the vehicles drive up to the seal, and plans."""
        return self.through(told, self.policy)._replace(text=self.gained())

    def gained(self) -> str:
        """What the transcript has gained since this was asked last."""
        assert self.policy.session is not None
        lines = self.policy.session.dialogue.texts
        found, self.lines = lines[self.lines:], len(lines)
        return "".join(f"{line}\n" for line in found)

    def through(self, told: Batch, policy: Policy) -> Sealed:
        """A batch that is planned by this policy."""
        begun, day = time.monotonic(), self.simulation
        for rider in told.cancels:
            day.cancel(rider)
        first = len(day.entries)
        for ask in told.asks:
            day.submit(*ask)
        refused = tuple((entry.fields[0], entry.reply) for entry in day.entries[first:] if entry.reply != "accepted")
        day.seal(told.second, policy)
        return self.sealed(refused, time.monotonic() - begun)

    def sealed(self, refused: Tuple[Tuple[int, str], ...], seconds: float) -> Sealed:
        """What came of the last batch."""
        day, batch = self.simulation, self.simulation.batches[-1]
        out = tuple(number for number, it in sorted(day.pool.items()) if it.promised is None)
        promised = tuple(number for number, it in sorted(day.pool.items()) if it.promised is not None)
        ready = tuple(max(it.second, batch.second) for it in day.vehicles)
        load = tuple(len(it.aboard) + sum(stop.kind == "pick" for stop in it.stops) for it in day.vehicles)
        return Sealed(refused, out, tuple(batch.expired), promised, tuple(it.node for it in day.vehicles), ready, load,
                      batch.overflow, seconds, "")

    def close(self) -> str:
        """Lets the vehicles make the stops that are left, and ends the session. Gives what the transcript gained."""
        day, session = self.simulation, self.policy.session
        told = len(day.entries)
        day.finish()
        assert session is not None
        for entry in day.entries[told:]:
            self.policy.tell(entry)
        if session.close().text is None:
            raise ProgramFailed("the session printed no report", 0)
        return self.gained()

    def kill(self) -> None:
        """Ends the session at once."""
        self.policy.end()


def taken_up(net: Network, fleet: Fleet, settings: Settings, program: Optional[Path], told: Sequence[Batch],
             transcript: str) -> "tuple[OneFleet, list[Sealed]]":
    """A fleet whose worker ended goes on elsewhere, behind what its transcript had come to with its last batch. Gives it, and
    what came of each batch. No batch is planned again.

    This is the one place where that is done.
    """
    one = OneFleet(net, fleet, settings, program, transcript)
    return one, one.retell(told, transcript)
