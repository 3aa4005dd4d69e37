"""Where the fleets of a city are planned: in this process, or on the workers of a cluster, each an actor there."""

import os
import threading
from concurrent.futures import Future, ThreadPoolExecutor
from typing import Any, Dict, List, Optional, Sequence, Set

from ridepool.city.one_fleet import Batch, OneFleet, Sealed, taken_up
from ridepool.faults import ProgramFailed
from ridepool.inputs.checks import Path
from ridepool.inputs.fleet import Fleet
from ridepool.inputs.network import Network
from ridepool.settings import Settings

LOOK_SECONDS = 1.0
# How often a fleet goes on elsewhere on one day.
MOST_TAKEN_UP = 5


class Died(Exception):
    """The worker of a fleet is gone, or its program ended."""


class Hands:
    """What plans the fleets. `told` are the batches of a fleet that came before, and `transcript` what its session had printed
    with the last of them: behind it the fleet goes on elsewhere."""

    def begin(self, at: int, fleet: Fleet) -> None:
        """A fleet begins its day."""
        raise NotImplementedError

    def batch(self, at: int, told: Batch) -> Sealed:
        """What comes of a fleet's batch. Died where it can't be known."""
        raise NotImplementedError

    def go_on(self, at: int, fleet: Fleet, told: Sequence[Batch], transcript: str) -> List[Sealed]:
        """A fleet goes on elsewhere."""
        raise NotImplementedError

    def close(self, at: int) -> str:
        """A fleet ends its day. Gives the last part of its report."""
        raise NotImplementedError

    def end(self) -> None:
        """Ends all that still runs."""
        raise NotImplementedError


class Here(Hands):
    """Fleets as objects of this process. Their programs run beside each other all the same."""

    def __init__(self, net: Network, settings: Settings, program: Optional[Path]) -> None:
        self.net, self.settings, self.program = net, settings, program
        self.fleets: Dict[int, OneFleet] = {}

    def begin(self, at: int, fleet: Fleet) -> None:
        """A fleet begins its day."""
        self.fleets[at] = OneFleet(self.net, fleet, self.settings, self.program)

    def batch(self, at: int, told: Batch) -> Sealed:
        """What comes of a fleet's batch."""
        try:
            return self.fleets[at].batch(told)
        except ProgramFailed as fault:
            raise Died(str(fault)) from None

    def go_on(self, at: int, fleet: Fleet, told: Sequence[Batch], transcript: str) -> List[Sealed]:
        """The fleet's program is started again."""
        self.fleets[at].kill()
        try:
            self.fleets[at], sealed = taken_up(self.net, fleet, self.settings, self.program, told, transcript)
        except ProgramFailed as fault:
            raise Died(str(fault)) from None
        return sealed

    def close(self, at: int) -> str:
        """A fleet ends its day."""
        return self.fleets[at].close()

    def end(self) -> None:
        """Ends the programs."""
        for fleet in self.fleets.values():
            fleet.kill()


class FleetThere:
    """A fleet as an actor on a worker. It uses the program that the worker keeps under a name."""

    def __init__(self, name: str, net: Network, fleet: Fleet, settings: Settings) -> None:
        from ridepool.days.on_worker import TOWNS

        self.given = net, fleet, settings, os.path.join(TOWNS[name], "ridepool")
        self.one: Optional[OneFleet] = None

    def begin(self, told: Sequence[Batch], transcript: str) -> List[Sealed]:
        """Begins the day, or goes on with it where batches were told elsewhere before."""
        self.one, sealed = taken_up(*self.given, told, transcript)
        return sealed

    def batch(self, told: Batch) -> Sealed:
        """What comes of a batch."""
        assert self.one is not None
        return self.one.batch(told)

    def close(self) -> str:
        """Ends the day."""
        assert self.one is not None
        return self.one.close()

    def kill(self) -> None:
        """Ends the program."""
        if self.one is not None:
            self.one.kill()


class There(Hands):
    """Fleets as actors on the workers of a cluster. `workers` are those that were tried; they keep the program and need
    numpy, pandas and scipy."""

    def __init__(self, workers: Any, net: Network, settings: Settings) -> None:
        self.workers, self.client, self.net, self.settings = workers, workers.client, net, settings
        self.lock = threading.Lock()
        self.homes: Dict[int, str] = {}
        self.actors: Dict[int, Any] = {}
        self.futures: Dict[int, Any] = {}

    def begin(self, at: int, fleet: Fleet) -> None:
        """A fleet begins on the worker that has the fewest."""
        self.place(at, fleet, (), "")

    def place(self, at: int, fleet: Fleet, told: Sequence[Batch], transcript: str) -> List[Sealed]:
        """Puts a fleet on a worker."""
        with self.lock:
            there = self.there()
            taken = [home for other, home in self.homes.items() if other != at]
            home = min(there, key=lambda address: (taken.count(address), address))
            self.homes[at] = home
        future = self.futures[at] = self.client.submit(
            FleetThere, self.workers.name, self.net, fleet, self.settings, actor=True, workers=[home],
            allow_other_workers=False, pure=False)
        self.actors[at] = self.waited(at, future)
        return list(self.waited(at, self.actors[at].begin(list(told), transcript)))

    def there(self) -> Set[str]:
        """The workers that are fit."""
        self.workers.look()
        if not self.workers.fit:
            raise Died("no worker is left")
        return set(self.workers.fit)

    def waited(self, at: int, future: Any) -> Any:
        """What a call gives. While it waits it looks whether the worker still lives, since Dask doesn't tell."""
        while True:
            try:
                return future.result(timeout=LOOK_SECONDS)
            except Exception as fault:  # whatever the worker raises: another may do better
                if self.homes[at] not in self.workers.there():
                    raise Died(f"worker {self.homes[at]} ended") from None
                if not is_timeout(fault):
                    raise Died(f"{type(fault).__name__}: {' '.join(str(fault).split())}") from None

    def batch(self, at: int, told: Batch) -> Sealed:
        """What comes of a fleet's batch."""
        try:
            call = self.actors[at].batch(told)
        except ValueError as lost:
            raise Died(str(lost)) from None
        return Sealed(*self.waited(at, call))

    def go_on(self, at: int, fleet: Fleet, told: Sequence[Batch], transcript: str) -> List[Sealed]:
        """The fleet goes on on another worker."""
        self.futures[at].cancel()
        return [Sealed(*it) for it in self.place(at, fleet, told, transcript)]

    def close(self, at: int) -> str:
        """A fleet ends its day."""
        return str(self.waited(at, self.actors[at].close()))

    def end(self) -> None:
        """Lets the actors go; their programs end with the rows that they are sent."""
        for future in self.futures.values():
            future.cancel()


def is_timeout(fault: BaseException) -> bool:
    """Whether an exception says that nothing has come yet. Python before 3.11 has several that are called so."""
    return isinstance(fault, TimeoutError) or type(fault).__name__ == "TimeoutError"


class Together:
    """Calls of all fleets at the same time."""

    def __init__(self, count: int) -> None:
        self.pool = ThreadPoolExecutor(count)

    def all(self, call: Any, *given: Sequence[Any]) -> "list[Any]":
        """What the calls give, in order. Where one fails, all have ended."""
        futures: "list[Future[Any]]" = [self.pool.submit(call, *it) for it in zip(*given)]
        return [future.result() for future in futures]

    def close(self) -> None:
        """Ends the threads."""
        self.pool.shutdown(wait=True)
