"""`live`: a session of the program in which each call waits for its answer."""

import queue
import subprocess
import threading
from types import TracebackType
from typing import IO, Optional, Tuple, Type

from ridepool.days.day import Day
from ridepool.faults import ProgramFailed
from ridepool.inputs.checks import Path
from ridepool.inputs.fleet import Fleet
from ridepool.inputs.network import Network
from ridepool.sessions.dialogue import Answer, Asked, Dialogue, Plan, answer_of, plan_of
from ridepool.sessions.rows import HEADER
from ridepool.sessions.started import Start
from ridepool.settings import Settings

TRANSCRIPT, ERRORS = "transcript", "errors"


class Live:
    """A running session. Calls may come from several threads; they wait for each other."""

    def __init__(self, net: Network, fleet: Fleet, settings: Optional[Settings], program: Optional[Path]) -> None:
        self.net, self.fleet, self.dialogue, self.lock = net, fleet, Dialogue(), threading.Lock()
        self.start = self._started(settings, program)
        self.errors: "list[str]" = []
        self.told: "queue.Queue[Tuple[str, Optional[str]]]" = queue.Queue()
        self.open = {TRANSCRIPT, ERRORS}
        self.failed: Optional[Exception] = None
        try:
            self.child = subprocess.Popen(self.start.call, stdin=subprocess.PIPE, stdout=subprocess.PIPE,
                                          stderr=subprocess.PIPE, text=True, encoding="ascii", errors="replace")
        except OSError as fault:
            self.start.clear()
            raise ProgramFailed(f"the program can't be started: {fault}") from None
        self._read()

    def _started(self, settings: Optional[Settings], program: Optional[Path]) -> Start:
        """How the program is called."""
        return Start(self.net, self.fleet, settings, program)

    def _has_begun(self) -> bool:
        """Whether commands may be sent: the head of the transcript has come."""
        return self.dialogue.has_begun

    def _read(self) -> None:
        """Begins to read, and waits until commands may be sent."""
        for name, stream in ((TRANSCRIPT, self.child.stdout), (ERRORS, self.child.stderr)):
            threading.Thread(target=self._pass_on, args=(name, stream), daemon=True).start()
        try:
            self._send(HEADER + "\n")
            while not self._has_begun():
                self._next()
        except BaseException:
            self.kill()
            raise

    def _pass_on(self, name: str, stream: "IO[str]") -> None:
        """Passes on the lines of a stream, and its end."""
        for line in stream:
            self.told.put((name, line.rstrip("\n")))
        self.told.put((name, None))

    def _send(self, text: str) -> None:
        """Sends rows. After the program's end nothing is sent: whoever waits for the answer is told."""
        assert self.child.stdin is not None
        try:
            self.child.stdin.write(text)
            self.child.stdin.flush()
        except (BrokenPipeError, ValueError):
            pass

    def _next(self) -> None:
        """Waits for a line. Where both streams have ended, so has the program: an exception says why."""
        if not self.open:
            self._ended()
        name, line = self.told.get()
        if line is None:
            self.open.discard(name)
        elif name == TRANSCRIPT:
            self._told(line)
        else:
            self.errors.append(line)
            self._complained(line)

    def _told(self, line: str) -> None:
        """Takes a line of the transcript."""
        self.dialogue.told(line)

    def _complained(self, line: str) -> None:
        """Takes a line of standard error."""
        self.dialogue.complained(line)

    def _ended(self) -> None:
        """Tells that the program has ended."""
        if self.failed is None:
            self.failed = self.start.fault(self.child.wait(), self.errors)
        raise self.failed

    def _ask(self, command: str, persons: int = 1, **fields: int) -> Asked:
        """Sends a command and waits until it is answered."""
        with self.lock:
            asked = self.dialogue.ask(command, persons, **fields)
            self._send(asked.text)
            while not asked.is_done:
                self._next()
        return asked

    def submit(self, *, rider: int, origin: int, destination: int, second: int, persons: int = 1) -> Answer:
        """A rider asks for a ride between two nodes at a second."""
        return answer_of(self._ask("submit", persons, rider=rider, origin=origin, destination=destination, second=second))

    def cancel(self, *, rider: int) -> Answer:
        """A rider no longer wants the ride."""
        return answer_of(self._ask("cancel", rider=rider))

    def report(self, *, vehicle: int, node: int, second: int) -> Answer:
        """A vehicle says where it is."""
        return answer_of(self._ask("report", vehicle=vehicle, node=node, second=second))

    def pickup(self, *, vehicle: int, rider: int, second: int) -> Answer:
        """A rider got in."""
        return answer_of(self._ask("pickup", vehicle=vehicle, rider=rider, second=second))

    def dropoff(self, *, vehicle: int, rider: int, second: int) -> Answer:
        """A rider got out."""
        return answer_of(self._ask("dropoff", vehicle=vehicle, rider=rider, second=second))

    def seal(self, *, second: int) -> Plan:
        """Seals the batch at a second, and waits for its plan. A RefusedCommand where the book refuses it."""
        return plan_of(self._ask("seal", second=second))

    @property
    def transcript(self) -> str:
        """The report so far."""
        return self.dialogue.transcript().decode("ascii")

    def close(self) -> Day:
        """Ends the session. Gives it as a Day."""
        with self.lock:
            assert self.child.stdin is not None
            try:
                self.child.stdin.close()
            except BrokenPipeError:
                pass
            while self.open:
                self._next()
            try:
                if self.child.wait() != 0:
                    self._ended()
                return Day.from_bytes(self.dialogue.transcript(), self.net, self.fleet, "live")
            finally:
                self.kill()

    def kill(self) -> None:
        """Ends the program at once."""
        self.child.kill()
        self.child.wait()
        self.start.clear()

    def __enter__(self) -> "Live":
        return self

    def __exit__(self, kind: Optional[Type[BaseException]], fault: Optional[BaseException],
                 trace: Optional[TracebackType]) -> None:
        if kind is None and self.child.returncode is None:
            self.close()
        self.kill()


def live(net: Network, fleet: Fleet, settings: Optional[Settings] = None, *, program: Optional[Path] = None) -> Live:
    """Starts a session. Use it in a `with`; each call waits for its answer.

    A RefusedInput says which input isn't taken. Where the program ends, the call that waits, and each one after, is a
    ProgramFailed.

    >>> net = Network.made(side=3, seed=1)
    >>> with live(net, Fleet.drawn(net, vehicles=1)) as session:
    ...     print(session.submit(rider=1, origin=1, destination=9, second=0).reply)
    ...     plan = session.seal(second=30)
    ...     print(plan.number, plan.gap)
    accepted
    1 0
    """
    return Live(net, fleet, settings, program)
