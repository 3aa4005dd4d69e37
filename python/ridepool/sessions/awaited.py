"""`alive`: a session of the program for asyncio. While a batch is solved, other commands are answered."""

import asyncio
from types import TracebackType
from typing import Any, Dict, Optional, Type

from ridepool.days.day import Day
from ridepool.faults import ProgramFailed
from ridepool.inputs.checks import Path
from ridepool.inputs.fleet import Fleet
from ridepool.inputs.network import Network
from ridepool.sessions.dialogue import Answer, Asked, Dialogue, Plan, answer_of, plan_of
from ridepool.sessions.rows import HEADER
from ridepool.sessions.started import Start
from ridepool.settings import Settings

LONGEST_LINE = 1 << 24


class Alive:
    """A session that `async with` starts and ends. Its calls are awaited; several may be open at once."""

    def __init__(self, net: Network, fleet: Fleet, settings: Optional[Settings], program: Optional[Path]) -> None:
        self.net, self.fleet, self.dialogue = net, fleet, Dialogue()
        self.given = (net, fleet, settings, program)
        self.errors: "list[str]" = []
        self.futures: "Dict[int, asyncio.Future[Asked]]" = {}
        self.failed: Optional[Exception] = None
        self.start: Optional[Start] = None
        self.child: Any = None
        self.reading: Any = None

    async def __aenter__(self) -> "Alive":
        self.start = Start(*self.given)
        try:
            self.child = await asyncio.create_subprocess_exec(
                *self.start.call, stdin=asyncio.subprocess.PIPE, stdout=asyncio.subprocess.PIPE,
                stderr=asyncio.subprocess.PIPE, limit=LONGEST_LINE)
        except OSError as fault:
            self.start.clear()
            raise ProgramFailed(f"the program can't be started: {fault}") from None
        self.begun = asyncio.get_running_loop().create_future()
        self.reading = asyncio.ensure_future(self._read())
        await self._send(HEADER + "\n")
        try:
            await self.begun
        except BaseException:
            await self.kill()
            raise
        return self

    async def __aexit__(self, kind: Optional[Type[BaseException]], fault: Optional[BaseException],
                        trace: Optional[TracebackType]) -> None:
        if kind is None and self.failed is None and not self.reading.done():
            await self.close()
        await self.kill()

    async def _read(self) -> None:
        """Reads both streams until the program ends. Whoever waits then is told why."""
        try:
            await asyncio.gather(self._read_lines(), self._read_errors())
            status = await self.child.wait()
            assert self.start is not None
            self.failed = self.start.fault(status, self.errors)
        except Exception as fault:
            self.failed = ProgramFailed(f"what the program wrote can't be read: {fault!r}")
        for future in [self.begun, *self.futures.values()]:
            if not future.done():
                future.set_exception(self.failed)

    async def _read_lines(self) -> None:
        """Takes the lines of the transcript."""
        while line := await self.child.stdout.readline():
            self._settle(self.dialogue.told(line.decode("ascii").rstrip("\n")))
            if self.dialogue.has_begun and not self.begun.done():
                self.begun.set_result(None)

    async def _read_errors(self) -> None:
        """Takes the lines of standard error."""
        while line := await self.child.stderr.readline():
            text = line.decode("ascii", "replace").rstrip("\n")
            self.errors.append(text)
            self._settle(self.dialogue.complained(text))

    def _settle(self, asked: Optional[Asked]) -> None:
        """Tells whoever waits that a command is answered."""
        if asked is None:
            return
        future = self.futures.pop(asked.row, None)
        if future is not None and not future.done():
            future.set_result(asked)

    async def _send(self, text: str) -> None:
        """Sends rows. After the program's end nothing is sent: whoever waits for the answer is told."""
        try:
            self.child.stdin.write(text.encode("ascii"))
            await self.child.stdin.drain()
        except (BrokenPipeError, ConnectionResetError):
            pass

    async def _ask(self, command: str, persons: int = 1, **fields: int) -> Asked:
        """Sends a command and waits until it is answered."""
        if self.failed is not None:
            raise self.failed
        asked = self.dialogue.ask(command, persons, **fields)
        future: "asyncio.Future[Asked]" = asyncio.get_running_loop().create_future()
        self.futures[asked.row] = future
        await self._send(asked.text)
        return await future

    async def submit(self, *, rider: int, origin: int, destination: int, second: int, persons: int = 1) -> Answer:
        """A rider asks for a ride between two nodes at a second."""
        return answer_of(await self._ask("submit", persons, rider=rider, origin=origin, destination=destination,
                                         second=second))

    async def cancel(self, *, rider: int) -> Answer:
        """A rider no longer wants the ride."""
        return answer_of(await self._ask("cancel", rider=rider))

    async def report(self, *, vehicle: int, node: int, second: int) -> Answer:
        """A vehicle says where it is."""
        return answer_of(await self._ask("report", vehicle=vehicle, node=node, second=second))

    async def pickup(self, *, vehicle: int, rider: int, second: int) -> Answer:
        """A rider got in."""
        return answer_of(await self._ask("pickup", vehicle=vehicle, rider=rider, second=second))

    async def dropoff(self, *, vehicle: int, rider: int, second: int) -> Answer:
        """A rider got out."""
        return answer_of(await self._ask("dropoff", vehicle=vehicle, rider=rider, second=second))

    async def seal(self, *, second: int) -> Plan:
        """Seals the batch at a second, and waits for its plan. A RefusedCommand where the book refuses it."""
        return plan_of(await self._ask("seal", second=second))

    @property
    def transcript(self) -> str:
        """The report so far."""
        return self.dialogue.transcript().decode("ascii")

    async def close(self) -> Day:
        """Ends the session, when all that was asked is answered. Gives it as a Day."""
        self.child.stdin.close()
        await self.reading
        if self.child.returncode != 0:
            assert self.failed is not None
            raise self.failed
        return Day.from_bytes(self.dialogue.transcript(), self.net, self.fleet, "live")

    async def kill(self) -> None:
        """Ends the program at once."""
        if self.child is not None and self.child.returncode is None:
            self.child.kill()
        if self.reading is not None:
            await self.reading
        if self.start is not None:
            self.start.clear()


def alive(net: Network, fleet: Fleet, settings: Optional[Settings] = None, *, program: Optional[Path] = None) -> Alive:
    """A session for asyncio. Use it in an `async with`; its calls are awaited.

    The exceptions are those of `live`.

    >>> import asyncio
    >>> async def day():
    ...     net = Network.made(side=3, seed=1)
    ...     async with alive(net, Fleet.drawn(net, vehicles=1)) as session:
    ...         answer = await session.submit(rider=1, origin=1, destination=9, second=0)
    ...         plan, other = await asyncio.gather(session.seal(second=30), session.cancel(rider=2))
    ...         return answer.reply, plan.number, other.reply
    >>> asyncio.run(day())
    ('accepted', 1, 'refused unknown-rider')
    """
    return Alive(net, fleet, settings, program)
