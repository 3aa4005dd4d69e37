"""A started `ridepool live` or `ridepool resume`: rows go in, whole lines of the transcript come out."""

import asyncio
import contextlib
from typing import Callable, List, Optional, Sequence

from ridepool.inputs.tables import Path
from ridepool.sessions.rows import HEADER, refused_row

CHUNK = 65_536


class Live:
    """The running program; `words` begin with its command. `on_lines` is told whole lines as they come, `on_refused` the
    number of a row that was refused and the text, `on_end` the text of the end, `on_other` each other line of standard
    error, and gives whether it was meant."""

    def __init__(self, program: Path, words: Sequence[str], on_lines: Callable[[List[str]], None],
                 on_refused: Callable[[int, str], None], on_end: Callable[[str], None],
                 on_other: Optional[Callable[[str], bool]] = None) -> None:
        self.command = [str(program), *words]
        self.on_lines, self.on_refused, self.on_end, self.on_other = on_lines, on_refused, on_end, on_other
        self.child: Optional[asyncio.subprocess.Process] = None
        self.reading: "Optional[asyncio.Task[None]]" = None
        self.told = ""

    @property
    def process(self) -> asyncio.subprocess.Process:
        """The process, which was started."""
        assert self.child is not None
        return self.child

    @property
    def rows(self) -> asyncio.StreamWriter:
        """Where rows go in."""
        assert self.process.stdin is not None
        return self.process.stdin

    async def start(self) -> None:
        """Starts the program and sends it the header."""
        self.child = await asyncio.create_subprocess_exec(
            *self.command, stdin=asyncio.subprocess.PIPE, stdout=asyncio.subprocess.PIPE,
            stderr=asyncio.subprocess.PIPE, start_new_session=True)
        self.reading = asyncio.ensure_future(self.read())
        self.send(HEADER + "\n")

    def send(self, text: str) -> None:
        """Sends rows, each with its line feed. After the program's end nothing is sent; `on_end` is told then."""
        if not self.rows.is_closing():
            self.rows.write(text.encode("ascii"))

    async def read(self) -> None:
        """Reads until the program ends. Where its words can't be taken, it is ended."""
        errors = asyncio.ensure_future(self.read_errors())
        try:
            await self.read_lines()
        except (ValueError, LookupError, TypeError, AttributeError) as fault:
            self.process.kill()
            self.told = f"what it wrote is no transcript ({fault})"
        except OSError as fault:
            self.process.kill()
            self.told = str(fault)
        await errors
        status = await self.process.wait()
        self.rows.close()
        with contextlib.suppress(OSError):
            await self.rows.wait_closed()
        how = f"was ended by signal {-status}" if status < 0 else f"ended with status {status}"
        self.on_end(f"ridepool {self.command[1]} {how}" + (f": {self.told}" if self.told else ""))

    async def read_lines(self) -> None:
        """Hands on whole lines as they come."""
        assert self.process.stdout is not None
        rest = b""
        while chunk := await self.process.stdout.read(CHUNK):
            text, ends, rest = (rest + chunk).rpartition(b"\n")
            if ends:
                self.on_lines(text.decode("ascii").split("\n"))

    async def read_errors(self) -> None:
        """Reads standard error. A refused row is told; the last other line stands in the text of the end."""
        assert self.process.stderr is not None
        while line := await self.process.stderr.readline():
            text = line.decode("ascii", "replace").strip()
            row = refused_row(text)
            if row is not None:
                self.on_refused(row, text)
            elif self.on_other is None or not self.on_other(text):
                self.told = text

    def is_stopped(self) -> bool:
        """Whether a signal has stopped the program, so that it takes nothing until another lets it go on."""
        try:
            with open(f"/proc/{self.process.pid}/stat", encoding="ascii", errors="replace") as file:
                return file.read().rpartition(")")[2].split()[0] in ("T", "t")
        except (OSError, IndexError):
            return False

    async def finish(self) -> None:
        """Ends the input, and waits until the program has written its last line."""
        if self.reading is not None:
            self.rows.close()
            await asyncio.wait([self.reading])

    async def kill(self) -> None:
        """Ends the program at once."""
        if self.child is not None and self.reading is not None and self.child.returncode is None:
            self.child.kill()
            await asyncio.wait([self.reading])
