"""A client of `ridepool live` that waits for each answer, for programs with nothing else to do meanwhile."""

import subprocess
from typing import IO, Iterable, Optional, Sequence

from ridepool.inputs.tables import Path
from ridepool.report.reader import Batch
from ridepool.sessions.rows import HEADER, lane_of, row_of
from ridepool.sessions.state import Change, State, Vehicle
from ridepool.words import Fault


class Client:
    """A started `live`, and what its transcript has said so far."""

    def __init__(self, program: Path, words: Sequence[str], fleet: Iterable[Vehicle],
                 transcript: Optional[IO[str]] = None) -> None:
        self.state, self.transcript = State(fleet), transcript
        self.child = subprocess.Popen([str(program), "live", *words], stdin=subprocess.PIPE, stdout=subprocess.PIPE,
                                      stderr=subprocess.PIPE, text=True, encoding="ascii")
        assert self.child.stdin and self.child.stdout and self.child.stderr
        self.rows, self.lines, self.errors = self.child.stdin, self.child.stdout, self.child.stderr
        self.send(HEADER + "\n")

    def send(self, text: str) -> None:
        """Sends rows at once."""
        try:
            self.rows.write(text)
            self.rows.flush()
        except BrokenPipeError:
            raise self.ended() from None

    def change(self) -> Change:
        """The next change that the transcript tells."""
        while line := self.lines.readline():
            if self.transcript:
                self.transcript.write(line)
            change = self.state.line(line.rstrip("\n"))
            if change is not None:
                return change
        raise self.ended()

    def ended(self) -> Fault:
        """Why `live` has ended."""
        said = self.errors.read().strip().splitlines()
        return Fault(f"ridepool live ended with status {self.child.wait()}: {said[-1] if said else 'it said nothing'}")

    def ask(self, command: str, *fields: int, party: int = 1) -> str:
        """Sends a command. Gives the book's reply."""
        self.send(row_of(lane_of(command, fields), command, fields, party))
        entry = self.change().entry
        assert entry is not None
        return entry.reply

    def plan(self, second: int) -> Batch:
        """Seals a batch. Gives it, closed."""
        reply = self.ask("seal", second)
        if not reply.startswith("sealed"):
            raise Fault(f"the seal at second {second} was {reply}")
        while (batch := self.change().batch) is None:
            pass
        return batch

    def end(self) -> None:
        """Ends the day, and reads the transcript's last line."""
        self.rows.close()
        for line in self.lines:
            if self.transcript:
                self.transcript.write(line)
        self.child.wait()
        self.lines.close()
        self.errors.close()
