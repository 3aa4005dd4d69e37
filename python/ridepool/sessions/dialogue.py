"""What a session asks the running program, and which of its answers belongs to which question.

The commands of one lane are answered in their order, so an answer belongs to the lane's first open question. Nothing here
reads or writes: `blocking` and `awaited` do.
"""

from collections import deque
from dataclasses import dataclass
from typing import Any, Deque, Optional

import numpy as np

from ridepool.faults import RefusedInput
from ridepool.inputs.limits import MOST_NUMBER, MOST_PARTY, NUMBER
from ridepool.report.batch_frames import BatchFrames
from ridepool.report.lines import Block, Lines
from ridepool.report.reader import Batch
from ridepool.sessions.rows import lane_of, refused_row, row_of
from ridepool.sessions.state import Lines as Transcript


@dataclass(frozen=True)
class Answer:
    """The book's reply to a command, and the command's position over the whole session."""

    reply: str
    position: int

    @property
    def is_taken(self) -> bool:
        """Whether the command was not refused."""
        return not self.reply.startswith("refused")


class Plan(BatchFrames):
    """A batch that a seal has closed, with its frames, and the reply to the seal."""

    def __init__(self, answer: Answer, batch: Batch, block: str) -> None:
        lines = Lines(np.frombuffer(block.encode("ascii"), dtype=np.uint8), "live")
        super().__init__(batch, lines, Block(0, len(lines) - 1))
        self.reply, self.position = answer.reply, answer.position


class RefusedCommand(ValueError):
    """A seal that the book refused. `reply` is its answer."""

    def __init__(self, answer: Answer) -> None:
        self.reply = answer.reply
        super().__init__(answer.reply)


@dataclass
class Asked:
    """A row that was sent, and what has been answered. A seal that was taken is answered by its batch."""

    row: int
    lane: int
    command: str
    text: str
    answer: Optional[Answer] = None
    plan: Optional[Plan] = None
    fault: Optional[Exception] = None

    @property
    def is_done(self) -> bool:
        """Whether nothing more comes."""
        waits = self.answer is not None and self.answer.is_taken and self.command == "seal" and self.plan is None
        return self.fault is not None or (self.answer is not None and not waits)


class Dialogue:
    """The rows that were sent, all in one round, and the transcript so far."""

    def __init__(self) -> None:
        self.round = 0
        self.texts: "list[str]" = []
        self.lines: Any = Transcript()
        self.rows = 0
        self.open: "dict[int, Deque[Asked]]" = {}
        self.sealed: Optional[Asked] = None
        self.block: "list[str]" = []

    @property
    def has_begun(self) -> bool:
        """Whether the transcript's head has come."""
        return self.lines.report is not None

    def ask(self, command: str, persons: int = 1, **fields: int) -> Asked:
        """A command as a row. A RefusedInput where a number isn't one that the program takes."""
        for name, value in fields.items():
            if isinstance(value, bool) or not isinstance(value, (int, np.integer)) or not 0 <= value <= MOST_NUMBER:
                raise RefusedInput(command, None, name, value, NUMBER)
        if isinstance(persons, bool) or not isinstance(persons, (int, np.integer)) or not 1 <= persons <= MOST_PARTY:
            raise RefusedInput(command, None, "persons", persons, f"a whole number from 1 to {MOST_PARTY}")
        numbers = [int(it) for it in fields.values()]
        lane = lane_of(command, numbers)
        self.rows += 1
        asked = Asked(self.rows, lane, command, row_of(lane, command, numbers, int(persons), self.round))
        self.open.setdefault(lane, deque()).append(asked)
        return asked

    def kept(self, line: str) -> None:
        """Takes a line of the transcript that an earlier session was told."""
        self.texts.append(line)
        self.lines.line(line)

    def told(self, line: str) -> Optional[Asked]:
        """Takes a line of the transcript. Gives what is answered by it, if anything."""
        self.texts.append(line)
        found = self.lines.line(line)
        if self.sealed is not None and (self.block or line.startswith("batch ")):
            self.block.append(line)
        if found is None:
            return None
        return self.closed(found) if found is self.lines.closed else self.answered(found)

    def answered(self, entry: Any) -> Optional[Asked]:
        """A command's answer."""
        if entry.command == "close":
            return None
        asked = self.open[entry.lane].popleft()
        asked.answer = Answer(entry.reply, entry.position)
        if not asked.is_done:
            self.sealed = asked
            return None
        return asked

    def closed(self, batch: Batch) -> Optional[Asked]:
        """A batch's whole block."""
        asked, self.sealed = self.sealed, None
        text, self.block = "".join(f"{line}\n" for line in self.block), []
        if asked is None or asked.answer is None:
            return None
        asked.plan = Plan(asked.answer, batch, text)
        return asked

    def complained(self, line: str) -> Optional[Asked]:
        """Takes a line of standard error. Gives the row that it refuses, if it does."""
        number = refused_row(line)
        for asked in (it for lane in self.open.values() for it in lane):
            if asked.row == number:
                self.open[asked.lane].remove(asked)
                asked.fault = RefusedInput("live", asked.row, None, asked.text.strip(), reason=line)
                return asked
        return None

    def waiting(self) -> "list[Asked]":
        """Whatever isn't answered."""
        return [it for lane in self.open.values() for it in lane] + ([self.sealed] if self.sealed is not None else [])

    def transcript(self) -> bytes:
        """The transcript so far."""
        return "".join(f"{line}\n" for line in self.texts).encode("ascii")


def plans_of(transcript: bytes) -> "list[Plan]":
    """The plans of a transcript, in their order."""
    lines: Any = Transcript()
    found: "list[Plan]" = []
    block: "list[str]" = []
    sealed = Answer("", 0)
    for text in transcript.decode("ascii").splitlines():
        entry = lines.line(text)
        if block or text.startswith("batch "):
            block.append(f"{text}\n")
        if lines.closed is not None and entry is lines.closed:
            found.append(Plan(sealed, lines.closed, "".join(block)))
            block = []
        elif entry is not None and entry.reply.startswith("sealed "):
            sealed = Answer(entry.reply, entry.position)
    return found


def answer_of(asked: Asked) -> Answer:
    """What a command is answered."""
    if asked.fault is not None:
        raise asked.fault
    assert asked.answer is not None
    return asked.answer


def plan_of(asked: Asked) -> Plan:
    """What a seal is answered."""
    answer = answer_of(asked)
    if asked.plan is None:
        raise RefusedCommand(answer)
    return asked.plan
