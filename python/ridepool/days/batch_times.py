"""How long each batch of a driven day takes: the same commands are given to `live`, and each seal is timed.

`drive` prints its report at the end, so it can't tell. Stands on Python alone, since it is also sent to other machines.
"""

import subprocess
import time
from typing import IO, List, Optional, Sequence

from ridepool.report.reader import Batch, Entry, Report
from ridepool.words import Fault

HEADER = "round,lane,command,a,b,c,d,e"
AT_ONCE = 200


def row_of(entry: Entry) -> str:
    """A command as a row of one lane."""
    numbers = list(map(str, entry.fields)) + [""] * (4 - len(entry.fields))
    return ",".join(["0", "0", entry.command, *numbers, str(entry.party) if entry.command == "submit" else ""]) + "\n"


class Timing:
    """A started `live`, which is told a day again."""

    def __init__(self, folder: str, call: Sequence[str]) -> None:
        at = call.index("drive")
        words = [word for word in call[at + 1:] if not word.startswith("script=")]
        self.child = subprocess.Popen([*call[:at], "live", *words], cwd=folder, stdin=subprocess.PIPE,
                                      stdout=subprocess.PIPE, stderr=subprocess.DEVNULL, text=True, encoding="ascii")
        self.send(HEADER + "\n")

    def stream(self, stream: "Optional[IO[str]]") -> "IO[str]":
        """A stream of the program."""
        assert stream is not None
        return stream

    def send(self, text: str) -> None:
        """Sends rows at once."""
        stdin = self.stream(self.child.stdin)
        stdin.write(text)
        stdin.flush()

    def answers(self, count: int) -> None:
        """Waits for so many replies. What isn't a reply, as the head, is passed over."""
        while count:
            count -= self.line()[:1].isdigit()

    def line(self) -> str:
        """The next line."""
        line = self.stream(self.child.stdout).readline()
        if not line:
            raise Fault("a batch can't be timed: `live` ended")
        return line

    def tell(self, entries: Sequence[Entry]) -> None:
        """Tells commands, some at a time, so that neither side waits for a full pipe."""
        for first in range(0, len(entries), AT_ONCE):
            some = entries[first:first + AT_ONCE]
            self.send("".join(map(row_of, some)))
            self.answers(len(some))

    def seal(self, entry: Entry, batch: Batch) -> float:
        """Seals a batch. Gives the seconds from the row to the end of its plan, which must cost what it cost before."""
        begun = time.monotonic()
        lines: List[str] = []
        self.send(row_of(entry))
        while not lines or lines[-1] != "end\n":
            lines.append(self.line())
        took = time.monotonic() - begun
        if not batch.overflow and f"cost {batch.cost}\n" not in lines:
            raise Fault(f"batch {batch.number} costs otherwise where it is timed")
        return took


def batch_times(folder: str, call: Sequence[str], report: Report) -> List[float]:
    """The seconds of each batch of a report. `call` is that of `drive` in a folder."""
    timing, batches = Timing(folder, call), iter(report.batches)
    told: List[Entry] = []
    times: List[float] = []
    try:
        for entry in report.entries:
            if entry.command == "seal" and entry.reply.startswith("sealed"):
                timing.tell(told)
                told = []
                times.append(timing.seal(entry, next(batches)))
            elif entry.command != "close":
                told.append(entry)
        return times
    finally:
        timing.child.kill()
        timing.child.communicate()
