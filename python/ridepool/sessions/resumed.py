"""`resume`: a session that goes on behind what a transcript, maybe torn, keeps of a day."""

from typing import List, Optional

from ridepool.inputs.checks import Path
from ridepool.inputs.fleet import Fleet
from ridepool.inputs.network import Network
from ridepool.sessions.blocking import Live
from ridepool.sessions.stand import Stand, stand_of
from ridepool.sessions.started import Start
from ridepool.settings import Settings


class Resumed(Live):
    """A running session behind a kept transcript. `stand` says how much is kept."""

    def __init__(self, transcript: bytes, net: Network, fleet: Fleet, options: List[str], program: Optional[Path]) -> None:
        self.given, self.options = transcript, options
        self.stand: Optional[Stand] = None
        self.kept = 0
        self.held: List[str] = []
        super().__init__(net, fleet, None, program)

    def _started(self, settings: Optional[Settings], program: Optional[Path]) -> Start:
        return Start(self.net, self.fleet, None, program, self.given, self.options)

    def _has_begun(self) -> bool:
        return self.stand is not None and self.kept >= self.stand.bytes

    def _told(self, line: str) -> None:
        if self.stand is None:
            self.held.append(line)
        elif self.kept < self.stand.bytes:
            self.kept += len(line) + 1
            self.dialogue.kept(line)
        else:
            super()._told(line)

    def _complained(self, line: str) -> None:
        stand = stand_of(line) if self.stand is None else None
        if stand is None:
            super()._complained(line)
            return
        self.errors.remove(line)
        self.stand = stand
        self.dialogue.round = stand.next_round
        held, self.held = self.held, []
        for it in held:
            self._told(it)


def resume(transcript: bytes, net: Network, fleet: Fleet, *, workers: int = 4, times: str = "rows", judge: bool = False,
           program: Optional[Path] = None) -> Resumed:
    """Goes on with a day behind what a transcript keeps of it. The transcript has trees (`proof=True`), and may be torn. All
    other settings are its own. A batch that had no plan yet is solved first.

    With `judge` each kept plan is judged as an audit does. A transcript that is none of a session is an AuditFailed.

    >>> net = Network.made(side=3, seed=1)
    >>> fleet = Fleet.drawn(net, vehicles=1)
    >>> from ridepool.sessions.blocking import live
    >>> with live(net, fleet, Settings(proof=True)) as session:
    ...     reply = session.submit(rider=1, origin=1, destination=9, second=0)
    ...     torn = session.transcript.encode() + b"1 0 se"
    >>> with resume(torn, net, fleet) as session:
    ...     print(session.stand.entries, session.seal(second=30).number)
    1 1
    """
    Settings(workers=workers, times=times)
    return Resumed(transcript, net, fleet, [f"workers={workers}", f"times={times}", f"judge={int(judge)}"], program)
