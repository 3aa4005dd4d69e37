"""The rows that `ridepool live` is sent. All of a start stand in one round, so that no row waits for another lane."""

from typing import Optional, Sequence

from ridepool.report.reader import Entry

HEADER = "round,lane,command,a,b,c,d,e"
REFUSAL = "ridepool: script: "
RIDER_LANES, VEHICLE_LANES = range(1, 12), range(12, 16)


def lane_of(command: str, fields: Sequence[int]) -> int:
    """The lane of a command: each rider's commands stand in one lane, and so do each vehicle's."""
    if command == "seal":
        return 0
    lanes = RIDER_LANES if command in ("submit", "cancel") else VEHICLE_LANES
    return lanes[fields[0] % len(lanes)]


def row_of(lane: int, command: str, fields: Sequence[int], party: int = 1, round_: int = 0) -> str:
    """The row of a command, with its line feed."""
    empty, last = "," * (4 - len(fields)), party if command == "submit" else ""
    return f"{round_},{lane},{command},{','.join(map(str, fields))}{empty},{last}\n"


def entrys_row(entry: Entry) -> str:
    """The row that an entry of a transcript answers, in its round."""
    return row_of(entry.lane, entry.command, entry.fields, entry.party, entry.round)


def refused_row(line: str) -> Optional[int]:
    """The number of the row that a line of standard error refuses, in one of the forms that it has: `row N ..`, `.. at row N`
    or `.. at row N column M`. None where the line says something else.

    >>> refused_row("ridepool: script: bad number at row 7 column 3"), refused_row("ridepool: out of memory")
    (7, None)
    """
    if not line.startswith(REFUSAL):
        return None
    words = line[len(REFUSAL):].split(" ")
    if words[-2:-1] == ["column"]:
        words = words[:-2]
    number = words[1] if words[0] == "row" and len(words) > 1 else words[-1] if words[-3:-1] == ["at", "row"] else ""
    return int(number) if number.isdecimal() else None
