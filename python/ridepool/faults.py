"""What the package raises: inputs that are refused, unlawful plans, audits that fail, and a program that failed."""

import re
from typing import Mapping, NamedTuple, Optional, Sequence

from ridepool.inputs.limits import HEADERS, MOST_SECONDS, MOST_SEATS, NUMBER


class RefusedInput(ValueError):
    """An input that isn't taken.

    `file` is the file's path, or what the table is called where it is no file. `line` is the line of the file, or the
    row of the table, both from 1. `column` is the column's name, `value` what stands there, and `expected` what should
    stand there. Each is None where it isn't known.

    >>> RefusedInput("fleet.csv", 3, "seats", 11, "a whole number from 1 to 10")
    RefusedInput('fleet.csv, line 3, seats: 11 is not a whole number from 1 to 10')
    """

    def __init__(self, file: str, line: Optional[int] = None, column: Optional[str] = None, value: object = None,
                 expected: Optional[str] = None, reason: Optional[str] = None) -> None:
        self.file, self.line, self.column, self.value, self.expected = file, line, column, value, expected
        place = [file] + ([f"line {line}"] if line is not None else []) + ([column] if column else [])
        said = reason or f"{value!r} is not {expected}"
        super().__init__(f"{', '.join(place)}: {said}")


class ProgramFailed(RuntimeError):
    """The program ended without a whole report. `status` is its exit status, negative for a signal; None where it
    couldn't be started."""

    def __init__(self, reason: str, status: Optional[int] = None) -> None:
        self.status = status
        super().__init__(reason)


class AuditFailed(ValueError):
    """A report that no run of the inputs prints. `line` is the first line that is wrong, `point` the point of its batch
    that fails, None outside a batch."""

    def __init__(self, reason: str, line: int, point: Optional[int]) -> None:
        self.line, self.point = line, point
        super().__init__(reason)


class UnlawfulPlan(ValueError):
    """A policy's plan that isn't lawful. `second` is the seal's, `vehicle` and `rider` whom it is about, `reason` why."""

    def __init__(self, second: int, vehicle: Optional[int], rider: Optional[int], reason: str) -> None:
        self.second, self.vehicle, self.rider, self.reason = second, vehicle, rider, reason
        of = "" if vehicle is None else f", vehicle {vehicle}"
        about = "" if rider is None else f", rider {rider}"
        super().__init__(f"seal at {second}{of}{about}: {reason}")


class Fault(NamedTuple):
    """A kind of refusal: the column that it is about, and what should stand there."""

    column: Optional[str]
    expected: str


FAULTS = {
    "arc too long": Fault("seconds", f"a whole number up to {MOST_SECONDS}"),
    "more than 100000 nodes": Fault(None, "at most 100000 nodes"),
    "bad seats": Fault("seats", f"a whole number from 1 to {MOST_SEATS}"),
    "unknown node": Fault("node", "a node of the network"),
    "repeated vehicle": Fault("vehicle", "a vehicle that no earlier row has"),
    "lane above 15": Fault("lane", "a lane from 0 to 15"),
    "round goes back": Fault("round", "a round that is no earlier than the one before"),
    "unknown command": Fault("command", "submit, cancel, report, pickup, dropoff or seal"),
    "bad party": Fault("e", "a number of persons from 1 to 6"),
    "field not empty": Fault(None, "empty fields behind those of the command"),
    "seal outside lane 0": Fault("lane", "lane 0 for a seal"),
}
NAMED = re.compile(r"ridepool: (network|fleet|script|report|words): (.*)")
AT_ROW = re.compile(r"(.*?) at row (\d+)(?: column (\d+))?")
AT_LINE = re.compile(r"(.*?) at line (\d+)(?: point (\d+))?")
AT_WORD = re.compile(r"(.*?) at word (\d+)")
OTHER_LENGTH = re.compile(r"row (\d+) has another length")


class Given(NamedTuple):
    """What the program was given of a file: its path for messages, and its text."""

    file: str
    text: str

    def rows(self) -> "list[tuple[int, str]]":
        """The rows behind the header, each with its line."""
        return [(number, line) for number, line in enumerate(self.text.splitlines(), 1) if line][1:]


def fault_of(status: int, errors: str, words: Sequence[str], given: Mapping[str, Given]) -> Exception:
    """The exception for what the program said on standard error as it ended with a status."""
    lines = [line for line in errors.splitlines() if line.startswith("ridepool: ")]
    said = lines[0] if lines else errors.strip()
    found = NAMED.fullmatch(said)
    if found is None:
        how = f"was ended by signal {-status}" if status < 0 else f"ended with status {status}"
        return ProgramFailed(f"the program {how}" + (f": {said}" if said else ""), status)
    name, reason = found.groups()
    if name == "words":
        return wrong_word(reason, words)
    if status == 13:
        return wrong_report(reason)
    if status in (3, 4, 5, 11, 12):
        return wrong_file(name, reason, given[name])
    return ProgramFailed(said, status)


def wrong_word(reason: str, words: Sequence[str]) -> RefusedInput:
    """A word of the call that is refused. Word 1 is the command."""
    found = AT_WORD.fullmatch(reason)
    if found is None:
        return RefusedInput("settings", reason=reason)
    key, _, value = words[int(found.group(2)) - 1].partition("=")
    return RefusedInput("settings", None, key, value, "in the word's range")


def wrong_report(reason: str) -> AuditFailed:
    """What an audit says of a report."""
    found = AT_LINE.fullmatch(reason)
    if found is None:
        return AuditFailed(f"report: {reason}", 0, None)
    return AuditFailed(f"report: {reason}", int(found.group(2)), int(found.group(3)) if found.group(3) else None)


def wrong_file(name: str, reason: str, given: Given) -> RefusedInput:
    """A row of a file that is refused."""
    header = HEADERS[name]
    if reason.startswith(("wrong header", "header: longer")):
        return RefusedInput(given.file, 1, None, given.text.splitlines()[:1], f"the header {','.join(header)}")
    length = OTHER_LENGTH.fullmatch(reason)
    if length is not None:
        line, text = given.rows()[int(length.group(1)) - 1]
        return RefusedInput(given.file, line, None, text, f"a row of the fields {','.join(header)}")
    found = AT_ROW.fullmatch(reason)
    if found is None:
        return RefusedInput(given.file, reason=reason)
    kind, row, at = found.groups()
    line, text = given.rows()[int(row) - 1]
    column, expected = (header[int(at) - 1], NUMBER) if at else FAULTS.get(kind, Fault(None, reason))
    fields = [field.strip('"') for field in text.split(",")]
    value = fields[header.index(column)] if column else text
    return RefusedInput(given.file, line, column, value, expected)
