"""Prints the script whose run a report is, so that a day can be run again and audited."""

import sys
from typing import Sequence

from ridepool.inputs import tables
from ridepool.report.reader import Entry, Report, read_report
from ridepool.words import Fault, number, run_tool, split_words

USAGE = "use: %(prog)s REPORT [lanes=1]"


def row_of(entry: Entry, lane: int, parties: bool) -> "list[object]":
    """A command as a row of the script."""
    fields: "list[object]" = [*entry.fields, *[""] * (4 - len(entry.fields))]
    last: "list[object]" = [entry.party if entry.command == "submit" else ""] if parties else []
    return [entry.round, lane, entry.command, *fields, *last]


def script_of(report: Report, one_lane: bool) -> "tuple[Sequence[str], list[list[object]]]":
    """The header and the rows of the script, in the report's order. A batch is closed by the program itself."""
    parties = any(entry.party != 1 for entry in report.entries)
    commands = [entry for entry in report.entries if entry.command != "close"]
    rows = [row_of(entry, 0 if one_lane else entry.lane, parties) for entry in commands]
    return tables.SCRIPT if parties else tables.SCRIPT[:-1], rows


def convert(arguments: Sequence[str]) -> None:
    """The tool."""
    plain, values = split_words(arguments, ("lanes",), USAGE)
    if len(plain) != 1:
        raise Fault(USAGE)
    one_lane = number(values, "lanes", 1, 16, 16) == 1
    sys.stdout.write(tables.table_text(*script_of(read_report(plain[0]), one_lane)))


def main() -> None:
    """The command."""
    run_tool(convert, USAGE)
