"""The check that no rider of a city is in two fleets at once. It reads the reports of all fleets and nothing else."""

from collections import defaultdict
from typing import Dict, List, NamedTuple, Sequence

from ridepool.report.reader import Report

ALWAYS = 1 << 40


class Stay(NamedTuple):
    """A rider's time in a fleet: from the first batch behind the request up to the last one before the rider left."""

    rider: int
    fleet: int
    first: int
    last: int


class Meeting(NamedTuple):
    """A rider who is in two fleets at once, and the first batch in which that is so."""

    rider: int
    fleets: "tuple[int, int]"
    batch: int


def stays_of(report: Report, fleet: int) -> List[Stay]:
    """The stay of each rider whom a fleet's book has taken. A rider leaves by a cancel, at the end of the wait, or by
    the drop-off."""
    begun: Dict[int, int] = {}
    ended: Dict[int, int] = {}
    batches, sealed = {batch.position: batch for batch in report.batches}, 0
    for entry in report.entries:
        if entry.command == "submit" and entry.reply == "accepted":
            begun[entry.fields[0]] = sealed + 1
        elif entry.reply == "cancelled":
            ended[entry.fields[0]] = sealed
        elif entry.reply == "dropped":
            ended[entry.fields[1]] = sealed
        elif entry.reply.startswith("sealed"):
            sealed += 1
        if entry.position in batches:
            ended.update((rider, sealed - 1) for rider in batches[entry.position].expired)
    return [Stay(rider, fleet, first, ended.get(rider, ALWAYS)) for rider, first in begun.items()]


def meetings(reports: Sequence[Report]) -> List[Meeting]:
    """The riders who are in two fleets at once. Fleets count from 1. All fleets have sealed the same batches."""
    of: Dict[int, List[Stay]] = defaultdict(list)
    for fleet, report in enumerate(reports, 1):
        for stay in stays_of(report, fleet):
            of[stay.rider].append(stay)
    return [Meeting(rider, (one.fleet, other.fleet), max(one.first, other.first))
            for rider, stays in sorted(of.items()) for at, one in enumerate(stays) for other in stays[:at]
            if max(one.first, other.first) <= min(one.last, other.last)]
