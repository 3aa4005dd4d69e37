"""Why the figures of a day must not be taken as they stand.

Stands on Python alone, since it is also sent to other machines.
"""

from typing import List, Mapping

MOST_REFUSED = 0.01


def refusals_text(refused: Mapping[str, int]) -> str:
    """Refused requests by reason, the most frequent first: `pool-full:3137 same-place:2`."""
    order = sorted(refused.items(), key=lambda it: (-it[1], it[0]))
    return " ".join(f"{reason}:{times}" for reason, times in order)


def marks_of(requests: int, refused: Mapping[str, int], batches: int, overflows: int) -> List[str]:
    """Why a day is marked: a batch has no plan, or more than one of a hundred requests were refused."""
    marks, count = [], sum(refused.values())
    if overflows:
        marks.append(f"{overflows} of {batches} batches overflowed")
    if count > MOST_REFUSED * requests:
        marks.append(f"{count} of {requests} requests were refused ({refusals_text(refused)})")
    return marks
