"""Tests of `live` on drawn rows, good and bad ones."""

import random

from live_parts.client import judged
from live_parts.drawn_rows import drawn_rows, judge_row
from live_parts.given import HEADERS
from refusals import Refusal

ONE_BY_ONE = 300  # drawn rows that are sent one by one


def test_drawn_commands(live, program, folder, rows, seed):
    """Drawn rows at random pace: the refused ones are those that the rules refuse, the report is judged and audited."""
    accepted, refused, last, number = [], [], 0, 0
    client, rng = live("proof=1"), random.Random(seed + 1)
    client.send(HEADERS[0] + "\n")
    waiting = []
    for row in drawn_rows(rows, seed):
        if row:
            number += 1
            try:
                judge_row(row.split(","), last)
                accepted.append(row)
                last = int(row.split(",")[0])
            except Refusal as refusal:
                refused.append(f"ridepool: script: {refusal}".replace(" row 1", f" row {number}"))
        waiting.append(row + "\n")
        if rng.random() < 0.1:
            client.send("".join(waiting))
            waiting = []
            client.more(0)
    client.send("".join(waiting))
    status, report, errors = client.end()
    assert status == 0, f"status {status}"
    assert errors.splitlines() == refused, "other rows are refused than the rules say"
    judged(program, folder, accepted, report, "proof=1")


def test_drawn_rows_one_by_one(live, program, folder, rows, seed):
    """Drawn rows, each of which is answered, or told to be refused, before the next is sent."""
    accepted, told, last, number = [], [], 0, 0
    client = live("proof=1")
    client.send(HEADERS[0] + "\n")
    for row in filter(None, drawn_rows(min(rows, ONE_BY_ONE), seed)):
        number += 1
        try:
            judge_row(row.split(","), last)
        except Refusal as refusal:
            told.append(f"ridepool: script: {refusal}".replace(" row 1", f" row {number}"))
            client.refused(row, told)
            continue
        accepted.append(row)
        last = int(row.split(",")[0])
        client.ask(row)
    status, report, errors = client.end()
    assert (status, errors.splitlines()) == (0, told), f"status {status}, {errors!r}"
    judged(program, folder, accepted, report, "proof=1")
