"""Drawn rows, good and bad ones, and the rule of which are refused."""

import random

from refusals import Refusal, judge_script


def drawn_rows(count, seed):
    """Commands on the street in sixteen lanes, some of them bad, in rising rounds."""
    rng, round_, now = random.Random(seed), 0, 0
    for number in range(count):
        if rng.random() < 0.02:
            round_ += 1
        lane = rng.randint(0, 15)
        now += rng.randint(0, 2)
        rider, node, other = rng.randint(1, 60), rng.randint(1, 5), rng.randint(1, 6)
        kind = rng.random()
        if kind < 0.02:
            yield f"{round_},0,seal,{now},,,"
        elif kind < 0.35:
            yield f"{round_},{lane},submit,{rider},{node},{other},{now}"
        elif kind < 0.55:
            yield f"{round_},{lane},report,1,{node},{now},"
        elif kind < 0.75:
            yield f"{round_},{lane},cancel,{rider},,,"
        elif kind < 0.85:
            yield f"{round_},{lane},pickup,1,{rider},{now},"
        elif kind < 0.95:
            yield f"{round_},{lane},dropoff,1,{rider},{now},"
        else:
            yield rng.choice([f"{round_},17,cancel,1,,,", f"{round_},{lane},jump,,,,", "", f"{round_ - 1},0,cancel,1,,,", "x"])


def judge_row(fields, last):
    """Raises Refusal where the rules refuse a row behind one of round `last`."""
    if len(fields) != 7:
        raise Refusal("row 1 has another length")
    if fields[0].isdigit() and fields[1].isdigit() and int(fields[1]) <= 15 and int(fields[0]) < last:
        raise Refusal("round goes back at row 1")
    judge_script([(1, fields)])
