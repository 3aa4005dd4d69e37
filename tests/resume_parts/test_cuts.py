"""Tests of `resume` on reports that are cut."""

import random

from live_parts.given import made_city
from resume_parts.day import Day
from resume_parts.given import EXAMPLE, head_of, lanes_of
from resume_parts.kept import Kept

def test_cut_behind_every_byte(day):
    """The example of `live`, cut behind each of its bytes. Within the head it is refused at the line where it ends."""
    for count in range(len(day.report) + 1):
        torn = day.report[:count]
        if Kept(torn).has_head:
            day.goes_on(torn)
        else:
            day.refuses(torn, f"cut at line {torn.count(10) + 1}")


def test_lanes_cut_anywhere(program, folder, cuts, seed):
    """A day in sixteen lanes, where rows go on beside open batches, cut at drawn bytes."""
    day, rng = Day(program, folder, lanes_of(400, seed)), random.Random(seed)
    for _ in range(cuts):
        day.goes_on(day.report[: rng.randrange(head_of(day.report), len(day.report))])


def answered_beside(report):
    """How many rows were answered while a batch was open."""
    beside, is_open = 0, False
    for line in report.decode().split("\n"):
        is_open = line.split(" ")[-2:-1] == ["sealed"] or is_open and not line.endswith(" closed")
        beside += is_open and line[:1].isdigit() and " seal " not in line
    return beside


def city_rows(nodes, batches, seed):
    """Rows of a city, whose batches take a while: requests of a round, its seal, and reports in other lanes beside it."""
    rng, rows, rider = random.Random(seed), [], 0
    for batch in range(batches):
        for _ in range(80):
            rider += 1
            rows.append(f"{batch},0,submit,{rider},{rng.randint(1, nodes)},{rng.randint(1, nodes)},{60 * batch}")
        rows.append(f"{batch},0,seal,{60 * batch + 30},,,")
        rows += [f"{batch},{lane},report,{rng.randint(1, 60)},{rng.randint(1, nodes)},{60 * batch + 30}," for lane in range(1, 16) for _ in range(3)]
    return rows


def test_beside_long_batches(program, folder, cuts, seed):
    """Batches of a city, with rows of fifteen lanes beside them, cut at drawn bytes: half of the cuts lie before a close."""
    day, rng = Day(program, folder, city_rows(made_city(folder), 3, seed), "wait=300", "delay=400"), random.Random(seed)
    assert answered_beside(day.report) > 50, f"only {answered_beside(day.report)} rows are answered beside open batches"
    head, closes = head_of(day.report), [place for place in range(len(day.report)) if day.report.startswith(b" closed\n", place)]
    for number in range(max(1, cuts // 8)):
        if number % 2:
            near = rng.choice(closes)
            day.goes_on(day.report[: rng.randint(max(head, near - 400), near)])
        else:
            day.goes_on(day.report[: rng.randint(head, len(day.report))])


def test_reports_of_all_kinds(program, folder):
    """Overflow, lapsed promises, dwell and parties: each report cut behind each of its lines, and within the last of them."""
    parties = ["0,0,submit,1,2,4,0,2", "0,0,submit,2,3,5,0,1", "0,0,seal,10,,,,", "1,0,report,1,5,600,,", "1,0,seal,700,,,,", "2,0,cancel,1,,,,"]
    for rows, words, told in [
        (EXAMPLE, ["pairs=1"], b"\noverflow"),
        (EXAMPLE, ["dwell=30"], b" dwell=30\n"),
        (EXAMPLE, ["trip=1", "times=labels"], b"\nout "),
        (parties, [], b"\nexpired "),
        (parties, ["dwell=20", "wait=7200", "delay=7200"], b"\nlapsed "),
    ]:
        day = Day(program, folder, rows, *words)
        assert told in day.report, f"the report hasn't {told!r}"
        ends = [place + 1 for place, byte in enumerate(day.report) if byte == 10]
        for end in ends[3:]:
            for count in end, end + 2:
                if count <= len(day.report):
                    day.goes_on(day.report[:count])
                    day.goes_on(day.report[:count], "times=labels", "judge=1", "workers=1")


def test_resumed_again_and_again(day):
    """A day that goes on from each of its reports, one row at a time, is the day of all rows."""
    report = day.report[: head_of(day.report)]
    given = []
    for number, row in enumerate(EXAMPLE):
        given.append(f"{number},{row.split(',', 1)[1]}")
        ran = day.resume(report, given[-1:])
        assert ran.returncode == 0, f"status {ran.returncode}, {ran.stderr!r} at row {number}"
        report = ran.stdout
    audit = day.audit(report, given)
    assert audit.returncode == 0, f"`audit` refuses it: {audit.stderr!r}"


def test_ends_without_rows(day):
    """A whole report goes on to itself where no row is left, and one of `run` goes on as well."""
    assert day.goes_on(day.report) == day.report, "another report of `live`"
    (day.folder / "script.csv").write_text("\n".join(["round,lane,command,a,b,c,d", *EXAMPLE, ""]))
    ran = day.call("run", ["proof=1", f"script={day.folder}/script.csv"])
    assert day.goes_on(ran.stdout) == ran.stdout, "another report of `run`"
