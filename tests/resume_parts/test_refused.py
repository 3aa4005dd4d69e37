"""Tests of reports and words that `resume` refuses."""

import random

from resume_parts.given import EXAMPLE, head_of
from resume_parts.day import Day
from resume_parts.kept import Kept, rows_of


def test_reports_that_are_none(day):
    """Heads of another network, another fleet, without trees or out of form; entries and blocks that are wrong; a day of
    `drive`; and that what stands behind the last whole entry isn't judged."""
    lines = day.report.decode().split("\n")[:-1]

    def changed(number, line):
        return "".join(it + "\n" for it in [*lines[: number - 1], line, *lines[number:]]).encode()

    close = next(number for number, line in enumerate(lines, 1) if line.endswith(" closed"))
    trip = next(number for number, line in enumerate(lines, 1) if line.startswith("trip "))
    entries = [number for number, line in enumerate(lines, 1) if line.split(" ")[0].isdigit()]
    for number, line, fault in [
        (1, "ridepool report 2", "bad form at line 1"),
        (2, lines[1].replace("proof=1", "proof=0"), "wrong head at line 2"),
        (2, lines[1].replace("trip=4", "trip=7"), "wrong head at line 2"),
        (3, "network nodes=6 arcs=8", "wrong head at line 3"),
        (4, "fleet vehicles=2", "wrong head at line 4"),
        (entries[0], "x", f"bad form at line {entries[0]}"),
        (entries[0], "day 1", f"bad form at line {entries[0]}"),
        (entries[0], lines[entries[0] - 1].replace("accepted", "refused full"), f"bad form at line {entries[0]}"),
        (entries[0], lines[entries[0] - 1].replace("accepted", "refused duplicate-rider"), f"wrong entry at line {entries[0]}"),
        (entries[1], lines[entries[1] - 1].replace("1 ", "7 ", 1), f"wrong entry at line {entries[1]}"),
        (close + 1, "batch 2", f"wrong batch at line {close + 1} point 0"),
        (trip, "trap" + lines[trip - 1][4:], f"bad form at line {trip}"),
    ]:
        ran = day.resume(changed(number, line), [])
        said = ran.returncode, ran.stdout, ran.stderr.decode()
        assert said == (13, b"", f"ridepool: report: {fault}\n"), f"{said}, and not {fault!r}, where line {number} is {line!r}"
    for behind in b"done 99\n", b"done 3", b"x", b"8 0 close 2 closed\nbatch 2\nx y z\n", b"round 7\n", b"round 7\ndone 8\n":
        day.goes_on("".join(line + "\n" for line in lines[:-1]).encode() + behind)


def test_rows_of_kept_rounds(day):
    """A row of a kept round goes back, and is skipped; so is one of an earlier round. The number of a dropped round is free."""
    ran = day.resume(day.report, ["1,0,cancel,1,,,", "0,0,cancel,1,,,", "2,0,cancel,2,,,"])
    told = Kept(day.report).told() + "".join(f"ridepool: script: round goes back at row {number}\n" for number in (1, 2))
    assert (ran.returncode, ran.stderr.decode()) == (0, told), f"{ran.returncode}, {ran.stderr!r}, and not {told!r}"
    assert ran.stdout.endswith(b"round 2\n8 0 cancel 2 cancelled\ndone 9\n"), f"another end: {ran.stdout[-80:]!r}"
    torn = day.report[: day.report.index(b"round 1\n") + 8]
    ran = day.resume(torn, ["1,0,cancel,2,,,"])
    assert ran.returncode == 0 and ran.stdout.endswith(b"round 1\n4 0 cancel 2 cancelled\ndone 5\n"), f"{ran.stderr!r}, {ran.stdout[-80:]!r}"


def test_words_that_are_wrong(day):
    """Words are judged first, then network and fleet, the report, and the header; nothing is written then."""
    (day.folder / "day").write_bytes(day.report)
    report = f"report={day.folder}/day"
    rows = "round,lane,command,a,b,c,d\n"
    for words, given, status, line in [
        ([report, "wait=5"], rows, 2, "words: unknown key at word 5"),
        ([report, "proof=1"], rows, 2, "words: unknown key at word 5"),
        ([report, "judge=2"], rows, 2, "words: bad value at word 5"),
        ([report, "judge=0", "judge=1"], rows, 2, "words: repeated key at word 6"),
        ([], rows, 2, "words: missing report"),
        (["report=nowhere"], rows, 7, "report: read failed"),
        (["report=/dev/null"], "x\n", 13, "report: cut at line 1"),
        ([report], "x\n", 5, "script: wrong header of 1 fields"),
        ([report], "", 5, "script: wrong header of 0 fields"),
    ]:
        ran = day.call("resume", words, given)
        said = ran.returncode, ran.stdout, ran.stderr.decode()
        assert said == (status, b"", f"ridepool: {line}\n"), f"{said}, and not {line!r}, for {words}"


def test_notices_are_told_again(program, folder):
    """Those of the last kept block come first, and then those of later ones; behind an overflow nothing is told again."""
    for words, again in ([], True), (["pairs=1"], False):
        day = Day(program, folder, EXAMPLE, *words)
        told, told_of = day.folder / "told", "batch 1 "
        for count in range(head_of(day.report), len(day.report) + 1):
            kept = Kept(day.report[:count])
            told.unlink(missing_ok=True)
            ran = day.resume(day.report[:count], kept.parted(EXAMPLE)[1], f"notices={told}")
            assert ran.returncode == 0, f"status {ran.returncode}, {ran.stderr!r}"
            lines = told.read_text().splitlines() if told.exists() else []
            assert bool(lines) == again and all(line.startswith(told_of) for line in lines), f"told behind {count} bytes: {lines}"


def test_spoiled_reports(day, cuts, seed):
    """One byte of the kept part is another: with `judge=1` it is refused where an audit of its own rows refuses it, and with
    `judge=0` what is taken has a wrong batch at worst."""
    rng = random.Random(seed)
    kept = Kept(day.report).text
    for _ in range(cuts):
        place = rng.randrange(head_of(kept), len(kept))
        byte = rng.choice(b"0123456789 \nabcdt:@")
        spoiled = kept[:place] + bytes([byte]) + kept[place + 1 :]
        judged, told = day.resume(spoiled, [], "judge=1"), day.resume(spoiled, [])
        if judged.returncode == 0:
            assert told.stdout == judged.stdout, f"judged otherwise: byte {place} is {byte}"
            audit = day.audit(judged.stdout, rows_of(judged.stdout))
            assert audit.returncode == 0, f"`audit` refuses what `judge=1` takes: {audit.stderr!r}, byte {place} is {byte}"
        else:
            assert judged.returncode == 13 and not judged.stdout, f"status {judged.returncode}, byte {place} is {byte}"
            rows = rows_of(spoiled)
            audit = rows and day.audit(spoiled + b"done 8\n", rows)
            assert not audit or audit.returncode != 0, f"`audit` takes what `judge=1` refuses: {judged.stderr!r}, byte {place} is {byte}"
            taken = told.returncode == 0
            assert not taken or b"wrong batch" in judged.stderr, f"`judge=0` takes {judged.stderr!r}, byte {place} is {byte}"
