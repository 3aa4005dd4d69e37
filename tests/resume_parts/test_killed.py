"""Tests of `resume` that is killed, and of reads, writes and requests of memory that fail."""

import random
import subprocess

from faults import Plan
from resume_parts.day import Day, header_of, script_of
from resume_parts.given import EXAMPLE, lanes_of
from resume_parts.kept import Kept

MEMORY_CALLS = 40  # requests of memory that fail, one in each call
MOST_SENT = 30  # rows that a call gets before it is killed


def killed_where(day, words, rows, holds):
    """Calls the program with rows on standard input, which stays open, and kills it where what came holds. Gives what it had
    written."""
    with subprocess.Popen([day.program, *words[:1], *day.named, *words[1:]], stdin=subprocess.PIPE, stdout=subprocess.PIPE, stderr=subprocess.DEVNULL) as call:
        call.stdin.write((script_of(rows) if rows else header_of(day.rows) + "\n").encode())
        call.stdin.flush()
        came = b""
        while not holds(came):
            chunk = call.stdout.read1()
            assert chunk, f"`{words[0]}` ends before it is killed, behind {came[-80:]!r}"
            came += chunk
        call.kill()
        return came + call.stdout.read()


def answered_in(report):
    """How many rows a report answers."""
    return sum(Kept(report).of_lane.values())


def drawn_moment(rng, kept):
    """How many rows are sent to a call that goes on, and where it is killed: within the kept part, or behind some of the
    answers."""
    sent = rng.randint(1, MOST_SENT)
    if rng.random() < 0.3:
        count = rng.randint(0, kept.bytes)
        return sent, lambda came: len(came) >= count
    before, answers = sum(kept.of_lane.values()), rng.randint(0, sent)
    return sent, lambda came: len(came) >= kept.bytes and answered_in(came) >= before + answers


def test_killed_at_drawn_moments(program, folder, cuts, seed):
    """A day is killed again and again, `live` first, and goes on each time: at the end no answered row is lost, and all is
    audited. A new report takes the place of the old one once its kept part is through."""
    day, rng = Day(program, folder, lanes_of(30 * cuts, seed)), random.Random(seed)
    report, rows = killed_where(day, ["live", "proof=1"], day.rows[:10], lambda came: answered_in(came) >= 5), day.rows
    for number in range(cuts):
        kept = Kept(report)
        before, left = kept.parted(rows)
        rows = before + left
        sent, holds = drawn_moment(rng, kept)
        (folder / "transcript").write_bytes(report)
        if len(left) < sent:
            break
        came = killed_where(day, ["resume", f"report={folder}/transcript"], left[:sent], holds)
        assert came.startswith(kept.text) or kept.text.startswith(came), f"another beginning at kill {number}"
        report = came if came.startswith(kept.text) else report
        assert answered_in(report) >= len(before), f"answered rows are lost at kill {number}"
    before, left = Kept(report).parted(rows)
    assert len(before) + len(left) == len(day.rows) and len(before) > cuts, f"{len(before)} rows and {len(left)} of {len(day.rows)}"
    day.rows = before + left
    day.goes_on(report)


def torn_example(day):
    """The example of `live`, torn before its close: what stands of its report, and the words of a call that goes on."""
    torn = day.report[: day.report.index(b"3 0 close")]
    (day.folder / "report.csv").write_bytes(torn)
    (day.folder / "script.csv").write_text(script_of(Kept(torn).parted(EXAMPLE)[1]))
    return torn, ["resume", "network=network.csv", "fleet=fleet.csv", "report=report.csv", "script=script.csv", "notices=notices"]


def test_failing_calls(day, folder, shim):
    """Each read of network, fleet, report and script fails once, each write, and some requests of memory: status 7, 8 or 9. The
    report that is read stays, and what is written begins the new one. Where memory fails the search may come to another tree;
    what stands then goes on as well."""
    torn, words = torn_example(day)
    most = {"network": 40, "fleet": 10, "report": 40, "script": 5, "output": 50, "notices": 20}
    plan = Plan(most)
    whole = shim.run(folder, words, plan)
    assert whole.returncode == 0, f"status {whole.returncode}, {whole.stderr!r}"
    told = (folder / "notices").read_bytes()
    for kind, status in ("network", 7), ("fleet", 7), ("report", 7), ("script", 7), ("output", 8), ("notices", 0), ("memory", 9):
        step = max(1, plan.calls[kind] // MEMORY_CALLS) if kind == "memory" else 1
        assert plan.calls[kind] > 1, f"there are only {plan.calls[kind]} calls on {kind}"
        for call in range(1, plan.calls[kind] + 1, step):
            ran = shim.run(folder, words, Plan(most, {kind: call}))
            where = f"where call {call} on {kind} fails"
            assert ran.returncode == status or kind == "memory" and ran.returncode == 0, f"status {ran.returncode} {where}"
            assert not ran.stdout or kind not in ("network", "fleet", "report"), f"something is written {where}"
            assert (folder / "report.csv").read_bytes() == torn, f"the report that is read isn't as it was {where}"
            assert kind == "memory" or whole.stdout.startswith(ran.stdout), f"another beginning {where}"
            assert told.startswith((folder / "notices").read_bytes()) or not ran.stdout, f"other notices {where}"
            if kind == "memory" and Kept(ran.stdout).has_head:
                day.goes_on(ran.stdout)
