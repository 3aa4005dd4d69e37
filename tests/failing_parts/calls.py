"""Calls to the system that fail, each in turn: reads, writes of a report and of notices, requests for memory."""

import re
import tempfile
from pathlib import Path

from failing_parts.shared import DAY, DROPPED, FILES, LANES, LOAD, POOLED, RIDDEN, WORDS, Whole, notices_in, run_in, start
from faults import Plan
from inputs import Run
from judge import judge_beginning

WITHOUT = "ridepool: out of memory\n"


def with_fault(shim, whole, most, kind, call, check):
    """A try: this call of the kind fails, and what is left is checked."""

    def run(folder):
        plan = Plan(most, {kind: call})
        left = run_in(folder, lambda it: shim.run(it, whole.words, plan), whole.inputs)
        left.need(plan.failed[kind] == 1, f"there should be a call {call}")
        check(left)
        return 1

    return run


def calls_of(shim, whole, most):
    """How many calls of each kind a run without faults makes."""
    plan = Plan(most)
    with tempfile.TemporaryDirectory() as folder:
        left = run_in(Path(folder), lambda it: shim.run(it, whole.words, plan), whole.inputs)
    left.need((left.status, left.output, left.notices) == (0, whole.report, whole.notices), "short calls change the run")
    return plan.calls


def failing_reads(part, shim):
    """Each read of each input fails once. Nothing is written then."""
    whole = Whole(shim.program, POOLED, [])
    most = {name: 5 for name in FILES}
    calls = calls_of(shim, whole, most)

    def blamed(name):
        return lambda left: left.is_refused(7, f"ridepool: {name}: read failed\n")

    part.try_all(
        (f"read {k} of the {name}", with_fault(shim, whole, most, name, k, blamed(name)))
        for name in FILES
        for k in range(1, calls[name] + 1)
    )


def failing_writes(part, shim):
    """Each write of a report fails once. A beginning stands then."""
    for inputs in (POOLED, RIDDEN, DAY):
        whole = Whole(shim.program, inputs, ["proof=1"])

        def stands(left, whole=whole):
            left.need((left.status, left.error) == (8, "ridepool: report: write failed\n"), "status 8 should come")
            whole.begins_with(left)

        for most in ({"output": 7}, {}):
            calls = calls_of(shim, whole, most)["output"]
            part.try_all([(f"write {k}", with_fault(shim, whole, most, "output", k, stands)) for k in range(1, calls + 1)])


def failing_notices(part, shim):
    """Each write of the notices fails once. The report goes on then."""
    whole = Whole(shim.program, RIDDEN, [])
    most = {"notices": 7}

    def goes_on(left):
        left.need((left.status, left.error) == (0, "ridepool: notices: write failed\n"), "the report should go on")
        left.need(left.output == whole.report, "the report should be whole")
        left.need(whole.notices.startswith(left.notices) and left.notices != whole.notices, "the rest shouldn't be told")

    calls = calls_of(shim, whole, most)["notices"]
    part.try_all([(f"write {k} of the notices", with_fault(shim, whole, most, "notices", k, goes_on)) for k in range(1, calls + 1)])


# Requests for memory that are refused


def has_status(left):
    """Status 0 or 9, with its line, and maybe the line of the notices that were dropped."""
    line = left.error.removeprefix(DROPPED)
    left.need((left.status == 0 and not line) or (left.status == 9 and line in ("", WITHOUT)), "status 0 or 9 should come")


def without_memory(shim, words, inputs, call, check):
    """A try: this request for memory is refused, and what is left is checked."""

    def run(folder):
        plan = Plan(fail={"memory": call})
        left = run_in(folder, lambda it: shim.run(it, words, plan), inputs)
        has_status(left)
        left.need(plan.failed["memory"] or left.status == 0, "no memory was refused")
        check(left)
        return plan.failed["memory"]

    return run


def refused_requests(part, shim, words, inputs, check, name):
    """Each request for memory of a run is refused once, or some of them are."""
    plan = Plan()
    with tempfile.TemporaryDirectory() as folder:
        run_in(Path(folder), lambda it: shim.run(it, words, plan), inputs)
    count = plan.calls["memory"]
    part.try_some([(f"{name}: request {k}", without_memory(shim, words, inputs, k, check)) for k in range(1, count + 1)])


def told_in(report):
    """The notices of each round of a report, or of a beginning of one."""
    marks = [it.start() for it in re.finditer(r"^(round|day|done) ", report, re.M)]
    return [notices_in(report[a:b]) for a, b in zip(marks, [*marks[1:], len(report)]) if report.startswith("round ", a)]


def stands_without_memory(left, whole):
    """Whether a report stands, or a beginning of one: that of the whole run, or, where a draft lacked memory, another right one."""
    if whole.report.startswith(left.output):
        is_all = left.output == whole.report
    else:
        is_all = judge_beginning(Run(left.folder, whole.words), left.output)
    left.need(bool(is_all) == (left.status == 0), "the report should be whole just where nothing failed")
    told = told_in(left.output)
    if DROPPED in left.error:
        left.need("".join(told).startswith(left.notices), "these are no beginning of the notices")
        return
    least = len(told) if left.status == 0 else len(told) - 2
    allowed = ["".join(told[:many]) for many in range(max(0, least), len(told) + 1)]
    left.need(left.notices in allowed, f"{left.notices!r} aren't the notices of {len(told)} rounds")


def refused_memory(part, shim):
    """Requests for memory are refused in reports, days and summaries."""
    for name, inputs in {"pooled": POOLED, "ridden": RIDDEN, "day": DAY}.items():
        whole = Whole(shim.program, inputs, ["proof=1"])
        refused_requests(part, shim, whole.words, inputs, lambda left, whole=whole: stands_without_memory(left, whole), name)

    def follows(left):
        whole = judge_beginning(Run(left.folder, WORDS), left.output)
        left.need(whole or left.status, "the report should be whole")

    refused_requests(part, shim, WORDS, LANES, follows, "lanes")
    with tempfile.TemporaryDirectory() as folder:
        summary = start(shim.program, folder, LOAD).stdout.decode()

    def sums_up(left):
        """A summary or a beginning of one: where a draft lacked memory, another plan may stand in a line."""
        batches = [rf"batch {k} served \d+ out \d+ rows \d+ trips \d+ cost \d+ bound -?\d+" for k in (1, 2, 3)]
        forms = [re.escape(summary.split("\n")[0]), *batches, r"done \d+"]
        *lines, _ = left.output.split("\n")
        left.need(len(lines) <= len(forms) and all(map(re.fullmatch, forms, lines)), "what stands is no beginning of a summary")
        left.need((len(lines) == len(forms)) == (left.status == 0), "the summary should be whole just where nothing failed")

    refused_requests(part, shim, LOAD, {}, sums_up, "load")
