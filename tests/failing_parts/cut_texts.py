"""Texts that are cut: sources and audited reports. Audits whose calls fail stand beside them."""

import re

from failing_parts.calls import calls_of, refused_requests, with_fault
from failing_parts.shared import FILES, POOLED, RIDDEN, WORDS, Whole, notices_in, run_in, start
from inputs import Run
from judge import judge
from refusals import refusal


def cut(program, name, length):
    """A try: a run with so many bytes of this source. It is refused, or its report is judged."""

    def run(folder):
        inputs = {**POOLED, name: POOLED[name][:length]}
        words = [*WORDS, "notices=notices", "proof=1"]
        left = run_in(folder, lambda it: start(program, it, words), inputs)
        refused = refusal(inputs)
        if refused:
            left.is_refused(*refused)
        else:
            left.need(left.status == 0 and not left.error, "the run should succeed")
            judge(Run(folder, words), left.output)
            left.need(left.notices == notices_in(left.output), "these aren't the report's notices")
        return 1

    return run


def cut_sources(part, program):
    """Each source is cut after each of its bytes."""
    tries = [(f"{name} cut after {k} bytes", cut(program, name, k)) for name in FILES for k in range(len(POOLED[name]))]
    part.try_all(tries)


# Audits


class Audit:
    """An audit of the report of a whole run, which confirms it."""

    def __init__(self, program, inputs):
        report = Whole(program, inputs, ["proof=1"]).report
        self.inputs, self.words, self.notices = {**inputs, "report": report}, ["audit", *WORDS[1:], "report=report.csv"], ""
        entries, batches = re.search(r"^done (\d+)$", report, re.M)[1], len(re.findall(r"^\d.* closed$", report, re.M))
        self.report = f"audit ok entries {entries} batches {batches}\n"

    def stands(self, left):
        """Whether the line is written, or, where something failed, a beginning that isn't the whole."""
        left.need(self.report.startswith(left.output), "what stands is no beginning of the line")
        left.need((left.output == self.report) == (left.status == 0), "the line should be whole just where nothing failed")


def cut_report(program, audit, length):
    """A try: an audit of so many bytes of the report. It names the line where they end."""

    def run(folder):
        text = audit.inputs["report"][:length]
        left = run_in(folder, lambda it: start(program, it, audit.words), {**audit.inputs, "report": text})
        lines = text.count("\n") + 1
        left.is_refused(13, f"ridepool: report: cut at line {lines}\n")
        return 1

    return run


def cut_reports(part, program):
    """Audited reports are cut after each of their bytes, or after some."""
    for inputs in (POOLED, RIDDEN):
        audit = Audit(program, inputs)
        part.try_some([(f"a report cut after {k} bytes", cut_report(program, audit, k)) for k in range(len(audit.inputs["report"]))])


def failing_audits(part, shim):
    """Each read and write of an audit fails once, and each request for memory, or some."""
    audit = Audit(shim.program, RIDDEN)
    most = {"report": 50, "output": 7}
    calls = calls_of(shim, audit, most)

    def unread(left):
        left.is_refused(7, "ridepool: report: read failed\n")

    def unwritten(left):
        left.need((left.status, left.error) == (8, "ridepool: report: write failed\n"), "status 8 should come")
        audit.stands(left)

    for kind, check in (("report", unread), ("output", unwritten)):
        part.try_all([(f"call {k} of the {kind}", with_fault(shim, audit, most, kind, k, check)) for k in range(1, calls[kind] + 1)])
    refused_requests(part, shim, audit.words, audit.inputs, audit.stands, "audit")
