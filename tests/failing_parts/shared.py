"""What the parts of failing.py share: inputs, a run and what it leaves behind, a part and its counts."""

import os
import re
import subprocess
import tempfile
from concurrent.futures import ThreadPoolExecutor
from pathlib import Path

from inputs import Run
from judge import Wrong, judge
from refusals import HEADERS

STREET = (Path(__file__).resolve().parent.parent / "street" / "network.csv").read_text()
FILES = list(HEADERS)
WORDS = ["run", *(f"{name}={name}.csv" for name in FILES)]
DROPPED = "ridepool: notices: write failed\n"  # so the notices end, and the report goes on


def table(name, *rows):
    """The text of a file: its header and these rows."""
    return "".join(f"{line}\n" for line in [HEADERS[name], *rows])


# Two riders share a vehicle: they ask in one round, and the next seals the batch.
POOLED = {
    "network": STREET,
    "fleet": table("fleet", "1,2,1,0"),
    "script": table("script", "0,0,submit,1,2,4,0", "0,0,submit,2,3,5,0", "1,0,seal,0,,,"),
}
# A vehicle that fetches the first rider and is then too late, a rider who expires and one who is left out.
RIDDEN = {
    "network": STREET,
    "fleet": table("fleet", "1,4,1,0", "2,1,3,0"),
    "script": table(
        "script",
        *("0,0,submit,1,1,5,0", "0,0,submit,2,2,4,0", "0,0,submit,3,3,5,0", "0,0,seal,0,,,"),
        *("1,0,pickup,1,1,0,", "1,0,report,1,1,200,", "1,0,submit,4,2,4,190", "1,0,cancel,2,,,", "1,0,seal,200,,,"),
        *("2,0,submit,5,1,2,240", "2,0,seal,250,,,"),
    ),
}
# A day on which the two riders ride together, and are caught on their way.
DAY = {**POOLED, "script": POOLED["script"] + "2,0,seal,100,,,\n3,0,seal,101,,,\n"}
LANES = {
    "network": STREET,
    "fleet": table("fleet", "1,4,1,0"),
    "script": table("script", *(f"0,{1 + (k > 100)},submit,{k},2,4,0" for k in range(1, 201))),
}
LOAD = "load side=4 vehicles=3 riders=6 rounds=3".split()


class Left:
    """What a run left: its status, the texts of standard output and error, and of the file of notices."""

    def __init__(self, ran, folder):
        self.status, self.folder = ran.returncode, folder
        self.output, self.error = ((it or b"").decode(errors="replace") for it in (ran.stdout, ran.stderr))
        path = folder / "notices"
        self.notices = path.read_text() if path.is_file() else ""

    def need(self, holds, why):
        """Raises Wrong unless this holds."""
        if not holds:
            raise Wrong(f"{why} (status {self.status}, {self.error!r})")

    def is_refused(self, status, line):
        """Needs this status, this line on standard error, and nothing else."""
        self.need((self.status, self.error) == (status, line), f"status {status} and {line!r} should come")
        self.need(not self.output and not self.notices, "nothing should be written")


class Whole:
    """A run to its end on one lane, whose report is always the same."""

    def __init__(self, program, inputs, more):
        command = "drive" if inputs is DAY else "run"
        self.inputs, self.words = inputs, [command, *WORDS[1:], "notices=notices", *more]
        with tempfile.TemporaryDirectory() as folder:
            left = run_in(Path(folder), lambda it: start(program, it, self.words), inputs)
            left.need(left.status == 0 and not left.error, "the whole run should succeed")
            if len(inputs["network"]) < 1000:  # the judge lists all ways
                judge(Run(Path(folder), self.words), left.output)
        self.report, self.notices = left.output, left.notices
        marks = [it.start() for it in re.finditer(r"^(round|day|done) ", self.report, re.M)]
        self.ends = marks[1:]
        self.told = [notices_in(self.report[a:b]) for a, b in zip(marks, self.ends)]
        left.need(self.notices == "".join(self.told), "these aren't the report's notices")

    def rounds_in(self, text):
        """How many rounds stand whole in a beginning of the report."""
        return sum(end <= len(text) for end in self.ends)

    def begins_with(self, left):
        """Whether a beginning stands that isn't the whole, with the notices of its whole rounds; without memory maybe of all but the last."""
        is_beginning = self.report.startswith(left.output) and left.output != self.report
        left.need(is_beginning, f"{left.output!r} is no beginning of the report, or all of it")
        rounds = self.rounds_in(left.output)
        allowed = ["".join(self.told[:many]) for many in {rounds, max(0, rounds - 1) if left.status == 9 else rounds}]
        left.need(left.notices in allowed, f"{left.notices!r} aren't the notices of {rounds} rounds")


def notices_in(text):
    """The notices of the batches of a round's text, where nobody gives up between a seal and its close."""
    lines = []
    for block in text.split("\nbatch ")[1:]:
        number = block.split("\n")[0]
        of = {int(it): f"batch {number} rider {it} unserved" for it in re.findall(r"^out (\d+)$", block, re.M)}
        for vehicle, stops in re.findall(r"^trip (\d+) \d+ (.+)$", block, re.M):
            drops = dict(re.findall(r"drop:(\d+)@\d+:(\d+)", stops))
            for rider, second in re.findall(r"pick:(\d+)@\d+:(\d+)", stops):
                of[int(rider)] = f"batch {number} rider {rider} vehicle {vehicle} pickup {second} dropoff {drops[rider]}"
        lines += [of[rider] for rider in sorted(of)]
    return "".join(f"{line}\n" for line in lines)


def start(program, folder, words, **more):
    """Runs the program in the folder to its end."""
    return subprocess.run([program, *words], cwd=folder, stderr=subprocess.PIPE, timeout=60, **{"stdout": subprocess.PIPE, **more})


def run_in(folder, call, inputs):
    """What a call leaves in the folder, where these inputs lie."""
    for name, text in inputs.items():
        (folder / f"{name}.csv").write_text(text)
    return Left(call(folder), folder)


class Part:
    """A part's runs: how many there were, how many calls failed in them, and what was wrong."""

    def __init__(self, step):
        self.step, self.runs, self.faults, self.wrong = step, 0, 0, []

    def try_some(self, tries):
        """Tries one in so many, where not all are due."""
        self.try_all(list(tries)[:: self.step])

    def try_all(self, tries):
        """Each try is a name and a function of an empty folder that raises Wrong, and gives how many calls failed."""
        tries = list(tries)
        with ThreadPoolExecutor(len(os.sched_getaffinity(0))) as pool:
            for (name, _), (faults, why) in zip(tries, pool.map(self.try_one, tries)):
                self.runs += 1
                self.faults += faults
                if why:
                    self.wrong.append(f"{name}: {why}")

    def try_one(self, given):
        """How many calls failed in a try, and what was wrong with it, if anything."""
        try:
            with tempfile.TemporaryDirectory() as folder:
                return given[1](Path(folder)) or 0, None
        except (Wrong, subprocess.TimeoutExpired) as wrong:
            return 0, str(wrong)
