"""Audits printed reports: the report of each case, of each drawn run and of some large workloads is confirmed, and with one
change in it is refused.

    audited.py PROGRAM [CHANGES [SEED [NAME ..]]]

A change takes one byte, one number or one line: it is altered, left out, put in twice, or changes places with the next, or
the text is cut. A tenth of the changes is made in lines of trees, and a tenth in reports of more than 60 kB, of which one
has more than 1 MB. A changed report is refused exactly where the judge of these tests refuses it (other multipliers may
show the same bound, and another setting need not matter), and the refusal names the changed line, or the first of the
batch's block in which it stands, with a point that lines of its kind decide. Of a small report each line of a table is put
in place of its own, and the fault that is named is the table's. With names only these reports are taken, and no table.

The last line is `N passed, M failed`, by reports and by changes. A change that changes nothing that matters, so that the
judge takes the text and the program confirms it, is counted apart.
"""

import os
import random
import re
import shutil
import subprocess
import sys
import tempfile
from concurrent.futures import ThreadPoolExecutor
from pathlib import Path
from threading import Lock

from drawn import HANGS, inputs_of, output_of, write_inputs
from growth import LargeRun
from inputs import Run
from judge import Wrong, judge
from large import all_given, workload
from run import CASES, STREET, prepare, text_in

DRAWN = 60  # runs that are drawn, of which some are days or made workloads, and then aren't audited
LARGE, MILLION = 60_000, 1_000_000  # bytes
SHARE = 0.1  # of changes that are made in lines of trees, and of those in large reports
TREE = ("branch", "leaf", "dead")
MANY = "million"  # the report of more than 1 MB
FILES = ("network", "fleet", "script")
# By the first word of a block's line, the points that a change of it can fail: who expired, the graphs, late vehicles, the
# trips, the plan, the bound, the tree, better plans near, the moves.
POINTS = {
    **dict.fromkeys(("batch", "expired", "overflow"), {0}),
    **dict.fromkeys(("lapsed", "rv", "rr", "row"), {1}),
    "late": {2},
    "trip": {3},
    **dict.fromkeys(("out", "cost"), {4}),
    **dict.fromkeys(("bound", "nodes", "branch", "leaf", "dead"), {5, 6}),
    "move": {8},
}

# A report of one request, and lines that stand in place of one of its own, with the fault that is named.
SMALL = """ridepool report 1
settings wait=120 delay=180 trip=4 penalty=10000 budget=200 pairs=200000 proof=1
network nodes=5 arcs=8
fleet vehicles=1
round 0
0 0 submit 1 2 4 0 accepted
done 1
"""
SETTINGS = SMALL.split("\n")[1]
HEADS = {
    "bad form at line 1": ["ridepool report 2", "ridepool report 1 "],
    "bad form at line 2": [f"{SETTINGS} dwell=0", SETTINGS.replace("120", "0120"), SETTINGS.replace(" trip=4", "")],
    "wrong head at line 2": [SETTINGS.replace(*it) for it in (("120", "7201"), ("proof=1", "proof=0"), ("trip=4", "trip=7"), ("budget=200", "budget=0"))],
    "bad form at line 3": ["network nodes=5  arcs=8", "network nodes=05 arcs=8"],
    "wrong head at line 3": ["network nodes=5 arcs=9", "network nodes=4 arcs=8"],
    "bad form at line 4": ["fleet vehicles=1 "],
    "wrong head at line 4": ["fleet vehicles=2"],
}
OTHER_ENTRIES = [  # of form, and not the one that has to come
    *("1 0 submit 1 2 4 0 accepted", "0 1 submit 1 2 4 0 accepted", "0 0 submit 2 2 4 0 accepted", "0 0 submit 1 2 4 0 6 accepted"),
    *("0 255 cancel 7 cancelled", "0 2 report 4 5 0 placed", "0 2 pickup 4 1 90 picked", "0 2 dropoff 4 1 120 dropped"),
    *("0 3 seal 1000000000 sealed 1", "0 3 close 18446744073709551615 closed", "0 9 cancel 1 refused unknown-rider"),
    *("0 9 cancel 1 refused is-aboard 4", "0 9 cancel 1 refused ended delivered", "0 9 pickup 4 1 9 refused not-promised 5"),
    *("0 9 pickup 4 1 9 refused not-promised none", "0 9 pickup 4 1 9 refused time-back 10", "0 9 seal 9 refused batch-open 1"),
    *("0 9 close 9 refused not-this-batch 8", "0 0 submit 1 2 4 0 refused pool-full", "round 4294967295", "done 0"),
]
NO_ENTRIES = [
    *("00 0 submit 1 2 3 60 accepted", "0 256 submit 1 2 3 60 accepted", "0 0 submit 1 2 3 60 1 accepted", "0 0 submit 1 2 3 60 7 accepted"),
    *("0 0 submit 1 2 3 accepted", "0 0 submit 1 2 3 60  accepted", "0 0 submit 1 2 3 60 accept", "0 0 cancel 1000000001 cancelled"),
    *("0 0 seal 60 sealed", "0 0 cancel 1 refused ended gone", "0 0 cancel 1 refused ended waiting", "0 0 cancel 1 refused ended promised"),
    *("0 0 cancel 1 refused ended aboard", "round 4294967296", "round 01", "done 0 ", "", "batch 1", "end"),
]


def lines_of_table():
    """Each line of the table, with the number of its own and the fault."""
    for fault, lines in HEADS.items():
        yield from ((int(fault[-1]), line, fault) for line in lines)
    yield from ((6, line, "wrong entry at line 6") for line in OTHER_ENTRIES)
    yield from ((6, line, "bad form at line 6") for line in NO_ENTRIES)


class Printed:
    """A report that the program printed with proof=1, and the words that audit it."""

    def __init__(self, name, program, words, folder):
        self.name, self.folder = name, folder
        words = [*(word for word in words if not word.startswith(("proof=", "notices="))), "proof=1"]
        self.words, self.text = words, output_of(program, words, folder)
        self.lines = self.text.split("\n")[:-1]
        self.tree = [at for at, line in enumerate(self.lines) if line.startswith(TREE)]
        self.is_large, self.judging, self.runs = len(self.text) > LARGE, Lock(), {}
        given = [word for word in words if word.startswith(tuple(f"{it}=" for it in FILES))]
        self.audit = [program, "audit", *given]
        begins = [at for at, line in enumerate(self.lines) if line.startswith("batch ")]
        ends = [at for at, line in enumerate(self.lines) if line == "end"]
        self.blocks = list(zip(begins, ends))

    def verdict(self, text, number):
        path = self.folder / f"audited-{number}"
        path.write_text(text)
        words = [*self.audit, f"report={path.name}"]
        ran = subprocess.run(words, cwd=self.folder, capture_output=True, text=True, timeout=HANGS)
        path.unlink()
        return ran

    def confirm(self):
        """The program confirms its own report, and counts its entries and batches."""
        ran = self.verdict(self.text, "whole")
        closes = sum(line.endswith(" closed") and line[:1].isdigit() for line in self.lines)
        wanted = f"audit ok entries {self.lines[-1].removeprefix('done ')} batches {closes}\n"
        if (ran.returncode, ran.stdout, ran.stderr) != (0, wanted, ""):
            raise Wrong(f"{ran.returncode}, {ran.stdout!r}, {ran.stderr!r} in place of {wanted!r}")

    def is_right(self, text):
        """Whether the judge of these tests takes the text for the report of a run with the settings of its second line."""
        settings = re.search(r"^settings (.*)$", text, re.M)
        told = settings[1].split(" ") if settings else []
        others = [it for it in self.words if it.partition("=")[0] not in ("wait", "delay", "trip", "penalty", "budget", "pairs", "proof", "dwell")]
        try:
            if self.is_large:
                with self.judging:
                    judge(self.large_run([*others, *told]), text)
            else:
                judge(Run(self.folder, [*others, *told]), text)
        except (Wrong, ValueError, IndexError, KeyError):
            return False
        return True

    def large_run(self, words):
        """The run of these words: of a large one the batches are kept."""
        key = tuple(words)
        if key not in self.runs:
            self.runs[key] = LargeRun(self.folder, words)
        return self.runs[key]

    def points_of(self, lines):
        """The points that a change of these lines, counted from 1, can fail."""
        words = [self.lines[line - 1].split(" ")[0] for line in lines if line <= len(self.lines)]
        return set().union(*(POINTS.get(word, ()) for word in words))

    def refuse(self, change, number):
        """The changed report is refused, if it is none, at the changed line or at the batch in whose block it stands. Whether
        it was; else it is a right report still, and was confirmed."""
        way, at, text = change
        ran = self.verdict(text, number)
        if ran.returncode == 0 and self.is_right(text):
            return False
        found = re.fullmatch(r"ridepool: report: (?:(?:cut at|bad form at|wrong head at|wrong entry at) line (\d+)|wrong batch at line (\d+) point ([0-8]))\n", ran.stderr)
        if ran.returncode != 13 or ran.stdout or not found:
            raise Wrong(f"{way} of line {at + 1}: {ran.returncode}, {ran.stdout!r}, {ran.stderr!r}")
        if at != 1 or ran.stderr.endswith("line 2\n"):
            self.is_named(way, at, found)
        if self.may_be_right(way, at) and self.is_right(text):
            raise Wrong(f"{way} of line {at + 1}: a right report is refused: {ran.stderr!r}")
        return True

    def is_named(self, way, at, found):
        """The refusal names the changed line, or its batch with a point that the line decides."""
        block = [begin for begin, end in self.blocks if begin <= at <= end]
        lines = [at + 1, at + 2] if way == "swapped lines" else [at + 1]  # a line may come too early, or the one behind it too late
        if found[1] and int(found[1]) not in lines or found[2] and int(found[2]) - 1 not in block:
            raise Wrong(f"{way} of line {at + 1}: {found[0]!r}")
        touched = [at] if way == "doubled line" else lines  # the second of two equal lines is the first that differs
        if found[3] and int(found[3]) not in self.points_of(touched):
            raise Wrong(f"{way} of line {at + 1}, {self.lines[at]!r}: {found[0]!r}")

    def may_be_right(self, way, at):
        """Whether the judge is asked about a refused text. It asks no setting for its range, and reads 07 as 7. In a large
        report it is asked only about lines that leave a choice."""
        leaves_choice = not self.is_large or self.lines[min(at, len(self.lines) - 1)].startswith((*TREE, "trip", "late", "move"))
        return at != 1 and way != "zero in front" and leaves_choice


def altered_byte(draw, lines, at):
    line = lines[at]
    if not line:
        return None
    place = draw.randrange(len(line))
    other = draw.choice([it for it in "0123456789 abz:@-" if it != line[place]])
    return [*lines[:at], line[:place] + other + line[place + 1 :], *lines[at + 1 :]]


def altered_number(draw, lines, at):
    numbers = [*re.finditer(r"\d+", lines[at])]
    if not numbers:
        return None
    number = draw.choice(numbers)
    other = str(max(0, int(number[0]) + draw.choice([-2, -1, 1, 2, 10])))
    line = lines[at][: number.start()] + other + lines[at][number.end() :]
    return [*lines[:at], line, *lines[at + 1 :]] if line != lines[at] else None


def dropped_line(draw, lines, at):
    return [*lines[:at], *lines[at + 1 :]]


def doubled_line(draw, lines, at):
    return [*lines[: at + 1], *lines[at:]]


def swapped_lines(draw, lines, at):
    if at + 1 == len(lines) or lines[at] == lines[at + 1]:
        return None
    return [*lines[:at], lines[at + 1], lines[at], *lines[at + 2 :]]


def zero_in_front(draw, lines, at):
    line = re.sub(r"(\d+)", r"0\1", lines[at], count=1)
    return [*lines[:at], line, *lines[at + 1 :]] if line != lines[at] else None


WAYS = [altered_byte, altered_byte, altered_number, altered_number, dropped_line, doubled_line, swapped_lines, zero_in_front]


def first_difference(one, other):
    """The first line in which two texts differ."""
    pairs = zip(one + [None], other + [None])
    return next(at for at, (a, b) in enumerate(pairs) if a != b)


def drawn_change(draw, printed, places):
    """A changed text, what was done, and the first line that differs. The change is at one of these places, if not a cut."""
    while True:
        if places is not printed.tree and draw.random() < 0.1:
            size = draw.randrange(len(printed.text))
            return "a cut", printed.text[:size].count("\n"), printed.text[:size]
        way, at = draw.choice(WAYS), draw.choice(places)
        lines = way(draw, printed.lines, at)
        if lines and lines != printed.lines:
            first = first_difference(printed.lines, lines)
            return way.__name__.replace("_", " "), first, "".join(f"{line}\n" for line in lines)


def drawn_changes(draw, printed, count):
    """So many changes, each with its report: a tenth in lines of trees, and a tenth in large reports. The second line of a
    large report, its settings, stays."""
    small, large = ([it for it in printed if it.is_large == is_large] for is_large in (False, True))
    for number in range(count):
        one_of = large if large and (not small or number < SHARE * count) else small
        has_tree = number % round(1 / SHARE) == 0
        it = draw.choice([it for it in one_of if it.tree] if has_tree else one_of)
        places = it.tree if has_tree else range(2 * it.is_large, len(it.lines))
        yield it, drawn_change(draw, it, places)


def refuse_line(small, at, line, fault):
    """With this line in place of its own the small report is refused so."""
    lines = SMALL.split("\n")
    lines[at - 1] = line
    ran = small.verdict("\n".join(lines), f"{at}-{line.replace('/', '')}")
    if (ran.returncode, ran.stdout, ran.stderr) != (13, "", f"ridepool: report: {fault}\n"):
        raise Wrong(f"{line!r} in place of line {at}: {ran.returncode}, {ran.stdout!r}, {ran.stderr!r} in place of {fault!r}")


def small_report(program, room):
    """The small report, as the program prints it."""
    folder = room / "small"
    folder.mkdir()
    shutil.copytree(STREET, folder, dirs_exist_ok=True)
    (folder / "script.csv").write_text("round,lane,command,a,b,c,d\n0,0,submit,1,2,4,0\n")
    return Printed("a small report", program, ["run", *(f"{name}={name}.csv" for name in FILES)], folder)


def of_cases(room):
    for case in sorted(CASES.iterdir()):
        words = text_in(case, "words").split("\n")[:-1]
        if words[:1] == ["run"] and words[1:] != ["--help"] and text_in(case, "status", "0\n") in ("0", "0\n") and (case / "stdout").exists():
            folder = room / case.name
            prepare(case, folder)
            yield case.name, words, folder


def of_draws(room):
    for seed in range(1, DRAWN + 1):
        drawn = inputs_of(seed)
        if drawn.words[0] == "run":
            folder = room / f"seed-{seed}"
            folder.mkdir()
            write_inputs(drawn, folder)
            yield f"seed {seed}", drawn.words, folder


def of_large(room):
    """Workloads with reports of more than 60 kB, and one of more than 1 MB."""
    chosen = [it for it in all_given() if it.name in ("load", "branches", "spent")]
    for given in [*chosen, workload(MANY, [2, 20, 500, 260, 4])]:
        folder = room / given.name
        folder.mkdir()
        for name, text in given.texts.items():
            (folder / f"{name}.csv").write_text(text)
        yield given.name, given.words(), folder


def are_large(printed):
    """Raises Wrong where the large workloads aren't as large as they have to be."""
    for it in printed:
        if it.name in ("load", "branches", "spent", MANY) and len(it.text) <= (MILLION if it.name == MANY else LARGE):
            raise Wrong(f"a report of {len(it.text)} bytes is too small")


def tries(name, call, *given):
    """What a try gives, by default that it passed; None where it failed."""
    try:
        answer = call(*given)
    except (Wrong, OSError, subprocess.SubprocessError) as wrong:
        print(f"{name}: {wrong}")
        return None
    return answer is not False


def main():
    if len(sys.argv) < 2:
        sys.exit(__doc__)
    program = os.path.abspath(sys.argv[1])
    changes, seed = [*map(int, sys.argv[2:4]), *[2000, 1][len(sys.argv[2:4]) :]]
    draw, names, answers, table = random.Random(seed), sys.argv[4:], [], []
    with tempfile.TemporaryDirectory() as room, ThreadPoolExecutor(len(os.sched_getaffinity(0))) as pool:
        room = Path(room)
        given = [it for it in [*of_cases(room), *of_draws(room), *of_large(room)] if not names or it[0] in names]
        printed = [*pool.map(lambda it: Printed(it[0], program, *it[1:]), given)]
        are_large(printed)
        answers += pool.map(lambda it: tries(it.name, it.confirm), printed)
        if not names:
            small, table = small_report(program, room), [*lines_of_table()]
            if small.text != SMALL:
                raise Wrong(f"the small report is {small.text!r}")
            answers.append(tries(small.name, small.confirm))
            answers += pool.map(lambda it: tries("a small report", refuse_line, small, *it), table)
        drawn = [(number, *it) for number, it in enumerate(drawn_changes(draw, printed, changes))]
        answers += pool.map(lambda it: tries(it[1].name, it[1].refuse, it[2], it[0]), drawn)
    in_trees, in_large = (sum(map(holds, drawn)) for holds in (lambda it: it[2][1] in it[1].tree, lambda it: it[1].is_large))
    print(f"{len(printed)} reports were audited, {len(table)} with a line of the table, and {changes} changed ones:")
    print(f"{in_trees} in a line of a tree, {in_large} in a large report; {answers.count(False)} changed nothing that matters")
    print(f"{answers.count(True)} passed, {answers.count(None)} failed")
    return None in answers


if __name__ == "__main__":
    sys.exit(main())
