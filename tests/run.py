"""Runs the program on the cases of tests/cases (README.md says what a case is).

    run.py PROGRAM [CASE ..]

Shows for each case that fails what should have come and what came. The last line is `N passed, M failed`.
"""

import difflib
import os
import re
import shutil
import subprocess
import sys
import tempfile
from concurrent.futures import ThreadPoolExecutor
from pathlib import Path

from inputs import Run
from judge import Wrong, judge
from make_input import make

TESTS = Path(__file__).resolve().parent
CASES, STREET = TESTS / "cases", TESTS / "street"
MOST_SHOWN = 20  # lines of a difference


def text_in(folder, name, without=""):
    return (folder / name).read_text(errors="surrogateescape") if (folder / name).exists() else without


def difference(name, wanted, got):
    """The lines by which a text differs from what should come, or nothing."""
    if wanted == got:
        return []
    names = f"{name} that should come", f"{name} that came"
    lines = difflib.unified_diff(wanted.split("\n"), got.split("\n"), *names, n=1, lineterm="")
    lines = [line for line in lines if not line.startswith("@@")]
    return lines[:MOST_SHOWN] + [f".. and {len(lines) - MOST_SHOWN} more lines"] * (len(lines) > MOST_SHOWN)


def determined(report):
    """The lines of a report that don't rest on a choice among equals: entries without their places, and of each batch
    what the rules determine."""
    entries, others = [], []
    for line in report.split("\n"):
        word, _, rest = line.partition(" ")
        if word.isdigit():
            entries.append(rest.partition(" ")[2])
        elif word in ("trip", "late"):
            others.append(" ".join(line.split(" ")[: 3 if word == "late" else 2]))
        elif word not in ("out", "move", "cost", "bound", "nodes", "branch", "leaf", "dead"):
            others.append(line)
    costs, bounds = ([it for it in others_of(report, word)] for word in ("cost", "bound"))
    return "\n".join([*sorted(entries), *others, *(f"cost {it}" for it in costs if costs == bounds)])


def others_of(report, word):
    return re.findall(rf"^{word} (-?\d+)$", report, re.M)


def judged_by_rules(folder, case, words, got):
    """The report has to be one that the rules allow, and to agree with the case's in all that they determine."""
    try:
        judge(Run(folder, words), got)
    except Wrong as wrong:
        return [f"the report is wrong: {wrong}"]
    if not (case / "stdout").exists():
        return []
    return difference("what the rules determine", determined(text_in(case, "stdout")), determined(got))


def fixed_summary(text):
    """What of a summary doesn't rest on a choice among equals, but for costs."""
    lines = text.split("\n")
    served = [list(map(int, re.findall(r"\d+", line))) for line in lines if line.startswith("batch 1 served")]
    first = [f"batch 1: {served + out} riders, {pairs} pairs" for _, served, out, pairs, *_ in served]
    return "\n".join([re.sub(r"^(batch \d+) .*", r"\1", line) for line in lines] + first)


def setting(words, key, without):
    """The number that words give a key, or else the one that it has without them."""
    return next((int(word.partition("=")[2]) for word in words if word.startswith(f"{key}=")), without)


def out_of_range(words, got):
    """The batches of a summary that cost less than the penalties of who is left out, or more than these and the longest delay
    of each who is served; whose bound is no number of seconds up to the cost; or that have more trips than vehicles."""
    penalty, delay, vehicles = setting(words, "penalty", 10_000), setting(words, "delay", 180), setting(words, "vehicles", 100)
    wrong = []
    for line in re.findall(r"^batch .* served .*$", got, re.M):
        _, served, out, rows, trips, cost, bound = map(int, re.findall(r"-?\d+", line))
        least = out * penalty
        if not (least <= cost <= least + served * delay and 0 <= bound <= cost and trips <= min(vehicles, rows)):
            wrong.append(f"out of range: {line}")
    return wrong


def judged_as_summary(folder, case, words, got):
    """What `load` prints: the first batch's riders and pairs are determined, and its cost and bound, where these are one; and
    the numbers of each batch are within their ranges."""
    wanted = text_in(case, "stdout")
    costs = [re.findall(r"cost (\d+) bound (-?\d+)$", text, re.M) for text in (wanted, got)]
    first, can_be = costs[1][:1], [(cost, bound) for cost, bound in costs[0][:1] if cost == bound]
    other = [f"the first batch's cost and bound are {first}, and can be {can_be}"] if can_be and first != can_be else []
    return difference("what is determined", fixed_summary(wanted), fixed_summary(got)) + out_of_range(words, got) + other


JUDGES = {"rules": judged_by_rules, "summary": judged_as_summary}


def prepare(case, folder):
    """The case's files, and of the street those that it lacks."""
    for source in (STREET, case):
        shutil.copytree(source, folder, dirs_exist_ok=True)
    for name in ("again", "notices", "stdout", "stderr", "status"):
        (folder / name).unlink(missing_ok=True)
    for line in text_in(case, "make").splitlines():
        make(line, folder)


def with_words(words, others):
    """The words with these others in place of those of the same keys."""
    keys = tuple(f"{other.partition('=')[0]}=" for other in others)
    return [*(word for word in words if not word.startswith(keys)), *others]


def run_again(program, case, folder, words, got):
    """With the words of each line of `again` in place of its own the program has to print the same bytes."""
    wrong = []
    for line in text_in(case, "again").splitlines():
        ran = subprocess.run([program, *with_words(words, line.split(" "))], cwd=folder, capture_output=True, timeout=120)
        if (ran.returncode, ran.stderr) != (0, b""):
            wrong += [f"with {line}: status {ran.returncode}, {ran.stderr!r}"]
        wrong += difference(f"standard output with {line}", got, ran.stdout.decode(errors="surrogateescape"))
    return wrong


def try_case(program, case):
    """What is wrong with a run of the case, line by line."""
    words = text_in(case, "words").splitlines()
    kind = text_in(case, "judge").strip()
    with tempfile.TemporaryDirectory() as folder:
        folder = Path(folder)
        prepare(case, folder)
        try:
            with open(text_in(case, "output", str(folder / "stdout")).strip(), "wb") as output:
                ran = subprocess.run([program, *words], cwd=folder, stdout=output, stderr=subprocess.PIPE, timeout=120)
        except subprocess.TimeoutExpired:
            return ["it hadn't ended after two minutes"]
        status, wanted = ran.returncode, int(text_in(case, "status", "0"))
        wrong = [f"status {status}, and {wanted} should come"] * (status != wanted)
        wrong += difference("standard error", text_in(case, "stderr"), ran.stderr.decode(errors="replace"))
        got = text_in(folder, "stdout")
        if kind and not wrong:
            wrong += JUDGES[kind](folder, case, words, got)
        elif not kind:
            wrong += difference("standard output", text_in(case, "stdout"), got)
        if (case / "notices").exists():
            wrong += difference("notices", text_in(case, "notices"), text_in(folder, "notices"))
        return wrong or run_again(program, case, folder, words, got)


def main():
    if len(sys.argv) < 2:
        sys.exit(__doc__)
    program, names = os.path.abspath(sys.argv[1]), sys.argv[2:]
    cases = [it for it in sorted(CASES.iterdir()) if it.is_dir() and (not names or it.name in names)]
    with ThreadPoolExecutor(len(os.sched_getaffinity(0))) as pool:
        answers = pool.map(lambda case: try_case(program, case), cases)
    failed = 0
    for case, wrong in zip(cases, answers):
        if wrong:
            failed += 1
            print("\n".join([f"{case.name}:", *(f"    {line}" for line in wrong)]))
    print(f"{len(cases) - failed} passed, {failed} failed")
    return failed != 0


if __name__ == "__main__":
    sys.exit(main())
