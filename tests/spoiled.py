"""Shows that the judge refuses wrong reports: takes right ones, of the cases and of drawn inputs, spoils each in many ways,
and demands that each spoiled one is refused, as a report and as the beginning of one.

    spoiled.py PROGRAM [RUNS [SEED]]

Each way has to be tried, and refused every time. The last line is `N passed, M failed`, by ways.
"""

import multiprocessing
import os
import random
import re
import sys
import tempfile
from collections import Counter
from pathlib import Path

from drawn import inputs_of, output_of, write_inputs
from inputs import Run
from judge import Wrong, judge, judge_beginning
from run import CASES, prepare


def number_plus(word, place, by):
    """A line of that word with another number at that place."""

    def spoil(lines, at):
        words = lines[at].split(" ")
        if words[0] != word or len(words) <= place or not words[place].lstrip("-").isdigit():
            return None
        words[place] = str(int(words[place]) + by)
        return [*lines[:at], " ".join(words), *lines[at + 1 :]]

    return spoil


def left_out(word):
    return lambda lines, at: [*lines[:at], *lines[at + 1 :]] if lines[at].split(" ")[0] == word else None


def twice(word):
    return lambda lines, at: [*lines[: at + 1], *lines[at:]] if lines[at].split(" ")[0] == word else None


def changed(pattern, by):
    """A line in which the first match of the pattern becomes something else."""

    def spoil(lines, at):
        line = re.sub(pattern, by, lines[at], count=1)
        return [*lines[:at], line, *lines[at + 1 :]] if line != lines[at] else None

    return spoil


def a_later_stop(lines, at):
    return changed(r"^((?:trip|late) .*@\d+:)(\d+)", lambda it: f"{it[1]}{int(it[2]) + 1}")(lines, at)


def swapped_stops(lines, at):
    """The last two stops, of different seconds, the other way round."""
    words = lines[at].split(" ")
    if words[0] not in ("trip", "late") or len(words) < 5 or len({it.split(":")[-1] for it in words[-2:]}) < 2:
        return None
    return [*lines[:at], " ".join([*words[:-2], words[-1], words[-2]]), *lines[at + 1 :]]


def an_emptied_trip(lines, at):
    """A vehicle without passengers serves nobody, where that costs more: who was in its trip is out, and the cost follows."""
    words = lines[at].split(" ")
    riders = {int(it[5:].split("@")[0]) for it in words if it.startswith("pick:")}
    drops = sum(it.startswith("drop:") for it in words)
    penalty = int(re.search(r" penalty=(\d+) ", lines[1])[1])
    more = penalty * len(riders) - int(words[2]) if words[0] == "trip" else 0
    if not riders or drops > len(riders) or more <= 0:
        return None
    start = next(k for k in range(at, 0, -1) if lines[k].startswith("batch "))
    end = lines.index("end", at)
    block = lines[start:end]
    block[at - start] = f"trip {words[1]} 0"
    outs = sorted(riders | {int(it[4:]) for it in block if it.startswith("out ")})
    block = [it for it in block if not it.startswith("out ")]
    last = max(k for k, it in enumerate(block) if it.startswith("trip "))
    block[last + 1 : last + 1] = [f"out {it}" for it in outs]
    block = [f"cost {int(it[5:]) + more}" if it.startswith("cost ") else it for it in block]
    return [*lines[:start], *block, *lines[end:]]


def a_wrong_multiplier(lines, at):
    """A leaf that is the whole tree, with one multiplier far below any that shows this much."""
    words = lines[at].split(" ")
    if words[0] != "leaf" or len(words) < 2 or lines[at - 1] != "nodes 1":
        return None
    words[-1] = str(int(words[-1]) - 10**15)
    return [*lines[:at], " ".join(words), *lines[at + 1 :]]


def an_overflow(lines, at):
    """A planned batch that is said to overflow."""
    start = next((k for k in range(at, 0, -1) if lines[k].startswith("batch ")), 0)
    if not lines[at].startswith("rv ") or not start:
        return None
    return [*lines[: start + 1], "overflow", *lines[lines.index("end", at) :]]


def dead_at_the_root(lines, at):
    return [*lines[:at], "dead", *lines[at + 1 :]] if lines[at].startswith("leaf") and lines[at - 1] == "nodes 1" else None


def another_rider_in_a_row(lines, at):
    words = lines[at].split(" ")
    return [*lines[:at], " ".join([*words, "999"]), *lines[at + 1 :]] if words[0] == "row" else None


def entry(reply, by):
    return changed(rf"^(\d+ \d+ .* ){reply}$", rf"\g<1>{by}")


def one_more(match):
    return f"{match[1]}{int(match[2]) + 1}{match[3]}"


CUT = "a last line left out"  # which makes a report a beginning
WAYS = {
    "another setting": changed(r"^(settings .* penalty=)(\d+)", r"\g<1>1\2"),
    "another number of nodes of the network": changed(r"^(network nodes=)(\d+)", r"\g<1>1\2"),
    "another round": number_plus("round", 1, 1),
    "another position": changed(r"^(\d+)( \d+ [a-z]+ )", r"1\1\2"),
    "another lane": changed(r"^(\d+ )(\d+)( [a-z]+ )", r"\g<1>1\2\3"),
    "another field": changed(r"^(\d+ \d+ [a-z]+ )(\d+)", r"\g<1>1\2"),
    "a refusal for accepted": entry("accepted", "refused duplicate-rider"),
    "accepted for a refusal": entry("refused [a-z-]+", "accepted"),
    "a refusal for picked": entry("picked", "refused vehicle-full"),
    "picked for a refusal": entry("refused not-promised none", "picked"),
    "another holder": changed(r"(refused not-promised )(\d+)", r"\g<1>1\2"),
    "another last second": changed(r"(refused time-back )(\d+)", r"\g<1>1\2"),
    "an entry left out": lambda lines, at: [*lines[:at], *lines[at + 1 :]] if re.match(r"\d+ \d+ ", lines[at]) else None,
    "another batch": number_plus("batch", 1, 1),
    "an end left out": left_out("end"),
    "an expired rider left out": left_out("expired"),
    "a rider expired twice": twice("expired"),
    "an overflow left out": left_out("overflow"),
    "an overflow in place of a plan": an_overflow,
    "a lapsed rider left out": left_out("lapsed"),
    "a late vehicle left out": left_out("late"),
    "another delay of a late vehicle": number_plus("late", 2, 1),
    "a late vehicle that reaches nobody": changed(r"^(late \d+) \d+ .*", r"\1 none"),
    "a pair of a vehicle and a rider left out": left_out("rv"),
    "a pair of a vehicle and a rider twice": twice("rv"),
    "a pair of riders left out": left_out("rr"),
    "a pair of riders twice": twice("rr"),
    "a row left out": left_out("row"),
    "a row twice": twice("row"),
    "a row of one second more": number_plus("row", 2, 1),
    "a row of one second less": number_plus("row", 2, -1),
    "a row with another rider": another_rider_in_a_row,
    "a trip left out": left_out("trip"),
    "a trip of one second more": number_plus("trip", 2, 1),
    "a stop one second later": a_later_stop,
    "two stops swapped": swapped_stops,
    "a stop at another node": changed(r"^(trip .*@)(\d+)(:\d+)", r"\g<1>1\2\3"),
    "a drop in place of a pick": changed(r"^(trip .*)pick:", r"\1drop:"),
    "a rider left out of a plan": an_emptied_trip,
    "who is out left out": left_out("out"),
    "who is out twice": twice("out"),
    "a move left out": left_out("move"),
    "a move of one second more": number_plus("move", 3, 1),
    "a move of another vehicle": number_plus("move", 1, 100),
    "a move to another rider": number_plus("move", 2, 100),
    "a cost of one more": number_plus("cost", 1, 1),
    "a cost of one less": number_plus("cost", 1, -1),
    "a bound of one more": number_plus("bound", 1, 1),
    "a bound of one less": number_plus("bound", 1, -1),
    "one node more": number_plus("nodes", 1, 1),
    "a leaf left out": left_out("leaf"),
    "a leaf twice": twice("leaf"),
    "a wrong multiplier": a_wrong_multiplier,
    "a multiplier too many": changed(r"^leaf.*", r"\g<0> 0"),
    "a dead root": dead_at_the_root,
    "a branch left out": left_out("branch"),
    "a branch of another row": number_plus("branch", 2, 1000),
    "a branch of another vehicle": number_plus("branch", 1, 1000),
    "a stop of a day one second later": changed(r"^(\d+ \d+ (?:pickup|dropoff) \d+ \d+ )(\d+)( (?:picked|dropped))$", one_more),
    "a vehicle one second later": changed(r"^(\d+ \d+ report \d+ \d+ )(\d+)( placed)$", one_more),
    "a vehicle elsewhere": changed(r"^(\d+ \d+ report \d+ )(\d+)( \d+ placed)$", r"\g<1>1\2\3"),
    "one more picked": number_plus("day", 2, 1),
    "one dropped less": number_plus("day", 4, -1),
    "another worst wait": number_plus("day", 6, 1),
    "another worst delay": number_plus("day", 8, 1),
    "the counts of a day left out": left_out("day"),
    "another number of entries": number_plus("done", 1, 1),
    CUT: left_out("done"),
    "a line behind the last": twice("done"),
}


def try_case(case):
    """Which ways were tried on the report of a case, and which spoiled reports passed."""
    with tempfile.TemporaryDirectory() as folder:
        folder = Path(folder)
        prepare(case, folder)
        words = (case / "words").read_text().splitlines()
        return spoil_all(case.name, Run(folder, words), (case / "stdout").read_text())


def try_seed(program, seed):
    """The same for the program's report of the seed's inputs."""
    drawn = inputs_of(seed)
    with tempfile.TemporaryDirectory() as folder:
        folder = Path(folder)
        write_inputs(drawn, folder)
        return spoil_all(f"seed {seed}", Run(folder, drawn.words), output_of(program, drawn.words, folder))


def spoil_all(name, run, report):
    rng, tried, passed = random.Random(name), Counter(), []
    lines = report.rstrip("\n").split("\n")
    if not is_right(run, lines):
        passed.append(("a right report", name))
    if not begins_right(run, report[: rng.randrange(len(report))]):
        passed.append(("the beginning of a right report", name))
    for way, spoil in WAYS.items():
        places = [at for at in range(len(lines)) if spoil(lines, at)]
        if places:
            tried[way] += 1
            spoiled = spoil(lines, rng.choice(places))
            if is_right(run, spoiled) or (way != CUT and begins_right(run, text_of(spoiled))):
                passed.append((way, name))
    return tried, passed


def text_of(lines):
    return "".join(f"{line}\n" for line in lines)


def is_right(run, lines):
    return passes(judge, run, text_of(lines))


def begins_right(run, text):
    return passes(judge_beginning, run, text)


def passes(judging, run, text):
    try:
        judging(run, text)
        return True
    except Wrong:
        return False


def main():
    if len(sys.argv) < 2:
        sys.exit(__doc__)
    program = os.path.abspath(sys.argv[1])
    given = list(map(int, sys.argv[2:4]))
    runs, first = given + [40, 1][len(given) :]
    cases = [it.parent for it in sorted(CASES.glob("*/judge")) if it.read_text() == "rules\n" and (it.parent / "stdout").exists()]
    with multiprocessing.Pool(len(os.sched_getaffinity(0))) as pool:
        of_cases = pool.map_async(try_case, cases, chunksize=1)
        of_seeds = pool.starmap_async(try_seed, [(program, seed) for seed in range(first, first + runs)], chunksize=1)
        answers = of_cases.get() + of_seeds.get()
    tried = sum((it for it, _ in answers), Counter())
    passed = [it for _, found in answers for it in found]
    untried = [way for way in WAYS if not tried[way]]
    for way, name in passed:
        print(f"{name}: {way} is judged wrongly")
    for way in untried:
        print(f"no report has a place for {way}")
    wrong = {way for way, _ in passed} | {*untried}
    print(f"{sum(tried.values())} spoiled reports of {len(answers)} right ones were judged")
    print(f"{len(WAYS) - len(wrong)} passed, {len(wrong)} failed")
    return bool(wrong)


if __name__ == "__main__":
    sys.exit(main())
