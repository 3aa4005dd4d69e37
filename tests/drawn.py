"""Runs the program on drawn inputs and judges each report by the rules (judge.py).

    drawn.py PROGRAM [RUNS [SEED]]      so many seeds, from this one on
    drawn.py inputs SEED FOLDER         writes a seed's files and words into a folder

Most seeds draw a script of some rounds; of ten, one draws a crowd, two a driven day, and one a made workload: the report of
its three texts is judged, and the summary that `load` prints, on another number of workers, has to say the same. So it has
of two workloads that are too large to judge. Too few kinds of lines in many runs count as a failure, too. The last line is
`N passed, M failed`.
"""

import collections
import multiprocessing
import os
import random
import subprocess
import sys
import tempfile
from pathlib import Path

from draws import Crowd, Draw, DrivenDay
from inputs import Run
from judge import Wrong, judge
from made_texts import texts

SHOWN = "expired overflow lapsed late rv rr row trip out move cost bound nodes day leaf branch dead".split()
WANTED = SHOWN[:-2]  # whether a tree branches is the search's affair
ENOUGH = 250  # so many runs have to show each wanted line
HANGS = 600  # seconds after which a run is taken to hang
LARGE = [[1_000_000_000, 20, 100, 150, 2], [1, 100, 40, 30, 3]]  # seed, side, vehicles, riders, rounds


class MadeWorkload:
    """A made workload that is drawn by a seed: the words of `load`, and of `run` on the three texts."""

    def __init__(self, seed, shape=None):
        rng = random.Random(seed)
        names = "seed side vehicles riders rounds".split()
        shape = shape or [rng.randint(0, 10**9), rng.randint(2, 4), rng.randint(1, 3), rng.randint(1, 3), rng.randint(1, 2)]
        made = texts(*shape)
        files = "network fleet script".split()
        more = rng.choice([[], ["wait=60"], ["trip=2", "penalty=100"], ["dwell=10", "budget=1"]])
        self.files = {f"{name}.csv": text.decode() for name, text in zip(files, made)}
        self.words = ["run", *(f"{name}={name}.csv" for name in files), "proof=1", *more]
        workers = f"workers={rng.choice([1, 2, 64])}"
        self.load_words = ["load", *(f"{name}={value}" for name, value in zip(names, shape)), *more, workers]


def inputs_of(seed):
    """What the seed draws; every third run goes by labels."""
    drawn = {0: MadeWorkload, 2: DrivenDay, 5: Crowd, 7: DrivenDay}.get(seed % 10, Draw)(seed)
    drawn.words += ["times=labels"] * (seed % 3 == 0)
    return drawn


def write_inputs(drawn, folder):
    for name, text in drawn.files.items():
        (folder / name).write_text(text)
    (folder / "words").write_text("".join(f"{word}\n" for word in drawn.words))


def output_of(program, words, folder):
    ran = subprocess.run([program, *words], cwd=folder, capture_output=True, timeout=HANGS)
    if ran.returncode or ran.stderr:
        raise Wrong(f"{' '.join(words)}: status {ran.returncode}, {ran.stderr.decode(errors='replace').strip()!r}")
    return ran.stdout.decode("ascii", "replace")


def summary_of(words, report):
    """What `load` says of the run whose report this is."""
    lines = [" ".join(words[:6])]
    for block in report.split("\nbatch ")[1:]:
        rows = [line.split(" ") for line in block.split("\nend\n")[0].split("\n")]
        number = rows[0][0]
        if ["overflow"] in rows:
            lines.append(f"batch {number} overflow")
            continue
        of = collections.defaultdict(list)
        for row in rows[1:]:
            of[row[0]].append(row[1:])
        picks = [sum(stop.startswith("pick") for stop in trip) for trip in of["trip"]]
        numbers = f"served {sum(picks)} out {len(of['out'])} rows {len(of['row'])} trips {sum(map(bool, picks))}"
        lines.append(f"batch {number} {numbers} cost {of['cost'][0][0]} bound {of['bound'][0][0]}")
    return "\n".join([*lines, report.rstrip("\n").split("\n")[-1]]) + "\n"


def compare_summaries(program, drawn, report, folder):
    """`load` says of the made workload what the report of its texts does."""
    summary, expected = output_of(program, drawn.load_words, folder), summary_of(drawn.load_words, report)
    if summary != expected:
        raise Wrong(f"the summary should be\n{expected}and is\n{summary}")


def try_large(program, shape):
    """Why the program's summary of a workload isn't that of the report of its texts, or None."""
    drawn = MadeWorkload(shape[0], shape)
    with tempfile.TemporaryDirectory() as folder:
        write_inputs(drawn, Path(folder))
        try:
            compare_summaries(program, drawn, output_of(program, drawn.words, folder), folder)
        except (Wrong, subprocess.TimeoutExpired) as wrong:
            return str(wrong)


def try_seed(program, seed):
    """Why the program is wrong on the inputs of the seed, or None, and which lines its report has."""
    drawn = inputs_of(seed)
    with tempfile.TemporaryDirectory() as folder:
        folder = Path(folder)
        write_inputs(drawn, folder)
        seen = collections.Counter()
        try:
            report = output_of(program, drawn.words, folder)
            seen.update(line.split(" ")[0] for line in report.split("\n"))
            judge(Run(folder, drawn.words), report)
            if isinstance(drawn, MadeWorkload):
                compare_summaries(program, drawn, report, folder)
        except (Wrong, subprocess.TimeoutExpired) as wrong:
            return str(wrong), seen
        return None, seen


def main():
    if sys.argv[1:2] == ["inputs"]:
        folder = Path(sys.argv[3])
        folder.mkdir(parents=True, exist_ok=True)
        return write_inputs(inputs_of(int(sys.argv[2])), folder)
    if len(sys.argv) < 2:
        sys.exit(__doc__)
    program = os.path.abspath(sys.argv[1])
    given = list(map(int, sys.argv[2:4]))
    runs, first = given + [300, 1][len(given) :]
    seeds = range(first, first + runs)
    with multiprocessing.Pool(len(os.sched_getaffinity(0))) as pool:
        answers = pool.starmap(try_seed, [(program, seed) for seed in seeds], chunksize=4)
        large = [why for why in pool.starmap(try_large, [(program, shape) for shape in LARGE]) if why]
    failed, seen = len(large), collections.Counter()
    print("".join(f"a large workload: {why}\n" for why in large), end="")
    for seed, (why, words) in zip(seeds, answers):
        seen.update(words)
        if why:
            failed += 1
            print(f"seed {seed}: {why}")
    print("lines seen:", ", ".join(f"{seen[word]} {word}" for word in SHOWN))
    unseen = [word for word in WANTED if not seen[word]] if runs >= ENOUGH else []
    if unseen:
        failed += 1
        print(f"no drawn run shows {', '.join(unseen)}")
    print(f"{runs + len(LARGE) - failed} passed, {failed} failed")
    return failed != 0


if __name__ == "__main__":
    sys.exit(main())
