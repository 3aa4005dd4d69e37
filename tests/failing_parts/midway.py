"""Runs that are looked at midway: kills, and the line on a terminal."""

import os
import pty
import re
import signal
import subprocess
import time

from failing_parts.shared import LOAD, RIDDEN, WORDS, Left, Whole, start, table
from judge import Wrong
from made_texts import texts

PIECE = 32768  # bytes from which on a round's text is written in more than one piece
LARGE_LOAD = "load seed=7 vehicles=500 riders=250 rounds=100 pairs=2000000".split()
CLEAR = "\r\x1b[K"
PROGRESS = r"round \d+, batches closed: \d+(?:, last: (?:overflow|\d+ rows, gap -?\d+))?"


def long_run():
    """A run on one lane of forty rounds, each with a batch of few lines that takes some time."""
    network, fleet, script = (it.decode() for it in texts(7, 60, 3, 4, 40))
    rows = [line.split(",") for line in script.splitlines()[1:]]
    rows = [",".join([str(int(number) // 2), "0", *rest]) for number, _, *rest in rows]
    return {"network": network, "fleet": fleet, "script": table("script", *rows)}


def kill(program, whole, rounds, again=True):
    """Kills the program as soon as so many rounds stand on the disk. Another try is due where the kill fell within a write."""

    def run(folder):
        for name, text in whole.inputs.items():
            (folder / f"{name}.csv").write_text(text)
        path = folder / "report"
        with open(path, "wb") as output:
            going = subprocess.Popen([program, *whole.words], cwd=folder, stdout=output, stderr=subprocess.PIPE)
        while going.poll() is None and path.stat().st_size < whole.ends[rounds - 1]:
            time.sleep(0.0005)
        going.kill()
        _, error = going.communicate()
        left = Left(subprocess.CompletedProcess([], going.returncode, path.read_bytes(), error), folder)
        if again and left.output and len(left.output) not in whole.ends:
            return kill(program, whole, rounds, False)(folder)
        left.need(left.status == -signal.SIGKILL and not left.error, "the program should be killed")
        stand = whole.rounds_in(left.output)
        left.need(whole.report.startswith(left.output), "what stands is no beginning of the report")
        left.need(len(left.output) == whole.ends[stand - 1] and stand >= rounds, "what stands are no whole rounds")
        left.need(whole.notices.startswith(left.notices), "these are no beginning of the notices")
        left.need(left.notices[-1:] in ("", "\n"), "the last notice is no whole line")
        least, most = ("".join(whole.told[:many]) for many in (stand - 1, stand))
        left.need(len(least) <= len(left.notices) <= len(most), "these aren't the notices of the rounds that stand")
        return 1

    return run


def killed(part, program):
    """The program is killed after each round, or after some."""
    whole = Whole(program, long_run(), [])
    longest = max(b - a for a, b in zip([0, *whole.ends], whole.ends))
    if longest >= PIECE:
        raise Wrong(f"a round of {longest} bytes is no test of whole rounds")
    part.try_some([(f"killed after round {k}", kill(program, whole, k)) for k in range(1, len(whole.ends))])


def cut_load(part, program):
    """Cuts a workload of a hundred large batches after a few lines: the closed ones stand there, each in its line."""
    count = 20 if part.step == 1 else 5

    def run(folder):
        path = folder / "summary"
        with open(path, "wb") as output:
            going = subprocess.Popen([program, *LARGE_LOAD], stdout=output)
        while going.poll() is None and path.read_bytes().count(b"\n") <= count:
            time.sleep(0.01)
        going.kill()
        if going.wait() != -signal.SIGKILL:
            raise Wrong(f"it ended by itself, with {going.returncode}")
        lines = path.read_text().split("\n")
        if lines.pop() or lines[:1] != ["load seed=7 side=20 vehicles=500 riders=250 rounds=100"]:
            raise Wrong(f"these are no whole lines of the summary: {lines}")
        if any(not line.startswith(f"batch {k} served ") for k, line in enumerate(lines[1:], 1)):
            raise Wrong(f"these aren't the first batches: {lines}")
        if len(lines) > 100:
            raise Wrong("every batch was closed before the first lines came")
        return 1

    part.try_all([(f"cut after {count} batches", run)])


# The line on a terminal


def progress_of(summary):
    """The lines that are shown as this summary of a made workload is written, a line for each batch."""
    shown = ["round 1, batches closed: 0"]
    for k, line in enumerate(summary.splitlines()[1:-1], 1):
        words = line.split(" ")
        last = "overflow" if words[2] == "overflow" else f"{words[7]} rows, gap {int(words[11]) - int(words[13])}"
        shown.append(f"round {k + 1}, batches closed: {k}, last: {last}")
    return shown


def progress_of_report(report):
    """The lines that are shown as this report is written, the head and then a round at a time."""
    shown, closed, last = ["round 1, batches closed: 0"], 0, ""
    for number, text in enumerate(re.split(r"^round ", report, flags=re.M)[1:], 2):
        for block in re.findall(r"^batch \d+\n(.*?)^end$", text, re.M | re.S):
            closed += 1
            rows, costs = len(re.findall(r"^row ", block, re.M)), re.findall(r"^(?:cost|bound) (-?\d+)$", block, re.M)
            last = ", last: overflow" if not costs else f", last: {rows} rows, gap {int(costs[0]) - int(costs[1])}"
        shown.append(f"round {number}, batches closed: {closed}{last}")
    return shown


def on_terminal(program, folder, words, both):
    """What a run writes to standard output, and what stands on the terminal that standard error is, and maybe output too."""
    mine, its = pty.openpty()
    output = {"stdout": its} if both else {"stdout": subprocess.PIPE}
    with subprocess.Popen([program, *words], cwd=folder, stderr=its, **output) as going:
        os.close(its)
        screen = []
        try:
            while piece := os.read(mine, 65536):
                screen.append(piece)
        except OSError:
            pass  # so a terminal ends
        os.close(mine)
        written = "" if both else going.stdout.read().decode()
    return written, b"".join(screen).decode().replace("\r\n", "\n")


def progress(part, program):
    """The line on a terminal comes and goes, and the output is as without one."""

    def shows(words, is_expected):
        def run(folder):
            for name, text in RIDDEN.items():
                (folder / f"{name}.csv").write_text(text)
            quiet = start(program, folder, words)
            if quiet.returncode or quiet.stderr:
                raise Wrong(f"without a terminal {quiet.stderr!r} is shown")
            summary = quiet.stdout.decode()
            written, screen = on_terminal(program, folder, words, False)
            if written != summary:
                raise Wrong(f"beside a terminal {written!r} is written")
            is_expected(summary, screen)
            _, screen = on_terminal(program, folder, words, True)
            if re.sub(PROGRESS + re.escape(CLEAR), "", screen) != summary:
                raise Wrong(f"on one terminal with the output stands {screen!r}")

        return run

    def of_lines(lines_of):
        def is_shown(text, screen):
            expected = "".join(line + CLEAR for line in lines_of(text))
            if screen != expected:
                raise Wrong(f"on the terminal stands {screen!r}, and {expected!r} should")

        return is_shown

    def of_page(page, screen):
        if screen:
            raise Wrong(f"on the terminal stands {screen!r}")

    of_load, of_report = of_lines(progress_of), of_lines(progress_of_report)
    tries = [("a workload", LOAD, of_load), ("one with an overflow", [*LOAD, "pairs=20"], of_load), ("help", ["--help"], of_page)]
    tries += [("a report", WORDS, of_report), ("one with an overflow", [*WORDS, "pairs=3"], of_report)]
    part.try_all((name, shows(words, check)) for name, words, check in tries)
