"""What the tests of studies share: a study in a folder, and a program that is played."""

import csv
import subprocess
import sys

from tools_parts.shared import TOOLS

CITY = """[city]
seed = 5
avenues = 6
streets = 24
requests = 80
seconds = 600
"""
GRID = """
[all]
budget = 1
wait = 240
delay = 400
trip = 3
dwell = 7

[[grid]]
vehicles = [3, 6]
seats = [1, 4]
demand = [50, 100]
"""


def study(folder, *words, text=CITY + GRID):
    """Begins a study in a folder."""
    (folder / "STUDY.toml").write_text(text)
    command = [sys.executable, TOOLS / "study.py", folder / "STUDY.toml", folder / "out", *words]
    return subprocess.Popen(command, stdout=subprocess.PIPE, stderr=subprocess.PIPE, text=True)


def studied(folder, *words, status=0, text=CITY + GRID):
    """A whole study on one processor. Gives its standard output and its rows."""
    done = study(folder, *words, *(() if any("cluster=" in word for word in words) else ("processors=1",)), text=text)
    out, errors = done.communicate()
    assert (done.returncode, errors) == (status, ""), (done.returncode, out, errors)
    return out, rows_of(folder)


def rows_of(folder):
    """The rows of cells.csv."""
    with open(folder / "out" / "cells.csv", newline="") as file:
        return list(csv.DictReader(file))


def script_for(folder, name, text):
    """A program that is a shell script."""
    path = folder / name
    path.write_text(text)
    path.chmod(0o755)
    return path
