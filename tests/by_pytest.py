"""How the doors of tests/ call pytest: by a Python that has what the tests need, with the last line that ./check adds up."""

import os
import re
import shutil
import subprocess
import sys
import tempfile
from pathlib import Path
from typing import Any, Iterable, List, Optional, Set, Tuple, Union

from skips import last_line

TESTS = Path(__file__).resolve().parent
DEBIAN_PYTHON = "/usr/bin/python3"  # Debian's packages belong to it
PROBE = "import sys; from ridepool import words; sys.exit(bool(words.missing_modules(sys.argv[1:])))"


def python_with(modules: Iterable[str]) -> Optional[str]:
    """A Python that has the modules: the one that runs this, if it has them."""
    environment = {**os.environ, "PYTHONPATH": str(TESTS.parent / "python")}
    for python in dict.fromkeys((sys.executable, DEBIAN_PYTHON, shutil.which("python3"))):
        if python and os.path.exists(python) and subprocess.run([python, "-c", PROBE, *modules], env=environment).returncode == 0:
            return python
    return None


def files_of(places: Iterable[Union[str, Path]]) -> List[Path]:
    """The files of tests in folders, and files themselves."""
    paths = [TESTS / place for place in places]
    return [file for path in paths for file in (sorted(path.glob("test_*.py")) if path.is_dir() else [path])]


def is_place(word: str) -> bool:
    """Whether a word is the path of a file of tests or of a test in one."""
    return not word.startswith("-") and ("::" in word or "/" in word or word.endswith(".py"))


def names_of(test: str, file: str) -> Set[str]:
    """By which names a test of a file can be called."""
    return {it.removeprefix(start) for it in (test, file) for start in ("", "test_")}


def untried(names: Set[str], places: Iterable[Union[str, Path]]) -> int:
    """How many tests have one of the names, or all, where they can't be tried."""
    found = [(test, file.stem) for file in files_of(places) for test in re.findall(r"^def (test_\w+)", file.read_text(), re.M)]
    return sum(not names or bool(names_of(*it) & names) for it in found)


def parted(words: List[str]) -> Tuple[Set[str], List[str]]:
    """The names of tests, and what goes to pytest: places, and all from the first word on that begins with `-`."""
    start = next((number for number, word in enumerate(words) if word.startswith("-")), len(words))
    places = [*filter(is_place, words[:start])]
    return set(words[:start]).difference(places), [*places, *words[start:]]


def why_of(report: Any) -> str:
    """Why a test, or a file of tests, was skipped."""
    why = report.longrepr[2] if isinstance(report.longrepr, tuple) else report.longrepr
    return str(why).removeprefix("Skipped: ")


class Count:
    """Counts tests by what came of them, and leaves out those that were not asked for."""

    def __init__(self, names: Set[str]) -> None:
        self.names, self.unknown = names, names
        self.passed, self.failed, self.skipped = 0, 0, 0

    def pytest_collection_modifyitems(self, items: List[Any]) -> None:
        """Leaves the tests whose names, or whose files' names, were given, with `test_` before them or without."""
        if self.names:
            found = {it: names_of(it.originalname, it.path.stem) for it in items}
            self.unknown = self.names.difference(*found.values())
            items[:] = [it for it in items if found[it] & self.names]

    def pytest_runtest_logreport(self, report: Any) -> None:
        """A part of a test: its setup, its call, or what clears up."""
        if report.failed:
            self.failed += 1
            print(f"\nFAILED: {report.nodeid.split('/')[-1]}\n{report.longreprtext[-2000:]}")
        elif report.skipped:
            self.skipped += 1
            print(f"\nskipped: {report.nodeid.split('/')[-1]}, since {why_of(report)}")
        elif report.when == "call":
            self.passed += 1

    def pytest_collectreport(self, report: Any) -> None:
        """A file that can't be read as tests, or that is skipped as a whole."""
        if report.failed:
            self.failed += 1
            print(f"\nFAILED: {report.nodeid}\n{report.longreprtext[-2000:]}")
        elif report.skipped:
            self.skipped += untried(self.names, [TESTS.parent / report.nodeid])
            print(f"\nskipped: {report.nodeid.split('/')[-1]}, since {why_of(report)}")


def main(*places: str, needs: Iterable[str] = ()) -> int:
    """Runs the tests of these files and folders of tests/ on the program that the first word names: all, or those that the
    next words name. From the first word on that begins with `-` all go to pytest. Gives the status."""
    if len(sys.argv) < 2:
        sys.exit(f"use: {Path(sys.argv[0]).name} PROGRAM [NAME ..] [WORDS OF PYTEST ..]")
    python = python_with(["pytest", *needs])
    if python is None:
        print(f"skipped: {' and '.join(places)}, since no Python here has {' and '.join(['pytest', *needs])}: tests/packages")
        print(last_line(0, 0, untried(parted(sys.argv[2:])[0], places)))
        return 0
    if python != sys.executable:
        os.execv(python, [python, *sys.argv])
    return tried(Path(sys.argv[1]).resolve(), sys.argv[2:], places)


def tried(program: Path, words: List[str], places: Iterable[str]) -> int:
    """Runs the tests by this Python. Gives the status."""
    import pytest

    sys.dont_write_bytecode = True
    names, given = parted(words)
    count = Count(names)
    own = [] if any(map(is_place, given)) else [str(TESTS / it) for it in places]
    with tempfile.TemporaryDirectory(prefix="ridepool-tests-") as folder:
        quiet = ["-q", "--no-header", "--no-summary", f"--basetemp={folder}/run", f"--program={program}"]
        status = pytest.main([*quiet, *given, *own], plugins=[count])
    if count.unknown:
        print(f"no test has this name: {' '.join(sorted(count.unknown))}")
        count.failed += 1
    print(last_line(count.passed, count.failed, count.skipped))
    return 0 if status == 0 and not count.failed else 1
