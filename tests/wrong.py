"""Shows that the tests find wrong programs: runs them on wrong_program.py, which changes one thing of what the program
prints, and demands that they fail.

    wrong.py PROGRAM

Each way is tried on the tests that are to find it, called as `./check` calls them but on a part of what they try. First
they have to pass on the program itself, behind the same wrapper. A wrong program that holds back an answer hangs; it is given up after ten seconds.
The last line is `N passed, M failed`, by ways, and `, K skipped` behind it where there is no pytest.
"""

import os
import re
import shlex
import subprocess
import sys
import tempfile
from concurrent.futures import ThreadPoolExecutor
from pathlib import Path
from typing import Any, Dict, List, Optional, Tuple, Union

from skips import Skipped, last_line
from wrong_program import CHANGES, OTHERS, UNCHANGED

TESTS = Path(__file__).resolve().parent
PATIENCE, HANGING = "--seconds=10", "--seconds=60"  # after which a wrong program is taken to hang, and the program itself

TOWN, DRIVEN = ("large.py", "town-run"), ("large.py", "seed-1")
SUMMARY = ("large.py", "seed-2")
NOTICES = ("run.py", "notices-of-two-batches", "day-with-notices-of-two-batches")
AUDITS = ("audited.py", "8", "1", "load")
ANSWERS = ("live.py", "one_row_at_a_time", PATIENCE)
FOUND_BY: Dict[str, List[Tuple[str, ...]]] = {
    **{way: [TOWN, DRIVEN, SUMMARY] for way in CHANGES if way != "summary-of-more"},
    "summary-of-more": [SUMMARY],
    "last-notice-dropped": [NOTICES, DRIVEN],
    "large-reports-confirmed": [AUDITS],
    "answers-held-back": [ANSWERS, ("live.py", "drawn_rows_one_by_one", PATIENCE)],
}


def wrapper(folder: Path, way: str, program: str) -> Path:
    """A wrong program of this way, as a file that can be run."""
    path = folder / way
    words = shlex.join([sys.executable, str(TESTS / "wrong_program.py"), way, program])
    path.write_text(f'#!/bin/sh\nexec {words} "$@"\n')
    path.chmod(0o755)
    return path


def fault(folder: Path, way: str, program: str, test: Tuple[str, ...]) -> Optional[str]:
    """What is wrong with how a test judges a wrong program, or the right one. Raises Skipped where it can't be tried."""
    script, *words = [HANGING if way == UNCHANGED and it == PATIENCE else it for it in test]
    call = [sys.executable, str(TESTS / script), str(wrapper(folder, way, program)), *words]
    ran = subprocess.run(call, capture_output=True, text=True)
    untried = re.search(r"^skipped: (.*), since (no Python here has .*)$", ran.stdout, re.M)
    if untried:
        raise Skipped(f"skipped: {way} by {' '.join(test)}, since {untried[2]}")
    counts = re.fullmatch(r"(\d+) passed, (\d+) failed", (ran.stdout.splitlines() or [""])[-1])
    if not counts or "skipped: " in ran.stdout:
        return f"{' '.join(test)} says of {way}: {ran.stdout[-300:]}{ran.stderr[-300:]}"
    has_found = int(counts[2]) > 0 and ran.returncode != 0
    if way == UNCHANGED:
        return f"{' '.join(test)} fails on the program itself: {ran.stdout[-300:]}" if has_found else None
    return None if has_found else f"{' '.join(test)} passes on {way}"


def told(*words: Any) -> Union[str, Skipped, None]:
    """What is wrong, or why it can't be tried; nothing where all is well."""
    try:
        return fault(*words)
    except Skipped as why:
        return why


def main() -> int:
    if len(sys.argv) != 2:
        sys.exit(__doc__)
    program = os.path.abspath(sys.argv[1])
    tests = sorted({test for tests in FOUND_BY.values() for test in tests})
    tried = [(UNCHANGED, test) for test in tests] + [(way, test) for way, of in FOUND_BY.items() for test in of]
    with tempfile.TemporaryDirectory() as name, ThreadPoolExecutor(len(os.sched_getaffinity(0))) as pool:
        for number, (way, _) in enumerate(tried):
            (Path(name) / str(number)).mkdir()
        folders = [Path(name) / str(number) for number in range(len(tried))]
        found = [*pool.map(lambda it: told(it[0], it[1][0], program, it[1][1]), zip(folders, tried))]
    untried = [way for way in [*CHANGES, *OTHERS] if way not in FOUND_BY]
    skipped = [it for it in found if isinstance(it, Skipped)]
    wrong = [it for it in found if isinstance(it, str)] + [f"no test is to find {way}" for way in untried]
    passed = len(tried) + len(untried) - len(wrong) - len(skipped)
    print("\n".join([*map(str, skipped), *wrong, last_line(passed, len(wrong), len(skipped))]))
    return bool(wrong)


if __name__ == "__main__":
    sys.exit(main())
