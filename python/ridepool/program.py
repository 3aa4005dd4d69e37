"""Where the proved program is, and the console script `ridepool`, which is the program itself.

An installed package has the program in it. A clone has it in its folder release, or where it was built.
"""

import os
import pathlib
import subprocess
import sys
from typing import Union

from ridepool.words import Fault, fail

PACKAGE = pathlib.Path(__file__).resolve().parent
CLONE = PACKAGE.parent.parent
INSTALLED = PACKAGE / "released"
NAME = "ridepool_program"
TOWN = "town"


def path() -> str:
    """The path of the program: the installed one, or the proved program of a clone's sources."""
    if (INSTALLED / NAME).exists():
        return str(INSTALLED / NAME)
    find = CLONE / "release" / "find"
    if not find.exists():
        raise Fault("there is no program in this package; program= names one")
    found = subprocess.run([str(find)], capture_output=True, text=True, check=False)
    if found.returncode != 0:
        raise Fault(f"{found.stderr.strip()}; program= names another")
    return found.stdout.strip()


def chosen(program: "Union[str, os.PathLike[str], None]" = None) -> str:
    """The program that is named, else that of the environment's RIDEPOOL_PROGRAM, else the package's own."""
    named = program or os.environ.get("RIDEPOOL_PROGRAM")
    return os.path.abspath(named) if named else path()


def town() -> pathlib.Path:
    """The folder with the files of the town that the demo shows."""
    installed = PACKAGE / TOWN
    return installed if installed.exists() else CLONE / "examples" / TOWN


def made_of(program: str) -> str:
    """The line that says of which sources the program was made; empty where nothing says so."""
    try:
        lines = pathlib.Path(program).with_name("MADE_OF").read_text(encoding="ascii").splitlines()
    except OSError:
        return ""
    return next((line for line in lines if line.startswith("sources ")), "")


def main() -> None:
    """Becomes the program. `--version` prints the checksum of its sources, too."""
    try:
        program = path()
    except Fault as fault:
        fail(fault)
    if sys.argv[1:] == ["--version"]:
        status = subprocess.run([program, "--version"], check=False).returncode
        if status == 0 and made_of(program):
            print(made_of(program))
        sys.exit(status)
    os.execv(program, ["ridepool", *sys.argv[1:]])
