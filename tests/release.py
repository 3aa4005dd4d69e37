#!/usr/bin/env python3
"""Holds broken and stale releases to a program: each must be refused, and a right one not.

    tests/release.py PROGRAM

Works on a copy of what the release rests on, with a release made of PROGRAM there, and with an `rt` that says its version
alone. The last line is `N passed, M failed`, or with `, K skipped` behind it.
"""

import os
import pathlib
import shutil
import subprocess
import sys
import tempfile

from skips import last_line

TOP = pathlib.Path(__file__).resolve().parent.parent


def copied(folder):
    """A copy of the sources that a release names, and of the scripts beside it."""
    for name in ("crates.txt", "HANDLES", "ridepool"):
        shutil.copy(TOP / name, folder / name)
    shutil.copytree(TOP / "release", folder / "release")
    for crate in (TOP / "crates").iterdir():
        for part in ("src", "specs", "proofs"):
            if (crate / part).is_dir():
                shutil.copytree(crate / part, folder / "crates" / crate.name / part)


def released(folder, program):
    """Makes a release of the program there, as `release/make` does after its build. Gives the environment of its scripts."""
    (folder / "bin").mkdir()
    (folder / "bin" / "rt").write_text('#!/bin/sh\n[ "$*" = version ] && echo rattle-kit-0 logic 0\n')
    (folder / "bin" / "rt").chmod(0o755)
    environment = {**os.environ, "PATH": f"{folder}/bin:{os.environ['PATH']}"}
    made = folder / "release" / "ridepool_program"
    subprocess.run(["strip", "-o", made, program], check=True)
    text = subprocess.run([folder / "release" / "text", made], capture_output=True, check=True, env=environment).stdout
    (folder / "release" / "MADE_OF").write_bytes(text)
    return environment


def one_byte_changed(folder):
    path = folder / "release" / "ridepool_program"
    data = bytearray(path.read_bytes())
    data[len(data) // 2] ^= 1
    path.write_bytes(data)


def source_changed(folder):
    path = folder / "crates" / "pool_base" / "src" / "lib.rt"
    path.write_text(path.read_text() + "\n")


def crate_line_changed(folder):
    path = folder / "crates.txt"
    path.write_text(path.read_text() + "\n")


def of_another_program(folder):
    text = (folder / "release" / "MADE_OF").read_text()
    (folder / "release" / "MADE_OF").write_text(text[:-2] + ("0" if text[-2] != "0" else "1") + "\n")


def of_another_toolchain(folder):
    lines = (folder / "release" / "MADE_OF").read_text().splitlines()
    lines = ["toolchain another" if line.startswith("toolchain ") else line for line in lines]
    (folder / "release" / "MADE_OF").write_text("\n".join(lines) + "\n")


def untouched(folder):
    pass


CHANGES = [
    (untouched, True),
    (of_another_toolchain, True),
    (one_byte_changed, False),
    (source_changed, False),
    (crate_line_changed, False),
    (of_another_program, False),
]


def passes(program, change, is_right):
    """Whether a release with this change is held to be right or wrong, as it is."""
    with tempfile.TemporaryDirectory() as name:
        folder = pathlib.Path(name)
        copied(folder)
        environment = released(folder, program)
        change(folder)
        ran = subprocess.run([folder / "release" / "hold", program], capture_output=True, text=True, env=environment)
    if (ran.returncode == 0) == is_right:
        return True
    print(f"{change.__name__}: status {ran.returncode}\n{ran.stdout}{ran.stderr}")
    return False


def main():
    program = pathlib.Path(sys.argv[1]).resolve()
    if shutil.which("strip") is None:
        print("skipped: releases, since there is no strip to make one with")
        print(last_line(0, 0, len(CHANGES)))
        return 0
    told = [passes(program, change, is_right) for change, is_right in CHANGES]
    print(last_line(sum(told), len(told) - sum(told)))
    return 0 if all(told) else 1


if __name__ == "__main__":
    sys.exit(main())
