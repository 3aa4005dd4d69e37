"""Builds the package `ridepool`: a wheel bears the released program, with its version, and the town of the demo."""

import pathlib
import re
import shutil

from setuptools import Distribution, setup
from setuptools.command.build_py import build_py
from wheel.bdist_wheel import bdist_wheel

TOP = pathlib.Path(__file__).resolve().parent
# The program needs Linux on x86-64 and the GNU C library 2.34 or later. It needs no certain Python.
TAG = ("py3", "none", "manylinux_2_34_x86_64")
CARRIED = {
    "released": ("release/ridepool_program", "release/MADE_OF"),
    "town": tuple(f"examples/town/{name}.csv" for name in ("network", "nodes", "fleet")),
}


def version() -> str:
    """The newest version in CHANGELOG.md, which is the program's."""
    found = re.search(r"^## (\S+),", (TOP / "CHANGELOG.md").read_text(encoding="utf-8"), re.M)
    if found is None:
        raise SystemExit("setup.py: CHANGELOG.md has no version")
    return found[1]


class CarriesProgram(build_py):
    """Puts the program and the town beside the modules."""

    def run(self) -> None:
        super().run()
        if self.editable_mode:
            return
        for folder, names in CARRIED.items():
            place = pathlib.Path(self.build_lib, "ridepool", folder)
            place.mkdir(parents=True, exist_ok=True)
            for name in names:
                shutil.copy(TOP / name, place / pathlib.Path(name).name)


class ForThisProgram(bdist_wheel):
    """A wheel for the machines on which the program runs."""

    def finalize_options(self) -> None:
        super().finalize_options()
        self.root_is_pure = False

    def get_tag(self) -> "tuple[str, str, str]":
        return TAG


class WithProgram(Distribution):
    """A distribution that isn't for every machine."""

    def has_ext_modules(self) -> bool:
        return True


setup(version=version(), distclass=WithProgram,
      cmdclass={"build_py": CarriesProgram, "bdist_wheel": ForThisProgram})
