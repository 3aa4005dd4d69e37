"""Lets the tools of this folder be called in a clone, where the package isn't installed."""

import importlib
import pathlib
import sys


def open_to(module: str) -> None:
    """Calls a command of the package that lies in this clone."""
    sys.path.insert(0, str(pathlib.Path(__file__).resolve().parent.parent / "python"))
    importlib.import_module(module).main()
