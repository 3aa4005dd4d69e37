"""What the tools have in common: words of the command line, faults in one line, packages."""

import importlib.util
import os
import pathlib
import sys
from typing import Callable, Collection, Dict, List, Mapping, NoReturn, Sequence, Tuple, TypeVar, Union

PACKAGES = {
    "sumolib": "sumo-tools",
    "matplotlib": "python3-matplotlib",
    "scipy": "python3-scipy",
    "pyproj": "python3-pyproj",
    "distributed": "python3-distributed",
}
INSTALL = "apt-get install sumo " + " ".join(PACKAGES.values())
DESK_PACKAGES = {"fastapi": "python3-fastapi", "uvicorn": "python3-uvicorn"}
DESK_INSTALL = "apt-get install " + " ".join(DESK_PACKAGES.values()) + " libjs-leaflet"
DEBIAN_PYTHON = "/usr/bin/python3"
RESTARTED = "RIDEPOOL_TOOLS_RESTARTED"
DOORS = pathlib.Path(__file__).resolve().parent.parent.parent / "tools"


Default = TypeVar("Default", int, None)


class Fault(Exception):
    """What is wrong with an input, in one line."""


def missing_modules(modules: Sequence[str]) -> List[str]:
    """Those of the modules that this Python can't import."""
    home = os.environ.get("SUMO_HOME", "/usr/share/sumo")
    tools = os.path.join(home, "tools")
    if os.path.isdir(tools) and tools not in sys.path:
        sys.path.append(tools)
    return [module for module in modules if importlib.util.find_spec(module) is None]


def need(*modules: str, install: str = INSTALL) -> None:
    """Makes sure that these modules can be imported.

    Debian's packages belong to Debian's own Python. Where a tool of a clone was called with another Python that lacks a
    module, it starts again with Debian's; where that one lacks it, too, this is a Fault.
    """
    missing = missing_modules(modules)
    if not missing:
        return
    is_door = pathlib.Path(sys.argv[0]).resolve().parent == DOORS
    if is_door and os.path.exists(DEBIAN_PYTHON) and not os.environ.get(RESTARTED):
        os.environ[RESTARTED] = "1"
        os.execv(DEBIAN_PYTHON, [DEBIAN_PYTHON, *sys.argv])
    raise Fault(f"{sys.executable} has no {' and no '.join(missing)}: {install}")


def split_words(arguments: Sequence[str], keys: Collection[str],
                usage: str) -> Tuple[List[str], Dict[str, str]]:
    """The words without `=` in their order, and the values of the words with one, by key."""
    plain: List[str] = []
    values: Dict[str, str] = {}
    for word in arguments:
        key, equals, value = word.partition("=")
        if not equals:
            plain.append(word)
        elif key not in keys:
            raise Fault(f"unknown word {word}; {usage}")
        elif key in values:
            raise Fault(f"{key}= stands there twice")
        else:
            values[key] = value
    return plain, values


def number(values: Mapping[str, str], key: str, least: int, greatest: int,
           default: Default) -> Union[int, Default]:
    """The whole number of a word, or the default where the word isn't there."""
    if key not in values:
        return default
    text = values[key]
    if not (text.isascii() and text.isdigit() and least <= int(text) <= greatest):
        raise Fault(f"{key}={text} is not a whole number from {least} to {greatest}")
    return int(text)


def run_tool(tool: Callable[[List[str]], None], usage: str) -> None:
    """Calls the tool with its words. A Fault gives one line on standard error and status 2."""
    if sys.argv[1:] in (["--help"], ["-h"]):
        print(named(usage))
        return
    try:
        tool(sys.argv[1:])
    except Fault as fault:
        fail(fault)
    except OSError as fault:
        fail(f"{fault.filename}: {fault.strerror}" if fault.filename else fault.strerror)


def own_name() -> str:
    """The name by which the tool was called."""
    return os.path.basename(sys.argv[0])


def named(text: object) -> str:
    """A text in which `%(prog)s` stands for the tool's name."""
    return str(text).replace("%(prog)s", own_name())


def fail(fault: object) -> NoReturn:
    """Says what is wrong and ends with status 2."""
    print(f"{own_name()}: {named(fault)}", file=sys.stderr)
    sys.exit(2)
