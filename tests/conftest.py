"""What all tests by pytest share: the program that is tried, a folder, and the words that say how much is tried."""

import subprocess
import sys
from pathlib import Path

import pytest
from faults import Shim

TOP = Path(__file__).resolve().parent.parent
sys.dont_write_bytecode = True


def pytest_addoption(parser):
    """The words behind the names of tests."""
    group = parser.getgroup("ridepool")
    group.addoption("--program", help="the program that is tried; without it that of these sources (release/find)")
    group.addoption("--rows", type=int, default=5000, help="how many rows are drawn for `live`")
    group.addoption("--cuts", type=int, default=100, help="how many reports are cut, spoiled or killed for `resume`")
    group.addoption("--seed", type=int, default=1, help="the seed of what is drawn for `live` and `resume`")
    group.addoption("--seconds", type=float, default=2.0, help="after so many seconds without a word `live` is taken to hang")


@pytest.fixture(scope="session")
def program(pytestconfig):
    """The path of the program that is tried."""
    named = pytestconfig.getoption("program")
    if named:
        return str(Path(named).resolve())
    found = subprocess.run([str(TOP / "release" / "find")], capture_output=True, text=True)
    if found.returncode != 0:
        pytest.exit(found.stderr.strip(), returncode=1)
    return found.stdout.strip()


@pytest.fixture
def folder(tmp_path):
    """A folder of the test's own."""
    return tmp_path


@pytest.fixture(scope="session")
def seed(pytestconfig):
    """The seed of what is drawn."""
    return pytestconfig.getoption("seed")


@pytest.fixture(scope="session")
def shim(program):
    """The library by which calls of the program fail."""
    found = Shim(program)
    if found.is_missing:
        pytest.skip(found.why)
    assert not found.why, found.why
    return found
