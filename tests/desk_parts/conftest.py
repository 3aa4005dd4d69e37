"""What the tests of the desk share: desks on the program that is tried, a folder for a day, and whether a desk can be opened."""

import functools
import os
import subprocess

import pytest
from desk_parts import shared
from ridepool import words


@pytest.fixture(scope="session", autouse=True)
def can_be_opened(program):
    """Skips all tests where this Python lacks what a desk stands on; fails them where the program has no `live`."""
    if words.missing_modules(list(words.DESK_PACKAGES)) or not os.path.exists("/usr/share/javascript/leaflet/leaflet.js"):
        pytest.skip(f"the desk's packages are missing: {words.DESK_INSTALL}")
    found = subprocess.run([program, "live", "network=none"], capture_output=True, text=True)
    assert "words: missing" in found.stderr, f"{program} has no word `live`: {found}"


@pytest.fixture
def folder(tmp_path):
    """A folder for a day, which isn't there yet."""
    return tmp_path / "day"


@pytest.fixture
def desk(program):
    """Opens a desk: `with desk(*words, folder=folder) as it`."""
    return functools.partial(shared.desk, program=program)


@pytest.fixture
def held_desk(program):
    """Opens a desk whose program waits: `with held_desk(folder) as (it, let_go)`."""
    return functools.partial(shared.held_desk, program=program)


@pytest.fixture
def fails(program):
    """Demands that a desk doesn't open: `fails(text, *words)`."""
    return functools.partial(shared.fails, program=program)


@pytest.fixture
def audited(program):
    """Demands that `audit` accepts a kept day: `audited(folder, batches)`."""
    return functools.partial(shared.audited, program)
