"""What the tests of `resume` share: a folder with a street, the example's day, and how many reports are cut."""

import pytest
from live_parts.given import street
from resume_parts.day import Day
from resume_parts.given import EXAMPLE


@pytest.fixture
def folder(tmp_path):
    """A folder with the files of five corners in a row and of one vehicle."""
    street(tmp_path)
    return tmp_path


@pytest.fixture
def day(program, folder):
    """The day of the example of `live`."""
    return Day(program, folder, EXAMPLE)


@pytest.fixture
def cuts(pytestconfig):
    """How many reports are cut, spoiled or killed."""
    return pytestconfig.getoption("cuts")
