"""Whether the tools can be tried."""

import pytest
from ridepool import words


@pytest.fixture(scope="session", autouse=True)
def can_be_tried():
    """Skips all tests where this Python lacks what the tools stand on."""
    missing = words.missing_modules(["sumolib", "matplotlib", "scipy", "pyproj"])
    if missing:
        pytest.skip(f"there is no {' and no '.join(missing)}: {words.INSTALL}")
