"""Whether studies can be tried."""

import pytest
from ridepool import words


@pytest.fixture(scope="session", autouse=True)
def can_be_tried():
    """Skips all tests where this Python lacks what studies stand on."""
    missing = words.missing_modules(["distributed", "matplotlib", "scipy"])
    if missing:
        pytest.skip(f"there is no {' and no '.join(missing)}: {words.INSTALL}")
