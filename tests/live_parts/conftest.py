"""What the tests of `live` share: a folder with a street, calls of `live`, how long they wait, how many rows are drawn."""

import pytest
from live_parts.client import Client
from live_parts.given import street


@pytest.fixture
def folder(tmp_path):
    """A folder with the files of five corners in a row and of one vehicle."""
    street(tmp_path)
    return tmp_path


@pytest.fixture
def live(program, folder):
    """Begins calls of `live` on the folder's files: `live(*words)`. What still runs behind the test is ended."""
    begun = []

    def begin(*words, **more):
        begun.append(Client(program, folder, *words, **more))
        return begun[-1]

    yield begin
    for client in begun:
        client.close()


@pytest.fixture
def rows(pytestconfig):
    """How many rows are drawn."""
    return pytestconfig.getoption("rows")


@pytest.fixture(scope="session", autouse=True)
def patience(pytestconfig):
    """How long a call may say nothing."""
    Client.patience = pytestconfig.getoption("seconds")
