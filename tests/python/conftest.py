"""What the tests of the package share: where files lie, the program, and the town of the examples."""

import pathlib

import pytest
import ridepool as rp

TOP = pathlib.Path(__file__).resolve().parent.parent.parent
TOWN = TOP / "examples" / "town"


@pytest.fixture(scope="session", autouse=True)
def named(program):
    """The package finds the program that is tried by the environment."""
    with pytest.MonkeyPatch.context() as patch:
        patch.setenv("RIDEPOOL_PROGRAM", program)
        yield


@pytest.fixture(scope="session")
def town():
    """The network, the fleet and the requests of the town."""
    import pandas

    script = pandas.read_csv(TOWN / "script.csv")
    asked = script[script["command"] == "submit"].rename(
        columns={"a": "rider", "b": "from", "c": "to", "d": "time", "e": "persons"})
    net = rp.Network.from_csv(TOWN / "network.csv", nodes=TOWN / "nodes.csv")
    columns = ["rider", "from", "to", "time", "persons"]
    requests = rp.Requests.from_frame(asked[columns].astype(int).reset_index(drop=True), every=60, until=1800)
    return net, rp.Fleet.from_csv(TOWN / "fleet.csv"), requests


@pytest.fixture(scope="session")
def day(town):
    """The town's day as it is driven, with its trees."""
    return rp.drive(*town, rp.Settings(proof=True))


@pytest.fixture
def line():
    """A street of five corners, a minute apart, and one vehicle at corner 1."""
    folder = TOP / "examples" / "line"
    return rp.Network.from_csv(folder / "network.csv", folder / "nodes.csv"), rp.Fleet.from_csv(folder / "fleet.csv")
