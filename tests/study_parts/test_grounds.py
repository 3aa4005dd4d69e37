"""Tests of what a study drives on: modules that are sent, made cities and files, zones."""

import contextlib
import subprocess
import sys

from study_parts.plain import COLUMNS


def ground(folder, *city):
    """The ground of a made city."""
    from ridepool.study.ground import ground_of
    from ridepool.study.plan import Plan

    with contextlib.redirect_stdout(None):
        return ground_of(Plan([], dict(word.split("=") for word in city), None), folder, folder)


def test_the_modules_that_are_sent(folder):
    """They drive a day on Python alone, and take the place of those that a worker had before."""
    from ridepool.study.sent import pack

    pack(folder / "ridepool.zip")
    (folder / "ridepool").mkdir()
    for name in ("__init__", "words"):
        (folder / "ridepool" / f"{name}.py").write_text("OLD = True\n")
    lines = ("import importlib, sys", "import ridepool.words", "assert ridepool.words.OLD",
             f"sys.path.insert(0, {str(folder / 'ridepool.zip')!r})", "importlib.reload(ridepool)",
             "from ridepool.days import one_day", "print(one_day.__file__, hasattr(one_day.Fault, 'OLD'))")
    done = subprocess.run([sys.executable, "-S", "-c", "\n".join(lines)], cwd=folder, capture_output=True, text=True)
    assert done.stdout == f"{folder}/ridepool.zip/ridepool/days/one_day.py False\n", done


def test_ground_of_files(folder):
    """Files give the same days as the made city that they are of."""
    from ridepool.study.ground import ground_of
    from ridepool.study.plan import Plan

    made = ground(folder, "requests=50", "avenues=5", "streets=20", "seconds=600")
    files = {name: f"city/{name}.csv" for name in ("network", "nodes", "trips")}
    with contextlib.redirect_stdout(None):
        given = ground_of(Plan([], None, {**files, **dict(word.split("=") for word in COLUMNS)}), folder, folder)
    assert given == made and len(made.requests) == 50 and made.length == 600


def test_zones(folder):
    """Zones part the nodes, the fleet and the riders, about evenly; a rider's zone is that of the origin."""
    from ridepool.study.plan import SETTINGS, Cell

    city = ground(folder, "requests=2000", "avenues=12", "streets=80")
    default = Cell(**{name: value for name, (_, _, value) in SETTINGS.items()})
    for count, vehicles in ((1, 17), (2, 100), (5, 103), (7, 900)):
        days = list(city.days(default._replace(zones=count, vehicles=vehicles)))
        fleets, scripts = ([[row.split(",") for row in day[at].splitlines()[1:]] for day in days] for at in (0, 1))
        riders = [[row for row in script if row[2] == "submit"] for script in scripts]
        sizes = [len(mine) for mine in riders]
        assert sum(sizes) == 2000 and max(sizes) <= 1.1 * 2000 / count and len(days) == count, sizes
        assert [len(day[2]) for day in days] == sizes
        assert sum(len(fleet) for fleet in fleets) == vehicles, fleets
        assert all(abs(len(fleet) - vehicles * size / 2000) <= 1 for fleet, size in zip(fleets, sizes)), fleets
        origins = [{row[4] for row in mine} for mine in riders]
        assert sum(len(begin) for begin in origins) == len(set().union(*origins)), "an origin in two zones"
        asked = sorted(tuple(row[4:7]) for mine in riders for row in mine)
        assert asked == sorted((str(r.origin), str(r.destination), str(r.second)) for r in city.requests)
        seals = [[row for row in script if row[2] == "seal"] for script in scripts]
        assert all(seal == seals[0] for seal in seals) and len(seals[0]) == 60
