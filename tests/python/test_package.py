"""The package as a whole: its examples, its types, its commands, and a wheel in an environment of its own."""

import doctest
import importlib
import importlib.util
import os
import pathlib
import shutil
import subprocess
import sys

import pandas
import pytest
import ridepool as rp

TOP = pathlib.Path(__file__).resolve().parent.parent.parent
MODULES = sorted({f"ridepool.{place}" for place in rp.PLACES.values()})
TYPED = ["python/ridepool", "tools"]


@pytest.mark.parametrize("name", MODULES)
def test_examples_of_docstrings(name):
    found = doctest.testmod(importlib.import_module(name))
    assert found.failed == 0


@pytest.mark.parametrize("name", sorted(rp.PLACES))
def test_each_public_name_is_documented(name):
    assert (getattr(rp, name).__doc__ or "").strip()


def test_each_public_method_is_documented():
    classes = [getattr(rp, name) for name in rp.PLACES if isinstance(getattr(rp, name), type)]
    bare = [f"{it.__name__}.{name}" for it in classes for name, value in vars(it).items()
            if not name.startswith("_") and (callable(value) or isinstance(value, property)) and not value.__doc__]
    assert bare == []


def test_an_unknown_name():
    with pytest.raises(AttributeError):
        rp.nothing


def test_types():
    if importlib.util.find_spec("mypy") is None:
        pytest.skip("there is no mypy")
    words = ["-m", "mypy", "--config-file", str(TOP / "pyproject.toml"), *TYPED]
    ran = subprocess.run([sys.executable, *words], cwd=TOP, capture_output=True, text=True)
    assert ran.returncode == 0, ran.stdout + ran.stderr


def called(*words):
    """A command of the package."""
    environment = {**os.environ, "PYTHONPATH": str(TOP / "python")}
    return subprocess.run([sys.executable, *words], capture_output=True, text=True, env=environment)


def test_ridepool_script(tmp_path):
    (tmp_path / "asked.csv").write_text("rider,from,to,second,persons\n1,2,4,0:00,1\n2,3,5,0:00:20,2\n")
    ran = called(str(TOP / "tools" / "script.py"), str(tmp_path / "asked.csv"), "every=30")
    assert ran.returncode == 0 and ran.stdout == (
        "round,lane,command,a,b,c,d,e\n0,0,submit,1,2,4,0,1\n0,0,submit,2,3,5,20,2\n1,0,seal,30,,,,\n")
    (tmp_path / "script.csv").write_text(ran.stdout)
    folder = TOP / "examples" / "line"
    net, fleet = rp.Network.from_csv(folder / "network.csv"), rp.Fleet.from_csv(folder / "fleet.csv")
    assert rp.run(net, fleet, tmp_path / "script.csv").replies["reply"].tolist()[:2] == ["accepted", "accepted"]


@pytest.mark.parametrize("text, words, said", [
    ("from,to,second\n1,2,x\n", [], "line 2, time: 'x' is not seconds, a time of day, or a moment with its time zone"),
    ("from,to\n1,2\n", [], "there is no column time; there are: from, to"),
    ("from,to,second\n1,9,0\n", [f"network={TOP}/examples/line/network.csv"], "line 2, to: '9' is not a node of the network"),
    ("from,to,second\n1,2,0\n", ["every=0"], "every=0 is not a whole number from 1 to 1000000000"),
])
def test_ridepool_script_refuses(tmp_path, text, words, said):
    (tmp_path / "asked.csv").write_text(text)
    ran = called(str(TOP / "tools" / "script.py"), str(tmp_path / "asked.csv"), *words)
    assert ran.returncode == 2 and ran.stdout == "" and said in ran.stderr and ran.stderr.count("\n") == 1


def test_a_sweep(town):
    found = rp.sweep(*town, wait=[120, 300], trip=[1, 4])
    assert found[["wait", "trip", "state"]].values.tolist() == [
        [120, 1, "done"], [120, 4, "done"], [300, 1, "done"], [300, 4, "done"]]
    for row in found.itertuples():
        measures = rp.drive(*town, rp.Settings(wait=row.wait, trip=row.trip)).measures()
        assert {name: getattr(row, name) for name in measures} == pytest.approx(measures)


def test_a_sweep_keeps_its_days(town, tmp_path):
    first = rp.sweep(*town, wait=[120, 300], keep=tmp_path)
    kept = {path: path.stat().st_mtime_ns for path in (tmp_path / "kept").iterdir()}
    again = rp.sweep(*town, wait=[120, 300, 0], keep=tmp_path)
    assert len(kept) == 2 and all(path.stat().st_mtime_ns == time for path, time in kept.items())
    pandas.testing.assert_frame_equal(first, again[:2])


def test_a_sweep_on_dask(town):
    distributed = pytest.importorskip("distributed", reason="there is no distributed")
    with distributed.LocalCluster(n_workers=1, threads_per_worker=2, dashboard_address=":0", memory_limit=None) as cluster:
        with distributed.Client(cluster) as client:
            found = rp.sweep(*town, wait=[120, 300], client=client)
    pandas.testing.assert_frame_equal(found, rp.sweep(*town, wait=[120, 300]))


def test_a_sweep_says_which_day_failed(town):
    found = rp.sweep(*town, program="/bin/false", wait=[120])
    assert found["state"].tolist() == ["status 1"]
    with pytest.raises(rp.RefusedInput):
        rp.sweep(*town, weight=[1])


@pytest.fixture(scope="module")
def environment(tmp_path_factory):
    """An environment of its own into which a wheel was installed without network: its folder with the commands."""
    for module in ("setuptools", "wheel", "pip"):
        if importlib.util.find_spec(module) is None:
            pytest.skip(f"there is no {module}")
    folder = tmp_path_factory.mktemp("wheel")
    # Only what the wheel is made of is copied, so that no build of another time is in it.
    for name in ("pyproject.toml", "setup.py", "CHANGELOG.md", "LICENSE-MIT", "LICENSE-APACHE"):
        shutil.copy(TOP / name, folder / name)
    for name in ("python", "release", "examples/town"):
        shutil.copytree(TOP / name, folder / name, ignore=shutil.ignore_patterns("__pycache__", "*.egg-info"))
    shutil.copy(os.environ["RIDEPOOL_PROGRAM"], folder / "release" / "ridepool_program")
    offline = ["--no-index", "--no-deps", "--disable-pip-version-check", "-q"]
    subprocess.run([sys.executable, "-m", "pip", "wheel", "--no-build-isolation", *offline, "-w", folder / "dist", folder],
                   check=True, capture_output=True)
    (wheel,) = (folder / "dist").glob("ridepool-*-py3-none-manylinux_2_34_x86_64.whl")
    subprocess.run([sys.executable, "-m", "venv", "--system-site-packages", folder / "venv"], check=True)
    subprocess.run([folder / "venv" / "bin" / "python", "-m", "pip", "install", *offline, wheel], check=True)
    return folder / "venv" / "bin"


def in_environment(folder, *words):
    """A command of the environment, from another folder, without what this process was told."""
    clean = {key: value for key, value in os.environ.items() if not key.startswith(("RIDEPOOL", "PYTHON"))}
    return subprocess.run([folder / words[0], *words[1:]], cwd="/", env=clean, capture_output=True, text=True)


def test_the_wheel_bears_the_program(environment):
    ran = in_environment(environment, "ridepool", "--version")
    assert ran.returncode == 0 and ran.stdout.startswith("ridepool ")
    load = in_environment(environment, "ridepool", "load", "side=2", "vehicles=1", "riders=1", "rounds=1")
    assert load.stdout.endswith("done 3\n")


def test_the_wheel_has_every_command(environment):
    text = (TOP / "pyproject.toml").read_text()
    names = [line.split(" = ")[0] for line in text.split("[project.scripts]")[1].split("[")[0].strip().splitlines()]
    assert "ridepool-script" in names
    assert [name for name in names if not (environment / name).exists()] == []
    assert in_environment(environment, "ridepool-script", "--help").stdout.startswith("use: ridepool-script ")


DAY = """
import pandas, ridepool as rp
net = rp.Network.made(side=3, seed=1)
asked = pandas.DataFrame({"from": [1, 2], "to": [9, 9], "time": [0, 5]})
given = net, rp.Fleet.drawn(net, vehicles=1), rp.Requests.from_frame(asked, every=30), rp.Settings(wait=300)
print(rp.__file__, rp.drive(*given).riders.state.tolist(), rp.simulate(*given[:3], rp.Ridepool(), given[3]).measures()["served"])
"""


def test_a_day_by_the_wheel(environment):
    ran = in_environment(environment, "python", "-c", DAY)
    assert ran.returncode == 0, ran.stderr
    assert str(environment.parent) in ran.stdout and ran.stdout.endswith("['delivered', 'delivered'] 2\n")
