"""Tests of what whoever operates a desk needs: figures, lines of the log, a day whose files were changed or lost."""

import os
import pathlib
import re
import shutil
import subprocess
import tempfile

import pytest
from desk_parts.shared import LINE, LONG, TOP, TOWN, folder_for_days, inputs, until
from ridepool import words

SAID = re.compile(r"\d{4}-\d\d-\d\dT\d\d:\d\d:\d\d\.\d{3}Z (INFO|WARNING|ERROR) desk: .")


def figures(it):
    """The figures of the desk by their names with labels."""
    status, text = it.call("GET", "/metrics")
    assert status == 200, text
    lines = [line for line in text.decode().splitlines() if not line.startswith("#")]
    return {line.rpartition(" ")[0]: float(line.rpartition(" ")[2]) for line in lines}


def test_figures_are_there_for_prometheus(desk):
    if words.missing_modules(["prometheus_client"]):
        pytest.skip("there is no client of Prometheus: apt-get install python3-prometheus-client")
    with desk(*inputs(LINE), *LONG) as it:
        it.gives("POST", "/rides", {"from": 2, "to": 4, "time": 0})
        it.gives("POST", "/rides", {"from": 3, "to": 5, "time": 0})
        it.gives("POST", "/rides", {"from": 5, "to": 1, "persons": 5, "time": 0})
        it.gives("POST", "/rides", {"from": 5, "to": 1, "time": 0})
        it.gives("DELETE", "/rides/4")
        pickup = it.plan()["second"] + 60
        it.gives("POST", "/vehicles/1/pickup", {"ride": 1, "second": pickup})
        found = figures(it)
        rides = {state: found[f'ridepool_rides{{state="{state}"}}'] for state in
                 ("waiting", "promised", "aboard", "delivered", "cancelled", "expired")}
        assert rides == {"waiting": 1, "promised": 1, "aboard": 1, "delivered": 0, "cancelled": 1, "expired": 0}, rides
        assert found["ridepool_plans_total"] == found["ridepool_plan_seconds_count"] == 1
        assert found["ridepool_last_plan_left_out"] == 1 and found["ridepool_last_plan_gap"] == 0
        assert found["ridepool_answer_seconds_count"] == 7 and found["ridepool_ready"] == 1
        assert found['ridepool_answer_seconds_bucket{le="+Inf"}'] == 7 and found["ridepool_queue"] == 0
        assert found["ridepool_live_memory_bytes"] > 0 and found["process_resident_memory_bytes"] > 0


def test_lines_of_the_log_have_a_time_and_a_level(desk, folder):
    with desk(*inputs(LINE), folder=folder) as it:
        it.gives("POST", "/rides", {"from": 2, "to": 4})
        it.end()
    assert len(it.said) >= 2 and all(SAID.match(line) for line in it.said), it.said
    with desk(folder=folder) as it:
        assert any("ridepool resume goes on with the " in line for line in it.said) and all(SAID.match(line) for line in it.said), it.said


def test_a_lost_transcript_is_never_taken_for_a_new_day(desk, fails, audited, folder):
    with desk(*inputs(TOWN), *LONG, "proof=1", folder=folder) as it:
        for number in range(6):
            it.gives("POST", "/rides", {"from": 1 + number, "to": 40, "time": number})
        it.plan()
        it.gives("DELETE", "/rides/6")
        it.plan()
        before = it.state()
    path, kept = folder / "transcript", (folder / "transcript").read_text()
    head = "".join(kept.splitlines(keepends=True)[:3])
    for text in (None, "", head):
        path.unlink() if text is None else path.write_text(text)
        fails("the transcript is missing or empty, and rows.csv has 9 rows of this day", folder=folder)
        assert (path.read_text() if path.exists() else None) == text
    rows = (folder / "rows.csv").read_text()
    path.write_text(kept)
    with desk(folder=folder) as it:
        assert it.state() == before
    assert (folder / "rows.csv").read_text() == rows
    audited(folder, 2)


def test_a_changed_input_is_named(desk, fails):
    for name in ("network", "fleet", "nodes"):
        with folder_for_days() as folder:
            with desk(*inputs(LINE), folder=folder):
                pass
            with open(folder / f"{name}.csv", "a", encoding="ascii") as file:
                file.write("\n")
            fails(f"{name}.csv: the file isn't that with which the day began", folder=folder)
            (folder / f"{name}.csv").unlink()
            fails(f"{name}.csv: the file isn't that with which the day began", folder=folder)
            shutil.copy(LINE / f"{name}.csv", folder / f"{name}.csv")
            with desk(*inputs(LINE), folder=folder) as it:
                assert it.gives("GET", "/rides") == []


def test_the_debian_package_is_installed_in_a_folder_and_opens_a_desk(desk):
    for tool in ("dpkg-deb", "dpkg"):
        if shutil.which(tool) is None:
            pytest.skip(f"there is no {tool}")
    with tempfile.TemporaryDirectory() as place:
        folder = pathlib.Path(place)
        subprocess.run(["bash", str(TOP / "package" / "deb"), place], check=True, capture_output=True)
        (package,) = folder.glob("ridepool_*_amd64.deb")
        root = folder / "root"
        installed(package, root)
        said = subprocess.run([root / "usr" / "bin" / "ridepool", "--version"], capture_output=True, text=True, check=True).stdout
        version = package.name.split("_")[1]
        assert said.splitlines()[0] == f"ridepool {version}" and "\nsources " in said, said
        unit = (root / "usr" / "lib" / "systemd" / "system" / "ridepool-desk@.service").read_text()
        assert "ExecStart=/usr/bin/ridepool-desk day=/var/lib/ridepool/%i $WORDS" in unit
        assert (root / "usr" / "share" / "man" / "man1" / "ridepool.1.gz").exists()
        with desk("demo", tool=root / "usr" / "bin" / "ridepool-desk", program=None) as it:
            until(lambda: it.call("GET", "/health")[1]["batches"] >= 1, "a plan")
            assert it.call("GET", "/")[0] == it.call("GET", "/drive")[0] == 200


def installed(package, root):
    """Installs a package under a folder: by dpkg where that may change owners, else its files alone."""
    base = root / "var" / "lib" / "dpkg"
    for name in ("updates", "info", "triggers"):
        (base / name).mkdir(parents=True)
    for name in ("status", "available"):
        (base / name).touch()
    if os.geteuid() == 0:
        call = ["dpkg", f"--admindir={base}", f"--instdir={root}", "--force-depends", "--force-script-chrootless", "-i", package]
    else:
        call = ["dpkg-deb", "-x", package, root]
    done = subprocess.run(call, capture_output=True, text=True)
    assert done.returncode == 0, done


def test_the_unit_has_no_fault_that_systemd_finds():
    if shutil.which("systemd-analyze") is None:
        pytest.skip("there is no systemd-analyze")
    with tempfile.TemporaryDirectory() as place:
        text = (TOP / "package" / "ridepool-desk@.service").read_text()
        unit = pathlib.Path(place) / "ridepool-desk@.service"
        unit.write_text(text.replace("/usr/bin/ridepool-desk", "/bin/true").replace("man:ridepool(1)", "https://example.org"))
        done = subprocess.run(["systemd-analyze", "verify", str(unit)], capture_output=True, text=True)
        found = [line for line in done.stderr.splitlines() if "ridepool-desk" in line]
        assert found == [], done.stderr
