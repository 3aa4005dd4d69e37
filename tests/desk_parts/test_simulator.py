"""The test of a simulator as client: SUMO's taxis, which `tools/sumo_client.py` dispatches."""

import pathlib
import re
import shutil
import subprocess
import sys
import tempfile

import make_sumo_day
import pytest
from ridepool import words
from desk_parts.shared import TOOLS


def test_a_simulations_taxis_are_dispatched(program, audited):
    if shutil.which("sumo") is None or words.missing_modules(["traci", "sumolib"]):
        pytest.skip("there is no SUMO: apt-get install sumo sumo-tools")
    with tempfile.TemporaryDirectory(prefix="desk-test-") as folder:
        place = pathlib.Path(folder)
        make_sumo_day.make_day(place)
        own = not words.missing_modules(["pulp"])
        call = [sys.executable, str(TOOLS / "sumo_client.py"), str(place / "day.sumocfg"), "wait=600", "delay=900",
                f"network={place}/town/network.csv", f"nodes={place}/town/nodes.csv", f"own={int(own)}", "proof=1",
                f"transcript={place}/transcript", f"fleet={place}/fleet.csv", f"program={program}"]
        done = subprocess.run(call, capture_output=True, text=True)
        assert done.returncode == 0, done.stderr
        lines = done.stdout.splitlines()
        assert lines[0].startswith("ridepool: served 8 of 8, wait "), done.stdout
        assert not own or lines[2].startswith("drtOnline.py: served "), done.stdout
        wait, worst = map(int, re.search(r"wait (\d+) s, at most (\d+) s", lines[0]).groups())
        assert 0 < wait <= worst <= 700, lines[0]
        confirmed(place, audited)
        fleet = (place / "fleet.csv").read_text()
        again = subprocess.run(call, capture_output=True, text=True)
        assert again.returncode == 2 and "a file is there already" in again.stderr, again
        assert (place / "fleet.csv").read_text() == fleet


def confirmed(place, audited):
    """The simulation's transcript must be that of a run of its rows."""
    from ridepool.sessions.rows import HEADER, entrys_row
    from ridepool.sessions.state import Lines

    lines, reader, entries = (place / "transcript").read_text().splitlines(), Lines(), []
    for line in lines:
        reader.line(line)
        entries += [reader.last_entry] if len(reader.first) == 4 and reader.last_entry is not None else []
    text = "".join(entrys_row(it) for it in entries if it.command != "close")
    assert text.count("dropoff") == text.count("pickup") == 8, text
    (place / "rows.csv").write_text(HEADER + "\n" + text)
    shutil.copyfile(place / "town" / "network.csv", place / "network.csv")
    audited(place, sum(line.startswith("batch ") for line in lines))
