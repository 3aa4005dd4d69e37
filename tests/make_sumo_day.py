#!/usr/bin/env python3
"""Makes a day in the town of examples/town for SUMO: taxis that wait for orders, and persons who ask for rides.

`make_sumo_day.py FOLDER [TAXIS [PERSONS [EVERY]]]` writes FOLDER/day.sumocfg and what it names, and FOLDER/town with the
network that `tools/from_sumo.py` makes with edges=1. Every EVERY seconds a person asks. Streets are drawn, by a fixed seed.
"""

import os
import pathlib
import random
import subprocess
import sys

TOP = pathlib.Path(__file__).resolve().parent.parent
TAXI = ('<vType id="taxi" vClass="taxi" personCapacity="4"><param key="has.taxi.device" value="true"/>'
        '<param key="device.taxi.dropOffDuration" value="5"/></vType>')


def town(place):
    """The town's map as a network of SUMO's and as one of ours. Gives the streets."""
    network = place / "town.net.xml"
    subprocess.run(["netconvert", "--osm-files", str(TOP / "examples" / "town" / "town.osm"), "--output-file", str(network)],
                   check=True, capture_output=True, env={"SUMO_HOME": "/usr/share/sumo", **os.environ})
    subprocess.run([str(TOP / "tools" / "from_sumo.py"), str(network), str(place / "town"), "edges=1"], check=True,
                   capture_output=True)
    return [line.rsplit(",", 1)[1] for line in (place / "town" / "nodes.csv").read_text().splitlines()[1:]]


def make_day(place, taxis=3, persons=8, every=40):
    """Writes the day."""
    place.mkdir(parents=True, exist_ok=True)
    streets, draws = town(place), random.Random(1)
    routes = [TAXI]
    for n, street in enumerate(draws.sample(streets, taxis)):
        routes.append(f'<trip id="t{n}" type="taxi" depart="0" from="{street}" to="{street}" departPos="5">'
                      f'<stop edge="{street}" endPos="20" triggered="person"/></trip>')
    for n in range(persons):
        start, end = draws.sample(streets, 2)
        routes.append(f'<person id="p{n}" depart="{every * n + 5}"><ride from="{start}" to="{end}" lines="taxi"/></person>')
    (place / "day.rou.xml").write_text("<routes>\n" + "\n".join(routes) + "\n</routes>\n")
    (place / "day.sumocfg").write_text(
        '<configuration><input><net-file value="town.net.xml"/><route-files value="day.rou.xml"/></input>'
        f'<time><begin value="0"/><end value="{every * persons + 2700}"/></time></configuration>\n')


if __name__ == "__main__":
    if not 2 <= len(sys.argv) <= 5:
        sys.exit(__doc__)
    make_day(pathlib.Path(sys.argv[1]), *map(int, sys.argv[2:]))
