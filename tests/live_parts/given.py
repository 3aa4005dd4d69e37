"""What the tests of `live` give it: headers, rows, and folders with a network and a fleet."""

import random
import shutil
from pathlib import Path

STREET = Path(__file__).resolve().parent.parent / "street"
HEADERS = "round,lane,command,a,b,c,d", "round,lane,command,a,b,c,d,e"

ONE_BY_ONE = [
    "0,0,submit,1,2,4,0",
    "0,0,report,1,1,0,",
    "0,0,submit,2,3,5,0",
    "0,0,seal,10,,,",
    "1,0,report,1,2,60,",
    "1,0,pickup,1,1,60,",
    "1,3,cancel,2,,,",
    "2,0,seal,70,,,",
]

# two batches, each with notices
NOTICED = [
    "0,0,submit,1,2,4,0",
    "0,0,submit,2,3,5,0",
    "0,0,seal,10,,,",
    "1,0,report,1,1,20,",
    "1,3,submit,3,4,1,20",
    "2,0,seal,30,,,",
]


def street(folder):
    """Puts the files of five corners in a row and of one vehicle into the folder."""
    for name in "network fleet".split():
        shutil.copy(STREET / f"{name}.csv", folder / f"{name}.csv")


def made_city(folder, side=30, vehicles=60, seed=5):
    """A square network and its fleet, large enough that a batch takes a while."""
    rng = random.Random(seed)
    arcs = []
    for y in range(side):
        for x in range(side):
            node = y * side + x + 1
            for there in ([node + 1] if x + 1 < side else []) + ([node + side] if y + 1 < side else []):
                arcs += [f"{node},{there},{rng.randint(20, 60)}", f"{there},{node},{rng.randint(20, 60)}"]
    (folder / "network.csv").write_text("\n".join(["from,to,seconds", *arcs, ""]))
    fleet = [f"{number},4,{rng.randint(1, side * side)},0" for number in range(1, vehicles + 1)]
    (folder / "fleet.csv").write_text("\n".join(["vehicle,seats,node,second", *fleet, ""]))
    return side * side
