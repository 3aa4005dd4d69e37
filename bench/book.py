"""Makes the three files of a long day without seals in a folder.

Usage: book.py COMMANDS FOLDER

The network is a line of 1,000 nodes, the fleet has 500 vehicles. Of twenty commands nine are submits of
new riders and nine are cancels of riders from 450 submits before, so that the pool never fills; the
others are a report and, in turn, a pickup, a drop-off, a repeated submit or a cancel of nobody, which are
refused. A round has 1,000 commands, all in lane 0.
"""

import pathlib
import sys

NODES = 1000
VEHICLES = 500
BEHIND = 450


def refused(step, riders):
    vehicle = step % VEHICLES + 1
    return (
        f"pickup,{vehicle},{riders},{step},",
        f"dropoff,{vehicle},{riders},{step},",
        f"submit,{riders},1,2,{step}",
        f"cancel,{1_000_000_000 - step},,,",
    )[step // 20 % 4]


def commands(count):
    riders = 0
    for step in range(count):
        kind = step % 20
        if kind == 18:
            node = step * 7919 % NODES + 1
            yield f"report,{step % VEHICLES + 1},{node},{step},"
        elif kind == 19:
            yield refused(step, riders)
        elif kind % 2 == 0 or riders <= BEHIND:
            riders += 1
            origin = riders * 31 % NODES + 1
            yield f"submit,{riders},{origin},{origin % NODES + 1},{step}"
        else:
            yield f"cancel,{riders - BEHIND},,,"


def main():
    count, folder = int(sys.argv[1]), pathlib.Path(sys.argv[2])
    network = ["from,to,seconds"]
    for node in range(1, NODES):
        network += [f"{node},{node + 1},60", f"{node + 1},{node},60"]
    fleet = ["vehicle,seats,node,second"]
    fleet += [f"{vehicle},4,{vehicle},0" for vehicle in range(1, VEHICLES + 1)]
    script = ["round,lane,command,a,b,c,d"]
    script += [f"{step // 1000},0,{line}" for step, line in enumerate(commands(count))]
    for name, lines in (("network", network), ("fleet", fleet), ("script", script)):
        (folder / f"{name}.csv").write_text("".join(line + "\n" for line in lines))


main()
