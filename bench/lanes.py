"""Makes the three files of one round of sixteen lanes without seals in a folder.

Usage: lanes.py COMMANDS FOLDER

The network is a line of 1,000 nodes, the fleet has one vehicle. Each lane submits a rider of its own and
cancels it, in turn, so every command is accepted, and the lanes only wait for one another.
"""

import pathlib
import sys

NODES = 1000
LANES = 16


def main():
    count, folder = int(sys.argv[1]), pathlib.Path(sys.argv[2])
    network = ["from,to,seconds"]
    for node in range(1, NODES):
        network += [f"{node},{node + 1},60", f"{node + 1},{node},60"]
    fleet = ["vehicle,seats,node,second", "1,4,1,0"]
    script = ["round,lane,command,a,b,c,d"]
    for step in range(count):
        lane, turn = step % LANES, step // LANES
        rider = turn // 2 * LANES + lane + 1
        node = rider % (NODES - 1) + 1
        script.append(f"0,{lane},submit,{rider},{node},{node + 1},0" if turn % 2 == 0 else f"0,{lane},cancel,{rider},,,")
    for name, lines in (("network", network), ("fleet", fleet), ("script", script)):
        (folder / f"{name}.csv").write_text("".join(line + "\n" for line in lines))


main()
