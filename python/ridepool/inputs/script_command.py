"""Prints the script of a table of requests, for `run` or `drive`."""

import sys
from typing import Optional, Sequence

from ridepool.inputs.limits import MOST_NUMBER
from ridepool.words import Fault, need, number, run_tool, split_words

USAGE = ("use: %(prog)s requests.csv [every=60] [until=SECOND] [network=network.csv [nodes=nodes.csv]] [far=500]\n"
         "requests.csv has the columns rider, from, to, second, persons. rider and persons may stay away. second may have\n"
         "times of day (8:05, 08:05:30). With network= and nodes= places do for nodes: from_lat, from_lon, to_lat, to_lon.")
WORDS = ("every", "until", "network", "nodes", "far")


def convert(arguments: Sequence[str]) -> None:
    """The tool."""
    plain, values = split_words(arguments, WORDS, USAGE)
    if len(plain) != 1 or ("nodes" in values and "network" not in values):
        raise Fault(USAGE)
    every = number(values, "every", 1, MOST_NUMBER, 60)
    until = number(values, "until", 0, MOST_NUMBER, None)
    far = number(values, "far", 0, MOST_NUMBER, 500)
    need("numpy", "pandas", install="apt-get install python3-pandas python3-scipy")
    sys.stdout.write(script_of(plain[0], every, until, values.get("network"), values.get("nodes"), far))


def script_of(path: str, every: int, until: Optional[int], network: Optional[str], nodes: Optional[str],
              far: int) -> str:
    """The script."""
    from ridepool.faults import RefusedInput
    from ridepool.inputs.network import Network
    from ridepool.inputs.requests import Requests

    try:
        net = None if network is None else Network.from_csv(network, nodes)
        return Requests.from_csv(path, every, until=until, far=far).script(net)
    except RefusedInput as fault:
        raise Fault(str(fault)) from None


def main() -> None:
    """The command."""
    run_tool(convert, USAGE)
