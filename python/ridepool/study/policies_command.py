"""Compares policies on one city over several seeds: writes a table, and a figure."""

import os
from typing import Sequence

from ridepool.inputs import made_city
from ridepool.words import Fault, need, run_tool, split_words

USAGE = ("use: %(prog)s OUT/ [vehicles=] [seats=] [seeds=] [wait=] [delay=] [every=] [requests=] [seconds=] [avenues=] "
         "[streets=] [alone=]")
DRIVEN = ("vehicles", "seats", "seeds", "wait", "delay", "every")
WORDS = (*DRIVEN, *(word for word in made_city.WORDS if word != "seed"))


def convert(arguments: Sequence[str]) -> None:
    """The tool."""
    plain, values = split_words(arguments, WORDS, USAGE)
    if len(plain) != 1:
        raise Fault(USAGE)
    need("matplotlib", "pandas", "scipy", install="apt-get install python3-matplotlib python3-pandas python3-scipy")
    from ridepool.draw import policies, style
    from ridepool.study.compared import compare

    compare(plain[0], values)
    style.write(policies.draw(os.path.join(plain[0], "policies.csv")), os.path.join(plain[0], "policies.svg"))


def main() -> None:
    """The command."""
    run_tool(convert, USAGE)
