#!/usr/bin/env python3
"""Talks to `ridepool live` through pipes, as a dispatcher would, by pytest.

    live.py PROGRAM [NAME ..] [--rows=N] [--seed=N] [--seconds=N] [WORDS OF PYTEST ..]

A client sends a row and waits for its answer before it writes the next: what is tested is this order. A call that says
nothing for two seconds, or for so many as `--seconds` says, is taken to hang. What the program writes has to be the report of
a run of the accepted rows, by the judge (judge.py) and by `run` itself. The tests stand in live_parts/. The last line is
`N passed, M failed`, and `, K skipped` behind it where tests can't be tried.
"""

import sys

from by_pytest import main

if __name__ == "__main__":
    sys.exit(main("live_parts"))
