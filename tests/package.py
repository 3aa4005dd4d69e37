#!/usr/bin/env python3
"""Tests of the Python package, by pytest. Use: package.py PROGRAM [NAME ..] [WORDS OF PYTEST ..]. The tests stand in python/.
The last line is `N passed, M failed`, and `, K skipped` behind it where tests can't be tried. One test is called by name:

    tests/package.py release/ridepool_program times_of_day
"""

import sys

from by_pytest import main

if __name__ == "__main__":
    sys.exit(main("python", needs=("pandas", "scipy")))
