#!/usr/bin/env python3
"""Tests of the tools, by pytest. Use: tools.py PROGRAM [NAME ..] [WORDS OF PYTEST ..]. The tests stand in tools_parts/. The last
line is `N passed, M failed`, and `, K skipped` behind it where tests can't be tried.
"""

import sys

from by_pytest import main

if __name__ == "__main__":
    sys.exit(main("tools_parts", needs=("sumolib", "matplotlib", "scipy", "pyproj")))
