#!/usr/bin/env python3
"""Tests of tools/maps.py on a small crate, by pytest. Use: maps.py PROGRAM [NAME ..] [WORDS OF PYTEST ..]. The tests stand in
looks_parts/, and no program is tried. The last line is `N passed, M failed`.
"""

import sys

from by_pytest import main

if __name__ == "__main__":
    sys.exit(main("looks_parts/test_maps.py"))
