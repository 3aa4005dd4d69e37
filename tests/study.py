#!/usr/bin/env python3
"""Tests of studies, by pytest. Use: study.py PROGRAM [NAME ..] [WORDS OF PYTEST ..]. The tests stand in study_parts/. The last
line is `N passed, M failed`, and `, K skipped` behind it where tests can't be tried.
"""

import sys

from by_pytest import main

if __name__ == "__main__":
    sys.exit(main("study_parts", needs=("distributed", "matplotlib", "scipy")))
