#!/usr/bin/env python3
"""Goes on from torn reports by `ridepool resume`, as a dispatcher would after a crash, by pytest.

    resume.py PROGRAM [NAME ..] [--cuts=N] [--seed=N] [WORDS OF PYTEST ..]

What is kept has to be what a rule of its own says (resume_parts/kept.py). The rows that are left are sent in later rounds, and
what comes out has to be audited. The tests stand in resume_parts/. The last line is `N passed, M failed`, and `, K skipped`
behind it where tests can't be tried.
"""

import sys

from by_pytest import main

if __name__ == "__main__":
    sys.exit(main("resume_parts"))
