#!/usr/bin/env python3
"""Tests of the dispatcher's desk, by pytest. Use: desk.py PROGRAM [NAME ..] [WORDS OF PYTEST ..]. The tests stand in
desk_parts/; a name is that of a test or of a file: calls, clients, kills, limits, operations, page, phone, proxy, roles,
shift, shift_page, simulator, trouble. DESK_SEED draws other kills than those of each run. The last line is `N passed, M failed`,
and `, K skipped` behind it where tests can't be tried.
"""

import sys

from by_pytest import main

if __name__ == "__main__":
    sys.exit(main("desk_parts", needs=("fastapi", "uvicorn")))
