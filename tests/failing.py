"""Makes what the program stands on fail, call by call, and looks at what it leaves behind.

    failing.py PROGRAM [quick] [PART ..]

Sources and audited reports are cut after each of their bytes; the program is killed between rounds; output, notices and files are such as
can't be written or read. By faults.c, which a C compiler builds, each read, each write and each request for memory is
refused in turn, one a run; with `quick` of many runs only some. The last line is `N passed, M failed`, by runs, and `, K skipped`
behind it where parts can't be tried here.
"""

import os
import sys
import time

from failing_parts.calls import failing_notices, failing_reads, failing_writes, refused_memory
from failing_parts.cut_texts import cut_reports, cut_sources, failing_audits
from failing_parts.midway import cut_load, killed, progress
from failing_parts.places import refused_places
from failing_parts.shared import Part
from faults import Shim
from skips import last_line

QUICK_STEP = 13  # of many runs one in so many is quick
MOST_SHOWN = 10  # wrong runs of a part

PARTS = {
    "refused places": refused_places,
    "cut sources": cut_sources,
    "cut reports": cut_reports,
    "killed between rounds": killed,
    "a workload cut": cut_load,
    "progress on a terminal": progress,
}
SHIM_PARTS = {
    "failing reads": failing_reads,
    "failing writes": failing_writes,
    "failing notices": failing_notices,
    "failing audits": failing_audits,
    "refused memory": refused_memory,
}


def main():
    if len(sys.argv) < 2:
        sys.exit(__doc__)
    program, names = os.path.abspath(sys.argv[1]), sys.argv[2:]
    is_quick = names[:1] == ["quick"]
    names = names[is_quick:]
    shim = Shim(program)
    passed = failed = skipped = 0
    for name, run in {**PARTS, **SHIM_PARTS}.items():
        if names and name not in names:
            continue
        if name in SHIM_PARTS and shim.why:
            if shim.is_missing:
                print(f"skipped: {name}, since {shim.why}")
                skipped += 1
            else:
                print(f"{name}: no run was made, since {shim.why}")
                failed += 1
            continue
        part, began = Part(QUICK_STEP if is_quick else 1), time.monotonic()
        run(part, shim if name in SHIM_PARTS else program)
        if not part.runs or (name in SHIM_PARTS and not part.faults):
            part.wrong.append("no run was made, or no call failed in one")
            part.runs += 1
        print(f"{name}: {part.runs} runs, {part.faults} faults, {time.monotonic() - began:.1f} s")
        for line in part.wrong[:MOST_SHOWN]:
            print(f"    {line}")
        failed += len(part.wrong)
        passed += part.runs - len(part.wrong)
    print(last_line(passed, failed, skipped))
    return failed != 0


if __name__ == "__main__":
    sys.exit(main())
