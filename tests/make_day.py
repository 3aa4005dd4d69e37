"""Makes a day on a square network: a made workload without its reports, for `drive`.

    make_day.py FOLDER [SEED [SIDE [VEHICLES [RIDERS [BATCHES [KEY=VALUE ..]]]]]]

Without numbers: seed 1, a square of 40 nodes a side, 500 vehicles, and 20 batches of 250 requests, one each minute. The
folder gets the three files and `words`, the words of a call.
"""

import sys
from pathlib import Path

from made_texts import texts

DEFAULTS = [1, 40, 500, 250, 20]


def main():
    if len(sys.argv) < 2:
        sys.exit(__doc__)
    folder = Path(sys.argv[1])
    given = [int(it) for it in sys.argv[2:] if "=" not in it]
    more = [it for it in sys.argv[2:] if "=" in it]
    made = [it.decode() for it in texts(*given, *DEFAULTS[len(given) :])]
    made[2] = "".join(row for row in made[2].splitlines(keepends=True) if ",report," not in row)
    folder.mkdir(parents=True, exist_ok=True)
    names = "network fleet script".split()
    for name, text in zip(names, made):
        (folder / f"{name}.csv").write_text(text)
    words = ["drive", *(f"{name}={name}.csv" for name in names), *more]
    (folder / "words").write_text("\n".join(words) + "\n")


if __name__ == "__main__":
    main()
