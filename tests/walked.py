"""Judges the report of a large day: each line but those of plans.

    walked.py FOLDER REPORT

The folder has the day's three files and its `words`. Plans are taken as they are printed, without their trees; from them
follows all that is entered, over the judge's own shortest times, all replies, and the counts. No promise may lapse, no
vehicle be late, and every limit has to be kept. Prints how many lines there were and how the riders were served.
"""

import sys
from collections import Counter
from pathlib import Path

from growth import LargeRun
from judge import Lines, Wrong, judge_lines, stops_in


def read_block(lines, book, run, day):
    """Reads a batch's plan and moves, without judging them."""
    lines.take(f"batch {book.sealed.batch}")
    trips, moves, overflow = [], [], False
    while lines.look() != ["end"]:
        words = lines.look()
        lines.need(words[0] not in ("lapsed", "late", ""), "on a day no promise lapses and no vehicle is late")
        if words[0] == "expired":
            lines.need(int(words[1]) in book.sealed.expired, "this rider hasn't expired")
        elif words[0] == "trip":
            trips.append((int(words[1]), stops_in(lines, words[3:])))
        elif words[0] == "move":
            moves.append(tuple(map(int, words[1:])))
        overflow = overflow or words[0] == "overflow"
        lines.at += 1
    lines.take("end")
    book.close(book.sealed.batch, None if overflow else trips)
    day.closed(None if overflow else trips, moves)


def main():
    if len(sys.argv) != 3:
        sys.exit(__doc__)
    folder = Path(sys.argv[1])
    run = LargeRun(folder, (folder / "words").read_text().splitlines())
    lines = Lines(Path(sys.argv[2]).read_text())
    try:
        book = judge_lines(run, lines, read_block)
    except (Wrong, IndexError, KeyError, ValueError) as error:
        print(f"line {lines.at + 1}: {error}")
        return 1
    served = Counter(it.status for it in book.riders.values())
    print(f"{len(lines.lines)} lines;", ", ".join(f"{count} {status}" for status, count in sorted(served.items())))
    print(lines.lines[-2])
    return 0


if __name__ == "__main__":
    sys.exit(main())
