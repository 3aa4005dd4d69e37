"""What the tests of `resume` give it."""

from live_parts.drawn_rows import drawn_rows

EXAMPLE = [
    "0,0,submit,1,2,4,0",
    "0,0,submit,2,3,5,0",
    "0,0,seal,10,,,",
    "1,0,report,1,1,20,",
    "1,0,pickup,1,1,80,",
    "1,0,cancel,3,,,",
    "1,0,report,1,3,140,",
]


def lanes_of(count, seed):
    """Drawn rows of fifteen lanes on the street, which are in order and in form."""
    rows, last = [], 0
    for row in drawn_rows(count, seed):
        fields = row.split(",")
        if len(fields) == 7 and fields[0].isdigit() and int(fields[0]) >= last and int(fields[1]) < 16 and fields[2] != "jump":
            rows.append(row)
            last = int(fields[0])
    return rows


def head_of(report):
    """How many bytes the head has."""
    return sum(len(line) + 1 for line in report.split(b"\n")[:4])
