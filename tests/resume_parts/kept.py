"""What a torn report keeps of a day, by a rule of its own, and which rows are left then."""

import re
from collections import Counter

HEAD = 4  # lines
COMMANDS = "submit cancel report pickup dropoff seal".split()


class Kept:
    """The longest beginning of a report that is whole lines with no block open, without a last line and an empty round at its
    end. `entries`, `bytes`, `round` and `open` are what `resume` tells of it."""

    def __init__(self, report):
        lines, whole, inside = report.split(b"\n")[:-1], 0, False
        for number, line in enumerate(lines, 1):
            inside = line != b"end" if inside else line.endswith(b" closed")
            whole = whole if inside else number
        lines = [line.decode() for line in lines[:whole]]
        for word in "done", "round":
            if len(lines) > HEAD and lines[-1].startswith(word + " "):
                lines.pop()
        self.text = "".join(line + "\n" for line in lines).encode()
        self.lines, self.bytes, self.has_head = lines, len(self.text), len(lines) >= HEAD
        entries = [line.split(" ") for line in lines[HEAD:] if re.match(r"\d+ \d+ \w+ ", line)]
        self.entries = len(entries)
        rounds = re.findall(r"^round (\d+)$", "\n".join(lines), re.M)
        self.round = int(rounds[-1]) if rounds else None
        sealed = [words[-1] for words in entries if words[-2] == "sealed"]
        closes = [words for words in entries if words[-1] == "closed"]
        self.open = int(sealed[-1]) if len(sealed) > len(closes) else None
        self.of_lane = Counter(int(words[1]) for words in entries if words[2] in COMMANDS)

    def told(self):
        """The line that `resume` writes on standard error."""
        known = {name: "none" if value is None else value for name, value in (("round", self.round), ("open", self.open))}
        return f"ridepool: resumed entries={self.entries} bytes={self.bytes} round={known['round']} open={known['open']}\n"

    def parted(self, rows):
        """The rows whose answers are kept, and those that are left, in rounds behind the kept ones."""
        kept, left, counts = [], [], Counter()
        for row in rows:
            round_, lane, rest = row.split(",", 2)
            counts[lane] += 1
            if counts[lane] <= self.of_lane[int(lane)]:
                kept.append(row)
            else:
                left.append((int(round_), f"{lane},{rest}"))
        first = left[0][0] if left else 0
        begin = 0 if self.round is None else self.round + 1
        return kept, [f"{begin + round_ - first},{rest}" for round_, rest in left]


def rows_of(report):
    """The rows of a report, by its entries: round, lane, command and the numbers behind it, with a party of one; none where
    a line isn't so."""
    rows, round_ = [], 0
    for line in Kept(report).lines[HEAD:]:
        if found := re.fullmatch(r"round (\d+)", line):
            round_ = int(found[1])
        elif found := re.match(rf"\d+ (\d+) ({'|'.join(COMMANDS)})((?: \d+)*)", line):
            numbers = found[3].split()
            numbers = numbers[:1] if found[2] == "seal" else numbers
            party = (numbers[4:5] or ["1"]) if found[2] == "submit" else [""]
            rows.append(",".join([str(round_), found[1], found[2], *(numbers + [""] * 4)[:4], *party]))
    return rows
