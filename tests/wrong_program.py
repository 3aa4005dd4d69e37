#!/usr/bin/env python3
"""A wrong program: runs the right one and changes one thing of what it prints.

    wrong_program.py WAY PROGRAM WORD ..

`wrong.py` has the ways and shows that the tests find each.
"""

import os
import re
import subprocess
import sys
from pathlib import Path
from typing import Callable, Dict, List, Optional, Sequence

UNCHANGED = "unchanged"  # the right program
MANY_NODES = 20  # reports of larger networks are changed
LARGE = 60_000  # bytes from which on a report is large


Change = Callable[[Sequence[str], str], str]  # of what the program prints, by the words of its call


def value_of(words: Sequence[str], key: str) -> Optional[str]:
    return next((word[len(key) + 1 :] for word in words if word.startswith(f"{key}=")), None)


def has_many_nodes(text: str) -> bool:
    """Whether a report's network has more nodes than small tests have; that of a summary always has."""
    nodes = re.search(r"^network nodes=(\d+) ", text, re.M)
    return nodes is None or int(nodes[1]) > MANY_NODES


def in_later_batches(pattern: str, by: int, command: str = "") -> Change:
    """Adds to the number behind the pattern in all batches but the first."""

    def change(words: Sequence[str], text: str) -> str:
        if not has_many_nodes(text) or command not in ("", words[0]):
            return text
        first, mark, rest = text.partition("\nbatch 2")
        return first + mark + re.sub(pattern, more, rest, flags=re.M)

    def more(match: "re.Match[str]") -> str:
        return f"{match[1]}{int(match[2]) + by}"

    return change


def both(*changes: Change) -> Change:
    def change(words: Sequence[str], text: str) -> str:
        for it in changes:
            text = it(words, text)
        return text

    return change


def without_trees(change: Change) -> Change:
    return lambda words, text: text if "proof=1" in words else change(words, text)


COST, BOUND = r"^(cost )(-?\d+)$", r"^(bound )(-?\d+)$"
CHANGES: Dict[str, Change] = {
    "cost-and-bound-more": both(in_later_batches(COST, 1), in_later_batches(BOUND, 1)),
    "cost-more": in_later_batches(COST, 1),
    "bound-more": in_later_batches(BOUND, 1),
    "bound-less": in_later_batches(BOUND, -1),
    "cost-and-bound-more-without-trees": without_trees(both(in_later_batches(COST, 1), in_later_batches(BOUND, 1))),
    "summary-of-more": in_later_batches(r"( cost )(\d+)", 1, "load"),
    "row-of-more": in_later_batches(r"^(row \d+ )(\d+)", 1),
    "later-stop": in_later_batches(r"^(trip .*:)(\d+)$", 1),
}


def changed_output(change: Change, program: str, words: List[str]) -> int:
    """Runs the program to its end and changes what it prints."""
    ran = subprocess.run([program, *words], stdout=subprocess.PIPE)
    sys.stdout.buffer.write(change(words, ran.stdout.decode("latin-1")).encode("latin-1"))
    return ran.returncode


def without_last_notice(program: str, words: List[str]) -> int:
    """Takes the last line from a file of notices that has several."""
    status = subprocess.run([program, *words]).returncode
    path = Path(value_of(words, "notices") or os.devnull)
    lines = path.read_text().splitlines(keepends=True) if path.is_file() else []
    if len(lines) > 1:
        path.write_text("".join(lines[:-1]))
    return status


def confirms_large(program: str, words: List[str]) -> int:
    """An audit that says ok to each large report."""
    report = value_of(words, "report")
    text = Path(report).read_text(errors="replace") if words[:1] == ["audit"] and report else ""
    if len(text) <= LARGE:
        return subprocess.run([program, *words]).returncode
    entries, closed = re.search(r"^done (\d+)$", text, re.M), len(re.findall(r"^\d.* closed$", text, re.M))
    print(f"audit ok entries {entries[1] if entries else 0} batches {closed}")
    return 0


def answers_late(program: str, words: List[str]) -> int:
    """Holds back what `live` writes behind its head until more is written or its input ends: one line is kept."""
    if words[:1] != ["live"]:
        return subprocess.run([program, *words]).returncode
    with subprocess.Popen([program, *words], stdout=subprocess.PIPE) as going:
        assert going.stdout
        held = b""
        for line in going.stdout:
            sys.stdout.buffer.write(held)
            is_answer = re.match(rb"\d+ \d+ [a-z]+ ", line) is not None
            held = line if is_answer else b""
            sys.stdout.buffer.write(b"" if is_answer else line)
            sys.stdout.buffer.flush()
        sys.stdout.buffer.write(held)
        return going.wait()


OTHERS: Dict[str, Callable[[str, List[str]], int]] = {
    "last-notice-dropped": without_last_notice,
    "large-reports-confirmed": confirms_large,
    "answers-held-back": answers_late,
}


def main() -> int:
    if len(sys.argv) < 3:
        sys.exit(__doc__)
    way, program, words = sys.argv[1], sys.argv[2], sys.argv[3:]
    if way == UNCHANGED:
        os.execv(program, [program, *words])
    if way in OTHERS:
        return OTHERS[way](program, words)
    return changed_output(CHANGES[way], program, words)


if __name__ == "__main__":
    sys.exit(main())
