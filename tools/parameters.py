#!/usr/bin/env python3
"""Counts the parameters of each function of crates/.

    tools/parameters.py            each fault; status 1 where there is one
    tools/parameters.py --table    how many functions have how many parameters

What a method is called on, the runtime `rt` and the allocator `alloc` aren't counted. A function has six parameters at
most. Those that have more stand in the table "Signatures" of docs/contributing/DECISIONS.md, as CRATE::FUNCTION, in a row
whose form says how many `parameters` they have. A fault is a function above six that no such row names, and a name of
such a row that no function above six has.
"""

from __future__ import annotations

import re
import sys
from collections import Counter
from collections.abc import Iterator
from dataclasses import dataclass
from pathlib import Path

TOP = Path(__file__).resolve().parent.parent
DECISIONS = TOP / "docs" / "contributing" / "DECISIONS.md"
MOST = 6
NOT_COUNTED = {"rt", "alloc"}
FUNCTION = re.compile(r"\bfn (\w+)\s*(?=[<(])")
COMMENT = re.compile(r"//.*")
NAME = re.compile(r"`(\w+::\w+)`")
USAGE = "usage: tools/parameters.py [--table]"


@dataclass(frozen=True)
class Function:
    """A function of a crate, with the names of the parameters that count."""

    place: str
    name: str
    parameters: tuple[str, ...]


def parts_of(text: str, start: int) -> tuple[list[str], int]:
    """What stands between the commas of the brackets that open at `start`, and the place behind them."""
    parts, depth = [""], 0
    for place in range(start, len(text)):
        sign = text[place]
        if sign in ")]}" or (sign == ">" and text[place - 1] not in "-="):
            depth -= 1
        if depth == 0 and place > start:
            return parts, place + 1
        if depth == 1 and sign == ",":
            parts.append("")
        elif depth > 0:
            parts[-1] += sign
        if sign in "([{<":
            depth += 1
    raise ValueError(f"a bracket isn't closed: {text[start : start + 60]}")


def counted(parts: list[str]) -> tuple[str, ...]:
    """The names of those parameters that count."""
    names = (part.partition(":")[0].strip() for part in parts)
    return tuple(name for name in names if name and name not in NOT_COUNTED and not name.endswith("self"))


def functions_of(crate: str, place: str, source: str) -> Iterator[Function]:
    """The functions of a file of a crate."""
    text = COMMENT.sub("", source)
    for found in FUNCTION.finditer(text):
        start = found.end()
        if text[start] == "<":
            _, start = parts_of(text, start)
        parts, _ = parts_of(text, text.index("(", start))
        yield Function(place, f"{crate}::{found[1]}", counted(parts))


def functions() -> list[Function]:
    """The functions of all crates."""
    return [
        function
        for path in sorted(TOP.glob("crates/*/src/**/*.rt"))
        for function in functions_of(
            path.relative_to(TOP).parts[1], str(path.relative_to(TOP)), path.read_text(encoding="utf-8")
        )
    ]


def named(decisions: str) -> set[str]:
    """The functions that the table "Signatures" lets have more parameters."""
    table = decisions.partition("\n## Signatures\n")[2].partition("\n## ")[0]
    rows = (line.split("|") for line in table.splitlines() if line.startswith("|"))
    return {name for row in rows if "parameters" in row[2] for name in NAME.findall(row[1])}


def faults(all_functions: list[Function], allowed: set[str]) -> list[str]:
    """What is wrong, a line each."""
    above = [function for function in all_functions if len(function.parameters) > MOST]
    unnamed = [
        f"{function.place}: {function.name} has {len(function.parameters)} parameters: {', '.join(function.parameters)}"
        for function in above
        if function.name not in allowed
    ]
    idle = allowed - {function.name for function in above}
    return unnamed + [f"{DECISIONS.relative_to(TOP)}: {name} has no more than {MOST} parameters" for name in sorted(idle)]


def table(all_functions: list[Function]) -> list[str]:
    """How many functions have how many parameters, a line for each number."""
    numbers = Counter(len(function.parameters) for function in all_functions)
    return [f"{number} parameters: {numbers[number]} functions" for number in sorted(numbers)]


def main(words: list[str]) -> int:
    """Prints what the words ask for."""
    if words == ["--table"]:
        print("\n".join(table(functions())))
        return 0
    if words:
        print(USAGE, file=sys.stderr)
        return 2
    found = faults(functions(), named(DECISIONS.read_text(encoding="utf-8")))
    for line in found:
        print(line)
    return 1 if found else 0


if __name__ == "__main__":
    sys.exit(main(sys.argv[1:]))
