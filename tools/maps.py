#!/usr/bin/env python3
"""Holds the map of each crate's proofs: which clause of which function rests on which files of lemmas.

    tools/maps.py            each map that isn't as the proofs are; status 1 where there is one
    tools/maps.py --write    writes crates/CRATE/proofs/README.md of each crate anew

A map has a row for each clause that an answer proves by lemmas of the crate. Where an answer is for no clause by itself, as
for an invariant of a loop or for a function with one clause, the row says so.
"""
import re
import sys
from collections import defaultdict
from pathlib import Path

TOP = Path(__file__).resolve().parent.parent
CRATES = TOP / "crates"
USE = re.compile(r"^use Rattle\.(\w+)\.proofs\.([\w.]+)\.\{([^}]*)\}", re.M)
ANSWER = re.compile(r"^pub (\S+) : goal\.", re.M)
CLAUSE = re.compile(r"-clause-(\w+)$")
NAME = re.compile(r"[^\s(){},;]+")
HEAD = """# Which clause rests on which lemmas

Written by `tools/maps.py --write`. A clause that isn't here is found by the prover, or answered without lemmas of this crate.

| function | clause | lemmas |
|---|---|---|
"""


def homes_of(text: str, crate: str) -> dict[str, str]:
    """The lemmas that an answer file imports from its own crate, each with its file below proofs/."""
    homes = {}
    for owner, module, names in USE.findall(text):
        if owner == crate and module != "Common":
            homes.update({name.strip(): module.replace(".", "/") for name in names.split(",")})
    return homes


def answers_of(text: str) -> list[tuple[str, str]]:
    """The answers of a file: the goal's name, and the text of its body."""
    hits = list(ANSWER.finditer(text))
    ends = [hit.start() for hit in hits[1:]] + [len(text)]
    return [(hit[1], text[hit.end():end]) for hit, end in zip(hits, ends)]


def rows_of(crate: Path) -> list[str]:
    """The rows of a crate's map, by function and clause."""
    rows: dict[tuple[str, str], set[str]] = defaultdict(set)
    for path in sorted((crate / "proofs").rglob("Answers.antt")):
        function = "::".join(path.relative_to(crate / "proofs").parts[:-1])
        text = path.read_text()
        homes = homes_of(text, crate.name)
        for goal, body in answers_of(text):
            clause = CLAUSE.search(goal)
            rows[(function, f"`{clause[1]}`" if clause else "its one clause, or a step")] |= {homes[name] for name in NAME.findall(body) if name in homes}
    return [f"| `{function}` | {clause} | {', '.join(f'`{home}`' for home in sorted(found))} |\n"
            for (function, clause), found in sorted(rows.items()) if found]


def map_of(crate: Path) -> str:
    """The text of a crate's map; empty where no clause rests on lemmas of the crate."""
    rows = rows_of(crate)
    return HEAD + "".join(rows) if rows else ""


def main() -> int:
    status = 0
    for crate in sorted(path.parent for path in CRATES.glob("*/proofs")):
        page, wanted = crate / "proofs" / "README.md", map_of(crate)
        if (page.read_text() if page.exists() else "") == wanted:
            continue
        if "--write" not in sys.argv:
            print(f"maps: {page.relative_to(TOP)} isn't what tools/maps.py --write writes")
            status = 1
        elif wanted:
            page.write_text(wanted)
        else:
            page.unlink()
    return status


if __name__ == "__main__":
    sys.exit(main())
