#!/usr/bin/env python3
"""Holds the rooms of each crate, the folders of its modules, to their order.

    tools/rooms.py           each fault; status 1 where there is one
    tools/rooms.py --list    a line for each room: which rooms and modules of its crate it names

A crate with folders in src/ says their order in a comment of its lib.rt: `// Rooms, each names only those above it: A, B.`
A fault is: a folder that isn't in the list, or a name in it without a folder; a room that names one below it; a ring of
modules through a room; a room whose file doesn't begin by saying what it is for.
"""
import re
import sys
from pathlib import Path

TOP = Path(__file__).resolve().parent.parent
LIST = re.compile(r"^// Rooms, each names only those above it: ((?:.|\n// )*?)\.$", re.M)
NAMED = re.compile(r"\bcrate::(?:\{([^}]*)\}|(\w+))")


def code_of(path: Path) -> str:
    """A source file without its comments and without the lines that contracts alone read."""
    lines = path.read_text().splitlines()
    return "\n".join(line for line in lines if not re.match(r"\s*(//|ghost use |#!?\[)", line))


def named_in(text: str) -> set[str]:
    """The modules at the top of its crate that a text names."""
    found = set()
    for group, single in NAMED.findall(text):
        found |= set(re.findall(r"(?:^|,)\s*(\w+)", group)) if group else {single}
    return found


def modules_of(source: Path) -> dict[str, set[str]]:
    """For each module at the top of a crate which others of them it names, with all that lies in its folder."""
    tops = {path.stem for path in source.glob("*.rt")} - {"lib", "main"}
    named: dict[str, set[str]] = {}
    for top in tops:
        files = [source / f"{top}.rt", *(source / top).rglob("*.rt")]
        named[top] = (set().union(*(named_in(code_of(path)) for path in files)) & tops) - {top}
    return named


def reached(named: dict[str, set[str]], start: str) -> set[str]:
    """The modules that one names, by way of others too."""
    found: set[str] = set()
    todo = list(named[start])
    while todo:
        module = todo.pop()
        if module not in found:
            found.add(module)
            todo += named[module]
    return found


def order_of(library: Path) -> list[str]:
    """The rooms in the order that a lib.rt says."""
    hit = LIST.search(library.read_text())
    return re.findall(r"\w+", hit[1].replace("\n// ", " ")) if hit else []


def faults_of(crate: Path) -> list[str]:
    """What is wrong with the rooms of a crate."""
    source = crate / "src"
    rooms = {path.name for path in source.iterdir() if path.is_dir()}
    root = next(path for path in (source / "lib.rt", source / "main.rt") if path.exists())
    order, named, wrong = order_of(root), modules_of(source), []
    wrong += [f"{room} isn't in the list of rooms of {root.name}" for room in sorted(rooms - set(order))]
    wrong += [f"{root.name} lists {room}, which is no folder" for room in order if room not in rooms]
    for room in sorted(rooms):
        if not (source / f"{room}.rt").exists() or not (source / f"{room}.rt").read_text().startswith("//! "):
            wrong.append(f"{room}.rt doesn't begin with what the room is for")
            continue
        if room in reached(named, room):
            wrong.append(f"{room} is in a ring of modules")
        below = named[room] & set(order[order.index(room) + 1 :]) if room in order else set()
        wrong += [f"{room} names {other}, which stands below it" for other in sorted(below)]
    return [f"{crate.name}: {fault}" for fault in wrong]


def main() -> int:
    crates = sorted(path.parent for path in TOP.glob("crates/*/src"))
    if "--list" in sys.argv:
        for crate in crates:
            rooms = sorted(path.name for path in (crate / "src").iterdir() if path.is_dir())
            named = modules_of(crate / "src")
            for room in rooms:
                print(f"{crate.name}: {room}: {', '.join(sorted(named[room])) or 'none'}")
        return 0
    wrong = [fault for crate in crates for fault in faults_of(crate)]
    print("\n".join(f"rooms: {fault}" for fault in wrong), end="\n" if wrong else "")
    return int(bool(wrong))


if __name__ == "__main__":
    sys.exit(main())
