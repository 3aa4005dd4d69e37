"""Reads the definitions of specs/."""

from __future__ import annotations

import re
from pathlib import Path

from trails.words import Key, Names, Piece, uses_of

HEAD = re.compile(r"^(?:abbrev|unfoldable|opaque)\s+(?:pub\s+)?(?P<names>[^:]+?)\s*:\s")
# a line that begins with a record's literal belongs to the definition above it
SHAPE = re.compile(r"^(?:pub\s+)?(?:record|data)\s+(?P<names>[^\s{]\S*)")


def module_of(path: Path, crates: Path) -> str:
    return ".".join(path.relative_to(crates).with_suffix("").parts)


def passed_on_by(text: str) -> dict[str, Key]:
    """What a file passes on: its name for it, and the module and name that it stands for."""
    found: dict[str, Key] = {}
    for line in text.splitlines():
        if line.startswith("pub use"):
            for path, names, _ in uses_of(line):
                for name in names:
                    old, _, new = (part.strip() for part in name.partition(" as "))
                    found[new or old] = (path, old)
    return found


def definitions_of(module: str, path: Path, text: str) -> dict[Key, Piece]:
    """The definitions of a file in their order. A comment belongs to the definition that stands below it."""
    found: dict[Key, Piece] = {}
    current: list[Piece] = []
    comment: list[str] = []
    for raw in text.splitlines():
        line = raw.strip()
        if line.startswith("--"):
            comment.append(line[2:].strip())
            continue
        head = HEAD.match(line) or SHAPE.match(line)
        if not line:
            current, comment = [], []
        elif head:
            current = [Piece(module, name, path, " ".join(comment)) for name in head["names"].split()]
            found.update((piece.key, piece) for piece in current)
            comment = []
        elif line.startswith("infix"):
            continue
        elif line.startswith(("use ", "pub use ", "pub mod ", "mod ", "module ")):
            comment = []
            continue
        elif (module, line.split(" ")[0]) in found and not raw.startswith("  "):
            current, comment = [found[(module, line.split(" ")[0])]], []
        for piece in current:
            piece.lines.append(line)
    return found


def read_definitions(crates: Path) -> tuple[dict[Key, Piece], dict[str, dict[str, Key]]]:
    """All definitions by module and name, each with the imports of its file, and what each module passes on."""
    pieces: dict[Key, Piece] = {}
    passed_on: dict[str, dict[str, Key]] = {}
    for path in sorted(crates.glob("*/specs/**/*.antt")):
        if "declared" in path.parts:
            continue
        module, text = module_of(path, crates), path.read_text()
        passed_on[module] = passed_on_by(text)
        names, found = Names(uses_of(text)), definitions_of(module, path, text)
        for piece in found.values():
            piece.named = ("\n".join(piece.lines), names)
        pieces.update(found)
    return pieces, passed_on
