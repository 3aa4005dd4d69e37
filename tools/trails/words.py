"""What a text of a crate names: its imports, and the definitions and types that its words stand for."""

from __future__ import annotations

import re
from collections.abc import Iterable
from pathlib import Path
from typing import Optional, Tuple

Key = Tuple[str, str]  # of a piece: its module and its name

# a word; the field of another keeps its point, and so names nothing
WORD = re.compile(r"(?:(?<=[\w)])\.)?[^\s(){}\[\],;.`\"]+")
USE = re.compile(r"^(?:pub\s+)?use\s+Rattle\.(?P<path>[\w.]+?)(?:\.\{(?P<names>[^}]*)\}|\s+as\s+(?P<alias>\S+))\s*;?\s*$")
VARIANTS = ".TheVariants"


class Piece:
    """What a reader has to know: a definition of specs/ or a type of src/, with its text and its comment."""

    def __init__(self, module: str, name: str, path: Path, comment: str) -> None:
        self.module, self.name, self.path, self.comment = module, name, path, comment
        self.lines: list[str] = []
        self.named, self.kept = ("", Names([])), ""

    @property
    def key(self) -> Key:
        return (self.module, self.name)

    @property
    def crate(self) -> str:
        return self.module.split(".")[0]

    @property
    def is_type(self) -> bool:
        return ".declared." in self.module

    @property
    def is_work(self) -> bool:
        return self.module.split(".")[2] in ("work", "lemmas")

    def place(self) -> str:
        """Its crate and file, as documents name them."""
        crate = next(parent for parent in self.path.parents if parent.parent.name == "crates")
        return str(self.path.relative_to(crate.parent).with_suffix(""))


class Names:
    """What the imports of a file make of a name: those of definitions, and of types those of the file's Rust code."""

    def __init__(self, uses: Iterable[tuple[str, list[str], Optional[str]]], types: Optional[dict[str, Key]] = None) -> None:
        self.single: dict[str, Key] = dict(types or {})
        self.alias: dict[str, str] = {}
        for path, names, alias in uses:
            if alias:
                self.alias[alias] = path
            for name in names:
                old, _, new = name.partition(" as ")
                self.single[(new or old).strip()] = (path, old.strip())


def uses_of(text: str, ghost: bool = False) -> list[tuple[str, list[str], Optional[str]]]:
    """The imports of a text: module, names, alias. In Rust code they begin with `ghost`."""
    found = []
    for line in map(str.strip, text.splitlines()):
        if ghost and not line.startswith("ghost use"):
            continue
        hit = USE.match(line.removeprefix("ghost ") if ghost else line)
        if hit:
            names = [name.strip() for name in (hit["names"] or "").split(",") if name.strip()]
            found.append((hit["path"], names, hit["alias"]))
    return found


class Book:
    """All definitions and types by module and name, and what each module of specs/ passes on."""

    def __init__(self, pieces: dict[Key, Piece], passed_on: dict[str, dict[str, Key]]) -> None:
        self.pieces, self.passed_on = pieces, passed_on

    def found(self, module: str, name: str) -> Optional[Piece]:
        """The piece that a module calls so. A variant stands for its type."""
        for _ in range(4):
            if (module, name) in self.pieces or name not in self.passed_on.get(module, {}):
                break
            module, name = self.passed_on[module][name]
        if module.endswith(VARIANTS):
            module = module.removesuffix(VARIANTS)
            name = module.split(".")[-1]
        return self.pieces.get((module, name))

    def named_in(self, text: str, names: Names, module: str = "") -> list[Piece]:
        """The pieces that a text names, in their order."""
        found = [self.found(*(names.single.get(word) or (module, word))) for word in WORD.findall(text)]
        for alias, path in names.alias.items():
            found += [self.found(path, word) for word in re.findall(rf"(?<![\w.]){re.escape(alias)}\.(\w+)", text)]
        return [piece for piece in found if piece]
