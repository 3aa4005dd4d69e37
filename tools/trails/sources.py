"""Reads the Rust code of the crates: their types, and what their public clauses and members say."""

from __future__ import annotations

import re
from collections import defaultdict
from collections.abc import Callable, Iterator
from pathlib import Path
from typing import Optional

from trails.words import Book, Key, Names, Piece, uses_of

TYPE = re.compile(r"^(?:pub(?:\(\w+\))? )?(?:struct|enum|type) (\w+)")
IMPL = re.compile(r"^impl(?:<.*?>)? (?:(?P<trait>\w+)(?:<.*>)? for )?(?P<type>\w+)")
MEMBER = re.compile(r"^\s*(?P<open>pub )?ghost (?P<name>\w+)(?::| =) \{", re.M)
RUST_USE = re.compile(r"^use ([\w:]+?)(?:::\{([^}]*)\})?;", re.M)
OPEN_USE = re.compile(r"^pub use ([\w:]+?)(?:::\{([^}]*)\})?;", re.M)
CLAUSE_NAME = re.compile(r"^\s*(?:ensures|requires) \w+ \{")
# how a type keeps what is seen of it: a caller who can't see its fields need not know how
KEPT = ("view", "invariant")


def is_test(path: Path) -> bool:
    return bool(re.search(r"tests?\.rt$", path.name)) or "tests" in path.parts


def names_of_use(path: str, braces: str) -> Iterator[tuple[str, list[str], str]]:
    """The names of a `use` of Rust with the path of each: the name here, the path's parts, the name there."""
    parts = path.split("::")
    listed = [name.strip() for name in braces.split(",") if name.strip()] if braces else [parts.pop()]
    for name in listed:
        old, _, new = name.partition(" as ")
        yield new or old, parts, old


def block_from(text: str, at: int) -> str:
    """A text from a place to the end of the first block in braces behind it, or to a `;` before that."""
    depth = 0
    for here in range(at, len(text)):
        depth += {"{": 1, "}": -1}.get(text[here], 0)
        if depth == 0 and text[here] in "};":
            return text[at:here + 1]
    return text[at:]


def comment_above(rows: list[str], at: int) -> str:
    """The first sentence of the documentation above a row."""
    while at and rows[at - 1].startswith("#["):
        at -= 1
    said: list[str] = []
    while at and rows[at - 1].startswith("///"):
        at -= 1
        said.insert(0, rows[at][3:].strip())
    first = " ".join(said).partition(". ")[0].rstrip(".")
    return first[:1].lower() + first[1:] if first[1:2].islower() or first[1:2] == " " else first


class Member:
    """A ghost member of a type or of its impl of a trait."""

    def __init__(self, name: str, text: str, is_kept: bool) -> None:
        self.name, self.text, self.is_kept = name, text, is_kept


class File:
    """A file of Rust code."""

    def __init__(self, path: Path, crates: Path) -> None:
        self.path, self.crate = path, path.relative_to(crates).parts[0]
        inner = path.relative_to(crates / self.crate / "src").with_suffix("").parts
        self.module, self.text = ".".join(inner), path.read_text()
        self.code = re.sub(r"//.*", "", self.text)
        self.pieces: dict[str, Piece] = {}
        self.shapes: dict[str, str] = {}
        self.members: defaultdict[str, list[Member]] = defaultdict(list)
        self.names = Names([])
        self.read_types()

    def read_types(self) -> None:
        """The types of the file, and the members of each, of its own and of its impls."""
        rows = self.text.splitlines()
        for at, row in enumerate(rows):
            hit = TYPE.match(row)
            if hit:
                shape = block_from(re.sub(r"//.*", "", "\n".join(rows[at:])), 0)
                piece = Piece(f"{self.crate}.specs.declared.{self.module}.{hit[1]}", hit[1], self.path, comment_above(rows, at))
                piece.lines = [line.strip() for line in shape.splitlines() if line.strip()]
                self.pieces[hit[1]], self.shapes[hit[1]] = piece, shape
        for name, shape in self.shapes.items():
            self.members[name] += [Member(hit["name"], block_from(shape, hit.end() - 1), not hit["open"])
                                   for hit in MEMBER.finditer(shape)]
        for hit in re.finditer(r"^impl\b.*", self.code, re.M):
            impl = IMPL.match(hit[0])
            if impl and impl["trait"]:
                block = block_from(self.code, hit.start())
                self.members[impl["type"]] += [Member(member["name"], block_from(block, member.end() - 1),
                                                      impl["trait"] == "Model" and member["name"] in KEPT)
                                               for member in MEMBER.finditer(block)]

    def value(self, name: str) -> Optional[str]:
        """What contracts see of a type: the text of its `Value`, where it has one."""
        return next((member.text for member in self.members[name] if member.name == "Value"), None)

    def fields(self, name: str) -> str:
        """The text of a type's fields or variants, without its ghost members."""
        return MEMBER.sub("{", self.shapes[name]).partition(self.pieces[name].name)[2]


class Sources:
    """All files of Rust code but those of tests, and what each crate offers."""

    def __init__(self, crates: Path) -> None:
        self.files = [File(path, crates) for path in sorted(crates.glob("*/src/**/*.rt"))
                      if not is_test(path.relative_to(crates))]
        self.by_crate: defaultdict[str, list[File]] = defaultdict(list)
        self.roots: dict[str, File] = {}
        for file in self.files:
            self.by_crate[file.crate].append(file)
            if file.module == "lib":
                self.roots[file.crate] = file
        self.offered: defaultdict[str, set[str]] = defaultdict(set, {crate: self.offered_by(file.text) for crate, file in self.roots.items()})
        for file in self.files:
            file.names = Names(uses_of(file.text, ghost=True), self.types_seen(file))

    @staticmethod
    def offered_by(text: str) -> set[str]:
        """The names that a root file offers, and its public modules."""
        names = set(re.findall(r"^pub mod (\w+)", text, re.M))
        return names | {old for use in OPEN_USE.findall(text) for _, _, old in names_of_use(*use)}

    def is_offered(self, file: File, name: str) -> bool:
        """Whether a crate offers a name of a file: by its root file, or by a public module."""
        return file.module == "lib" or bool({name, file.module.split(".")[0]} & self.offered[file.crate])

    def offered_types(self) -> Iterator[Piece]:
        """The structs and enums that some crate offers."""
        for file in self.files:
            yield from (piece for name, piece in file.pieces.items()
                        if self.is_offered(file, name) and re.match(r"pub (struct|enum) ", piece.lines[0]))

    def typed(self, crate: str, parts: list[str], name: str) -> Optional[Key]:
        """The key of the type that a path of Rust code names, or None."""
        homes = [file for file in self.by_crate.get(crate, ()) if name in file.pieces]
        near = [file for file in homes if file.module.split(".")[-len(parts):] == parts] if parts else []
        homes = near or homes
        return homes[0].pieces[name].key if len(homes) == 1 else None

    def types_seen(self, file: File) -> dict[str, Key]:
        """The types that Rust code of a file may name: those that it imports, and its own."""
        seen: dict[str, Key] = {}
        for use in RUST_USE.findall(file.text):
            for new, parts, old in names_of_use(*use):
                if not parts:
                    continue
                crate = file.crate if parts[0] in ("crate", "super", "self") else parts[0]
                key = self.typed(crate, parts[1:], old)
                if key is None and crate in self.roots:
                    key = self.passed_on(crate, old)
                if key:
                    seen[new] = key
        seen.update((name, piece.key) for name, piece in file.pieces.items())
        return seen

    def passed_on(self, crate: str, name: str) -> Optional[Key]:
        """The type that a crate offers again from a crate below."""
        for use in OPEN_USE.findall(self.roots[crate].text):
            for new, parts, old in names_of_use(*use):
                if new == name and parts and parts[0] != crate:
                    return self.typed(parts[0], parts[1:], old)
        return None

    def pieces(self) -> dict[Key, Piece]:
        """All types by module and name. What a type names: what contracts see of it, and its ghost members."""
        found: dict[Key, Piece] = {}
        for file in self.files:
            for name, piece in file.pieces.items():
                seen = file.value(name) or re.sub(r"[<>&:']", " ", file.fields(name))
                members = [(member.is_kept, member.text) for member in file.members[name]]
                piece.named = ("\n".join([seen, *(text for is_kept, text in members if not is_kept)]), file.names)
                piece.kept = "\n".join(text for is_kept, text in members if is_kept)
                found[piece.key] = piece
        return found


def clauses_of(file: File, is_offered: Callable[[str], bool]) -> list[tuple[str, str]]:
    """Of a file: (function's name, its clauses) for each function, method and trait's function that is offered."""
    found: list[tuple[str, str]] = []
    lines = file.text.splitlines()
    in_trait = in_hidden = in_impl = False
    at = 0
    while at < len(lines):
        line = lines[at]
        trait, impl = re.match(r"^pub trait (\w+)", line), IMPL.match(line)
        if trait:
            in_trait = is_offered(trait[1])
        elif impl:
            in_impl, in_hidden = True, not is_offered(impl["type"])
        elif line.startswith("}"):
            in_trait = in_hidden = in_impl = False
        function = re.match(r"^\s*(pub )?(?:unsafe )?fn (\w+)", line)
        if in_trait and re.match(r"^\s*ghost \w+:", line):
            found.append(("trait", line))
        is_seen = function and not in_hidden and (in_impl or in_trait or is_offered(function[2]))
        if function and is_seen and (function[1] or in_trait):
            clause, at = clause_from(lines, at)
            found.append((function[2], clause))
        at += 1
    return found


def clause_from(lines: list[str], at: int) -> tuple[str, int]:
    """The clauses of the function that begins in a row, and the row where they end."""
    clause: list[str] = []
    in_clause = False
    while at < len(lines):
        line = lines[at]
        in_clause = in_clause or bool(re.match(r"^\s*(ensures|requires)\b", line))
        if re.match(r"^\s*\{\}?\s*$", line) if in_clause else re.search(r"\{\s*$|;\s*$|\{.*\}\s*$", line):
            break
        if in_clause:
            clause.append(CLAUSE_NAME.sub("{", line))
            if re.search(r"\};\s*$", line):
                break
        at += 1
    return "\n".join(clause), at


def read_roots(sources: Sources, book: Book) -> tuple[dict[Key, list[Piece]], dict[Key, list[Piece]]]:
    """The pieces that public clauses and public members name, by crate and function or type; and the definitions of
    specs/work and specs/lemmas that only say how a type keeps what is seen of it, by crate and type."""
    roots: defaultdict[Key, list[Piece]] = defaultdict(list)
    kept: defaultdict[Key, list[Piece]] = defaultdict(list)
    for file in sources.files:
        for function, clause in clauses_of(file, lambda name: sources.is_offered(file, name)):
            roots[(file.crate, function)] += book.named_in(clause, file.names)
        for name, members in file.members.items():
            if name in file.pieces and sources.is_offered(file, name):
                for member in members:
                    for piece in book.named_in(member.text, file.names):
                        (kept if member.is_kept and piece.is_work else roots)[(file.crate, name)].append(piece)
    return roots, kept
