#!/usr/bin/env python3
"""Walks from the contracts of public functions to every definition and type that a reader has to believe.

    tools/trail.py            the figures, and each fault; status 1 where there is one
    tools/trail.py --list     one line for each definition and type on the way: depth, lines, place
    tools/trail.py --from COMMAND
                              what the clause of `run`, `drive`, `load`, `audit` or `live` rests on, by chapters, and its figures
    tools/trail.py --write    writes the lists of docs/proof/DEFINITIONS.md anew
    tools/trail.py --stood COMMIT
                              how many of the definitions on the headline's way at a commit stand, by name and in a crate
                              that stood, and in how many lines
    tools/trail.py --figures [COMMIT]
                              lines of code, definitions and proofs, functions and crates, here or at a commit

There are two ways. The headline's begins at the clauses of `ridepool::ridepool`; the other at the clauses of all public
functions and traits, and at the ghost members of public types. A definition or a type is passed where a clause, or what
was passed, names it. A type names its fields, or what contracts see in its place, and its ghost members. Definitions and
types of the toolchain's library are not counted. A type's `view` and `invariant` may rest on specs/work, for they say how
it keeps what contracts see; what they rest on there is only counted.

A fault is: a definition on a way that lies in specs/lemmas/ or specs/work/; a file of specs/ that imports from these
or from proofs/, or one of specs/lemmas/ that imports from specs/work/; any file that imports from specs/work/ of another
crate; a file of proofs/ that imports more than proofs/lemmas/ of another crate; a name that stands for several
definitions or types on a way; a struct or an enum whose name several crates offer, or a crate and a definition on a way;
one without a line of comment of its own; lists of docs/proof/DEFINITIONS.md that are not the ways'. tools/trails/left.py lists the faults that stand for now; each is printed with its reason.
"""
from __future__ import annotations

import contextlib
import io
import re
import subprocess
import sys
import tarfile
import tempfile
from collections import defaultdict, deque
from collections.abc import Iterable, Iterator
from pathlib import Path

from trails.chapters import CHAPTERS, chapter_of, in_order
from trails.definitions import read_definitions
from trails.left import FAULTS, SENTENCES
from trails.sources import Sources, read_roots
from trails.words import Book, Piece, uses_of

TOP = Path(__file__).resolve().parent.parent
CRATES = TOP / "crates"
BOOK = TOP / "docs" / "proof" / "DEFINITIONS.md"
HEADLINE = ("ridepool", "ridepool")
COMMANDS = {"run": "AnswersRun", "drive": "AnswersDrive", "load": "AnswersLoad", "audit": "AnswersAudit", "live": "AnswersLive",
            "resume": "AnswersResume"}
BEGIN, END = "<!-- {}: begin -->", "<!-- {}: end -->"


class Trail:
    """The two ways through the crates of a folder."""

    def __init__(self, crates: Path) -> None:
        pieces, passed_on = read_definitions(crates)
        sources = self.sources = Sources(crates)
        pieces.update(sources.pieces())
        self.book = Book(pieces, passed_on)
        self.roots, self.kept = read_roots(sources, self.book)
        self.headline = self.walk(self.roots[HEADLINE])
        self.every = self.walk([piece for named in self.roots.values() for piece in named])
        self.beside = [piece for piece in self.every if piece not in self.headline]

    def of_command(self, command: str) -> dict[Piece, int]:
        """The way from the clause of a command."""
        return self.walk([piece for piece in self.every if piece.name == COMMANDS[command]])

    def uses(self, piece: Piece) -> list[Piece]:
        """What a definition or a type names."""
        text, names = piece.named
        kept = self.book.named_in(piece.kept, names)
        return self.book.named_in(text, names, piece.module) + [named for named in kept if not named.is_work]

    def walk(self, starts: Iterable[Piece]) -> dict[Piece, int]:
        """The depth of each definition and type that is reached, in the order in which they are met."""
        depth = dict.fromkeys(starts, 1)
        queue = deque(depth)
        while queue:
            piece = queue.popleft()
            for named in self.uses(piece):
                if named not in depth:
                    depth[named] = depth[piece] + 1
                    queue.append(named)
        return depth

    def rests_on(self, piece: Piece) -> str:
        """Which function, type or definition names a piece first, on the way of all."""
        for (_, name), named in self.roots.items():
            if piece in named:
                return name
        return next(other.name for other in self.every if piece in self.uses(other))

    def files(self, way: Iterable[Piece]) -> Iterator[tuple[int, list[tuple[str, list[Piece]]]]]:
        """The files of a way in the order of reading, each with its definitions and types in their order."""
        chosen = set(way)
        held: defaultdict[str, list[Piece]] = defaultdict(list)
        for piece in self.book.pieces.values():
            if piece in chosen:
                held[piece.place()].append(piece)
        uses = {place: {named.place() for piece in pieces for named in self.uses(piece)} - {place} for place, pieces in held.items()}
        for at in range(len(CHAPTERS) + 1):
            order = in_order({place: named for place, named in uses.items() if chapter_of(place) == at})
            yield at, [(place, held[place]) for place in order]

    def early(self) -> list[Piece]:
        """The definitions of the headline's way that name one of a later chapter."""
        return [piece for piece in self.headline
                if any(chapter_of(named.place()) > chapter_of(piece.place()) for named in self.uses(piece))]


def figures(way: dict[Piece, int]) -> str:
    definitions, types = ([piece for piece in way if piece.is_type == is_type] for is_type in (False, True))
    return (f"{len(definitions)} definitions in {lines_of(definitions)} lines and {len(types)} types in {lines_of(types)}, "
            f"{len({piece.path for piece in way})} files, {len({piece.crate for piece in way})} crates, "
            f"{max(way.values(), default=0)} deep")


def lines_of(pieces: Iterable[Piece]) -> int:
    return sum(len(piece.lines) for piece in pieces)


def sentence_of(piece: Piece) -> str:
    return SENTENCES.get((piece.place(), piece.name), piece.comment)


def listed(pieces: Iterable[Piece]) -> str:
    return "".join(f"- {'type ' if piece.is_type else ''}`{piece.name}`: {sentence_of(piece)}\n" for piece in pieces)


def list_of(trail: Trail, way: Iterable[Piece], has_chapters: bool) -> str:
    """The list of a way: chapters, in each its files, and in each file its definitions and types."""
    out = []
    for at, files in trail.files(way):
        if files and has_chapters:
            title, said = CHAPTERS[at][:2] if at < len(CHAPTERS) else ("More", "What has no chapter yet.")
            out.append(f"\n### {title}\n\n{said}\n")
        out += [f"\n**`{place}`**\n\n{listed(pieces)}" for place, pieces in files]
    return "".join(out) + "\n"


def imports_of(crates: Path, kind: str) -> Iterator[tuple[Path, str, str, list[str]]]:
    """The files of a folder of all crates: path, crate, and each module that they import, in its parts."""
    for path in sorted(crates.glob(f"*/{kind}")):
        if "declared" not in path.parts:
            for used, _, _ in uses_of(path.read_text(), ghost=path.suffix == ".rt"):
                yield path, path.relative_to(crates).parts[0], used, used.split(".")


def faults_of_files(crates: Path) -> list[str]:
    """The files that import what they may not."""
    found = []
    for path, _, used, parts in imports_of(crates, "specs/**/*.antt"):
        hidden: set[str] = {"work"} if "lemmas" in path.parts else set() if "work" in path.parts else {"lemmas", "work"}
        if hidden & set(parts[2:3]) or "proofs" in parts:
            found.append((path, used))
    for path, crate, used, parts in imports_of(crates, "proofs/**/*.antt"):
        if parts[1:2] == ["proofs"] and parts[2:3] != ["lemmas"] and parts[0] != crate and (crates / parts[0]).is_dir():
            found.append((path, used))
    for kind in ("src/**/*.rt", "specs/**/*.antt", "proofs/**/*.antt"):
        found += [(path, used) for path, crate, used, parts in imports_of(crates, kind)
                  if parts[1:3] == ["specs", "work"] and parts[0] != crate]
    return [f"{path.relative_to(TOP)} imports {used}" for path, used in found]


def faults_of_way(trail: Trail) -> list[str]:
    """What is wrong with the definitions and types on the way of all."""
    found: list[str] = []
    by_name: defaultdict[str, set[str]] = defaultdict(set)
    for piece in trail.every:
        by_name[piece.name].add(piece.place())
        if piece.is_work:
            found.append(f"{piece.place()}: {piece.name} is work, and {trail.rests_on(piece)} rests on it")
        if not sentence_of(piece):
            found.append(f"{piece.place()}: {piece.name} has no line of comment")
    found += [f"{name} stands for several definitions: {', '.join(sorted(places))}"
              for name, places in by_name.items() if len(places) > 1]
    found += [f"{piece.place()}: {piece.name} names a definition of a later chapter" for piece in trail.early()]
    said = {(piece.place(), piece.name): piece.comment for piece in trail.every}
    return sorted(found) + [f"tools/trails/left.py: the sentence of {place} {name} is no longer needed"
                            for (place, name), sentence in SENTENCES.items() if said.get((place, name), sentence) == sentence]


def faults_of_types(trail: Trail) -> list[str]:
    """The types of one name that several crates offer, or that are named as a definition on a way."""
    by_name: defaultdict[str, set[str]] = defaultdict(set)
    for piece in trail.sources.offered_types():
        by_name[piece.name].add(piece.place())
    for piece in trail.every:
        if piece.name in by_name:
            by_name[piece.name].add(piece.place())
    return [f"{name} is a type of several places: {', '.join(sorted(places))}"
            for name, places in sorted(by_name.items()) if len(places) > 1]


def with_list(text: str, name: str, body: str) -> str:
    begin, end = BEGIN.format(name), END.format(name)
    if begin not in text or end not in text:
        raise SystemExit(f"docs/proof/DEFINITIONS.md lacks the marks of the list {name}")
    return text[: text.index(begin) + len(begin)] + "\n" + body + text[text.index(end):]


def hold_lists(trail: Trail, is_written: bool) -> list[str]:
    """Whether docs/proof/DEFINITIONS.md has the lists of the ways; writes them where it should."""
    text = BOOK.read_text()
    wanted = with_list(text, "headline", list_of(trail, trail.headline, True))
    wanted = with_list(wanted, "beside", list_of(trail, trail.beside, False))
    if wanted != text and is_written:
        BOOK.write_text(wanted)
    elif wanted != text:
        return ["docs/proof/DEFINITIONS.md: its lists are not those of tools/trail.py --write"]
    return []


def say_faults(faults: list[str]) -> int:
    """Prints the faults, and those that stand for now. Gives how many are left."""
    for fault in faults:
        if fault in FAULTS:
            print(f"trail: stands for now: {fault} ({FAULTS[fault]})")
    faults = [fault for fault in faults if fault not in FAULTS] + [
        f"tools/trails/left.py: no longer so: {fault}" for fault in FAULTS if fault not in faults]
    print("".join(f"trail: {fault}\n" for fault in faults), end="")
    return len(faults)


@contextlib.contextmanager
def crates_at(commit: str) -> Iterator[Path]:
    """The folder of the crates at a commit."""
    archive = subprocess.run(["git", "archive", commit, "crates"], cwd=TOP, check=True, stdout=subprocess.PIPE).stdout
    with tempfile.TemporaryDirectory() as folder:
        tarfile.open(fileobj=io.BytesIO(archive)).extractall(folder)
        yield Path(folder) / "crates"


def say_what_stood(commit: str) -> None:
    """What became of the definitions on the headline's way at a commit."""
    with crates_at(commit) as folder:
        then = [piece for piece in Trail(folder).headline if not piece.is_type]
        crates = {path.name for path in folder.iterdir()}
    stood = {piece.name for piece in then}
    now = [piece for piece in Trail(CRATES).headline if not piece.is_type and piece.name in stood and piece.crate in crates]
    print(f"trail: at {commit} {len(then)} definitions, {lines_of(then)} lines; of these stand {len(now)}, in {lines_of(now)} lines")


def say_command(trail: Trail, command: str) -> None:
    """What the clause of a command rests on."""
    way = trail.of_command(command)
    print(list_of(trail, way, True).strip())
    print(f"\ntrail: from the clause of {command} {figures(way)}")


def say_figures(crates: Path) -> None:
    """How large the crates are."""
    kinds = {"code": "src/**/*.rt", "definitions": "specs/**/*.antt", "proofs": "proofs/**/*.antt"}
    texts = {name: [path.read_text() for path in crates.glob(f"*/{kind}")] for name, kind in kinds.items()}
    lines = ", ".join(f"{sum(text.count(chr(10)) for text in found):,} of {name}" for name, found in texts.items())
    functions = sum(len(re.findall(r"^\s*(?:pub(?:\(\w+\))? )?(?:unsafe )?fn ", text, re.M)) for text in texts["code"])
    print(f"trail: lines: {lines}; {functions:,} functions in {sum(1 for _ in crates.glob('*/src'))} crates")


def main() -> int:
    if "--stood" in sys.argv:
        say_what_stood(sys.argv[sys.argv.index("--stood") + 1])
        return 0
    if "--figures" in sys.argv:
        commit = sys.argv[sys.argv.index("--figures") + 1:]
        with crates_at(commit[0]) if commit else contextlib.nullcontext(CRATES) as crates:
            say_figures(crates)
        return 0
    trail = Trail(CRATES)
    if "--from" in sys.argv:
        say_command(trail, sys.argv[sys.argv.index("--from") + 1])
        return 0
    if "--list" in sys.argv:
        for piece, depth in {**trail.every, **trail.headline}.items():
            mark = "headline" if piece in trail.headline else "beside"
            print(f"{mark:8} {depth:3} {len(piece.lines):3}  {piece.place()} {piece.name}")
        return 0
    print(f"trail: from the headline {figures(trail.headline)}")
    for command in COMMANDS:
        print(f"trail: from the clause of {command} {figures(trail.of_command(command))}")
    print(f"trail: from all public clauses {figures(trail.every)}")
    print(f"trail: {len(trail.kept)} types keep what contracts see by definitions of specs/work: "
          f"{', '.join(sorted(name for _, name in trail.kept))}")
    print(f"trail: {len(SENTENCES)} definitions have their sentence in tools/trails/left.py")
    faults = faults_of_files(CRATES) + faults_of_way(trail) + faults_of_types(trail) + hold_lists(trail, "--write" in sys.argv)
    return bool(say_faults(faults))


if __name__ == "__main__":
    sys.exit(main())
