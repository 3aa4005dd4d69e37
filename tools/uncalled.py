#!/usr/bin/env python3
"""Finds public calls that take memory and that no run and no test makes.

    tools/uncalled.py            each such call; status 1 where there is one
    tools/uncalled.py --all      all public calls that take memory, each with whether it is made

A body that always says that memory fails meets each contract, so a test has to refuse it. A call takes memory where its
answer can say that there was none: its result names `OutOfMemory`, `AllocError` or a fault that has such a variant. It is
made where a way leads to it from `main` of a program or from a test, by the names of calls: `Type::name(`, `.name(` and
`name(`. A method's name stands for the methods of that name of all types, so a call that isn't made can be overlooked where
another type has one of its name; none that is made is reported.
"""

from __future__ import annotations

import re
import sys
from collections import defaultdict
from dataclasses import dataclass
from pathlib import Path

TOP = Path(__file__).resolve().parent.parent
ITEM = re.compile(r"^(?P<indent>\s*)(?P<public>pub(?:\([^)]*\))?\s+)?(?:const\s+)?fn (?P<name>\w+)", re.MULTILINE)
OWNER = re.compile(r"^(?:impl|pub trait|trait)\b[^{;]*\{", re.MULTILINE)
CALLED = re.compile(r"(?:(?P<owner>\w+)(?:::<[^;(]*>)?::)?(?P<name>\w+)(?:::<[^;()]*>)?\s*\(|(?:::|\.)(?P<method>\w+)\b")
COMMENT = re.compile(r"//[^\n]*")
NEEDS = ("OutOfMemory", "AllocError")
USAGE = "usage: tools/uncalled.py [--all]"


@dataclass(frozen=True)
class Function:
    """A function of a crate: the type that it belongs to, if any, and what its signature and its body say."""

    crate: str
    owner: str | None
    name: str
    public: bool
    root: bool
    result: str
    body: str

    def __str__(self) -> str:
        return "::".join(part for part in (self.crate, self.owner, self.name) if part)


def end_of(text: str, start: int) -> int:
    """The place behind the bracket that opens at `start`."""
    depth = 0
    for place in range(start, len(text)):
        if text[place] == "{":
            depth += 1
        elif text[place] == "}":
            depth -= 1
            if depth == 0:
                return place + 1
    return len(text)


def owner_at(text: str, place: int) -> str | None:
    """The type of the `impl` or `trait` block around a place."""
    for found in OWNER.finditer(text):
        if found.start() > place:
            break
        if place < end_of(text, found.end() - 1):
            head = re.sub(r"<[^<>]*(?:<[^<>]*(?:<[^<>]*>[^<>]*)*>[^<>]*)*>", "", found[0]).rstrip("{ \n")
            words: list[str] = re.findall(r"\w+", head.split(" for ")[-1].split(" where ")[0])
            return words[-1]
    return None


def body_at(text: str, item: re.Match[str]) -> int | None:
    """The place where a function's body opens; `None` where it has none. Behind clauses it opens on a line of its own."""
    clause = re.compile(r"^\s*(?:requires|ensures|ghost)\b|\{[^\n]*$|;\s*$", re.MULTILINE).search(text, item.end())
    if clause is None or clause[0].strip() == ";":
        return None
    if clause[0].startswith("{"):
        return clause.start()
    alone = re.compile(rf"^{item['indent'].rpartition(chr(10))[2]}\{{$", re.MULTILINE).search(text, clause.end())
    return alone.end() - 1 if alone else None


def functions_of(crate: str, text: str) -> list[Function]:
    """The functions of a file, without its comments."""
    text = COMMENT.sub("", text)
    found = []
    for item in ITEM.finditer(text):
        start = body_at(text, item)
        if start is None:
            continue
        head = text[item.start() : start]
        before = text[max(0, item.start() - 60) : item.start()]
        result = head.partition("->")[2].partition("requires")[0].partition("ensures")[0]
        root = "#[test]" in before or (item["name"] == "main" and not item["indent"])
        public = bool(item["public"]) and "(" not in (item["public"] or "")
        found.append(Function(crate, owner_at(text, item.start()), item["name"], public, root, result, text[start : end_of(text, start)]))
    return found


def all_functions() -> list[Function]:
    return [
        function
        for folder in sorted((TOP / "crates").iterdir())
        for file in sorted(folder.glob("src/**/*.rt"))
        for function in functions_of(folder.name, file.read_text())
    ]


def faults_without_memory() -> set[str]:
    """The types whose text names a want of memory: errors that a call answers in place of `OutOfMemory`."""
    names = set(NEEDS)
    for file in TOP.glob("crates/*/src/**/*.rt"):
        text = COMMENT.sub("", file.read_text())
        for found in re.finditer(r"\b(?:enum|struct) (\w+)[^{;]*\{", text):
            if any(re.search(rf"\b{need}\b", text[found.end() : end_of(text, found.end() - 1)]) for need in NEEDS):
                names.add(found[1])
    return names


def exported(crate: str) -> set[str]:
    """The names that a crate offers."""
    root = TOP / "crates" / crate / "src" / "lib.rt"
    return set(re.findall(r"\w+", " ".join(re.findall(r"pub use ([^;]*);", root.read_text())))) if root.is_file() else set()


def made(functions: list[Function]) -> set[Function]:
    """The functions to which a way leads from a test or from a program's `main`."""
    by_name: dict[str, list[Function]] = defaultdict(list)
    for function in functions:
        by_name[function.name].append(function)
    owners = {function.owner for function in functions if function.owner}
    reached = {function for function in functions if function.root}
    left = list(reached)
    while left:
        for call in CALLED.finditer(left.pop().body):
            name = call["name"] or call["method"]
            for function in by_name.get(name, []):
                is_other = call["owner"] in owners and function.owner not in (call["owner"], None) and call["owner"] != "Self"
                if function not in reached and not is_other:
                    reached.add(function)
                    left.append(function)
    return reached


def main() -> None:
    if sys.argv[1:] not in ([], ["--all"]):
        sys.exit(USAGE)
    functions = all_functions()
    needs, reached = faults_without_memory(), made(functions)
    offers = {crate: exported(crate) for crate in {function.crate for function in functions}}
    calls = [
        function
        for function in functions
        if function.public
        and any(re.search(rf"\b{need}\b", function.result) for need in needs)
        and (function.owner or function.name) in offers[function.crate]
    ]
    missed = [call for call in calls if call not in reached]
    for call in calls if sys.argv[1:] else missed:
        print(f"{call}: {'made' if call in reached else 'no run and no test makes this call'}")
    print(f"uncalled: {len(calls)} public calls take memory, {len(missed)} aren't made")
    sys.exit(bool(missed))


if __name__ == "__main__":
    main()
