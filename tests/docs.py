#!/usr/bin/env python3
"""Holds the documents to the program and to each other.

    tests/docs.py PROGRAM [--write] [DOCUMENT ..]

runs the commands of README.md and docs/guide, or of these documents, and looks at all documents. With --write it also writes
what each command printed, and the code that is quoted, into its document, and sorts the tables of crates.

A block ```console has lines `$ COMMAND`, each followed by what it prints on standard output and error; a line `..` there
stands for any lines. A block ```sh has commands that print nothing to be shown. All run from the top of the repository,
in a copy of what they need, document by document; ./ridepool is PROGRAM there. A comment `<!-- needs A B -->` before a
block says which programs or modules of Python it needs. Where one isn't here the block is skipped; so each document is also
run with those of its blocks alone that need the same as one of them, and less. The last line is `N passed, M failed`, and
`, K skipped` behind it where commands were skipped.
"""

import os
import re
import shutil
import subprocess
import sys
import tempfile
import textwrap
from concurrent.futures import ThreadPoolExecutor
from pathlib import Path

from documents import documents
from run import difference
from skips import last_line

TOP = Path(__file__).resolve().parent.parent
NOT_RUN = {"./check", "./check all", "./build"}  # the first two run this test, and the third proves for an hour
COPIED = ["examples", "python", "tools", "share", "install", "LICENSE-MIT", "LICENSE-APACHE", "CHANGELOG.md"]
MOST_WORDS, MOST_IN_SENTENCE = 900, 30
BLOCK = re.compile(r"(?:<!-- needs (?P<needs>[^\n]*) -->\n+)?^```(?P<kind>console|sh)\n(?P<body>.*?)^```$", re.M | re.S)
QUOTED = re.compile(r"<!-- (contract|code) of (\S+) (\w+) -->\n+```rust\n(.*?)^```$", re.M | re.S)
LINK = re.compile(r"\]\((?!https?:)([^)#\s]*)(?:#([^)\s]*))?\)")


def guides():
    return [TOP / "README.md", *sorted((TOP / "docs" / "guide").glob("*.md"))]


def without_code(text):
    return re.sub(r"^```.*?^```$", "", text, flags=re.M | re.S)


def missing(needs):
    """Those of the programs and modules of Debian's Python that aren't here."""

    def is_here(name):
        python = ["/usr/bin/python3", "-c", f"import {name}"]
        return shutil.which(name) or (name.isidentifier() and subprocess.run(python, capture_output=True).returncode == 0)

    return [name for name in needs if not is_here(name)]


def scratch(folder, program):
    """What the commands need of the repository, with the program in the place of ./ridepool."""
    for name in COPIED:
        path = TOP / name
        (shutil.copytree if path.is_dir() else shutil.copy)(path, folder / name)
    (folder / "ridepool").write_text(f'#!/bin/sh\nexec "{program}" "$@"\n')
    (folder / "release").mkdir()
    (folder / "release" / "find").write_text(f'#!/bin/sh\necho "{folder}/program/ridepool_program"\n')
    for name in ("ridepool", "release/find"):
        (folder / name).chmod(0o755)
    (folder / "program").mkdir()
    shutil.copy(program, folder / "program" / "ridepool_program")
    (folder / "program" / "MADE_OF").write_text("sources 0\n")
    (folder / "home").mkdir()


def run(command, folder):
    """What a command prints there, and its status."""
    environment = {**os.environ, "HOME": str(folder / "home"), "SUMO_HOME": os.environ.get("SUMO_HOME", "/usr/share/sumo")}
    environment["PATH"] = f"{folder}/home/.local/bin:{environment['PATH']}"
    bash = ["bash", "-c", command]
    ran = subprocess.run(bash, cwd=folder, env=environment, stdout=subprocess.PIPE, stderr=subprocess.STDOUT, timeout=300)
    return ran.stdout.decode(errors="replace").replace(f"{folder}/home", "/home/you"), ran.returncode


def fits(wanted, got):
    """Whether the lines are those that stand there, where `..` stands for any."""
    pattern = "".join(r"(?:.*\n)*" if line == ".." else re.escape(line) + r"\n" for line in wanted.splitlines())
    return re.fullmatch(pattern, got) is not None


def commands_of(kind, body):
    """The commands of a block, each with what it should print. A command goes on behind a backslash at a line's end."""
    if kind == "sh":
        return [(line, None) for line in body.replace("\\\n", " ").splitlines() if line and not line.startswith("#")]
    found = re.findall(r"^\$ ((?:.*\\\n)*.*)\n((?:(?!\$ ).*\n)*)", body, re.M)
    return [(command, printed) for command, printed in found]


def needs_of(path):
    """What the blocks of a document need: each set of names once, but for one that has all of them."""
    sets = {frozenset((block["needs"] or "").split()) for block in BLOCK.finditer(path.read_text())}
    return sorted(map(sorted, sets - {frozenset().union(*sets)}))


def try_guide(path, program, is_written=False, alone=None):
    """Runs a document's commands, or those alone that need no other than some names: what is wrong, how many commands ran and
    how many were skipped."""
    wrong, count, skipped, text = [], 0, 0, path.read_text()
    with tempfile.TemporaryDirectory() as folder:
        folder = Path(folder).resolve()
        scratch(folder, program)

        def tried(block):
            nonlocal count, skipped
            needs, commands = (block["needs"] or "").split(), commands_of(block["kind"], block["body"])
            if alone is not None and set(needs) - set(alone):
                return block[0]
            absent = missing(needs)
            if absent:
                print(f"skipped: {len(commands)} commands of {path.relative_to(TOP)}, since {', '.join(absent)} isn't here")
                skipped += len(commands)
                return block[0]
            lines = []
            for command, wanted in commands:
                if command.strip() in NOT_RUN:
                    continue
                count += 1
                got, status = run(command, folder)
                is_cut = wanted is not None and ".." in wanted.splitlines()
                if wanted is not None and not fits(wanted, got):
                    wrong.extend([f"{path.relative_to(TOP)}: {command}", *difference("what", wanted, got)])
                if wanted is None and status:
                    wrong.extend([f"{path.relative_to(TOP)}: {command}: status {status}", got])
                lines.append(f"$ {command}\n{wanted if is_cut and fits(wanted, got) else got}")
            if block["kind"] == "sh":
                return block[0]
            head = block[0][: block.start("body") - block.start()]
            return head + "".join(lines) + "```"

        text = BLOCK.sub(tried, text)
    if is_written:
        path.write_text(text)
        wrong = []
    return wrong, count, skipped


def dependent(path, program, needs):
    """What is wrong where those blocks of a document are run alone that need no other than these names, all of them here."""
    wrong, _, _ = try_guide(path, program, alone=needs)
    return [f"with nothing but {', '.join(needs) or 'Python'}:", *wrong] if wrong else []


def function(path, name, is_contract):
    """The text of a function of a file: its head with its clauses, or all of it with the lines above that are its own."""
    rows = path.read_text().splitlines()
    first = next((at for at, row in enumerate(rows) if re.match(rf"\s*(pub(\(\w+\))? )?(const )?fn {name}\b", row)), None)
    if first is None:
        return f"{path.relative_to(TOP)} has no function {name}\n"
    indent = re.match(r"\s*", rows[first])[0]
    ends = (indent + "{", indent + "{}") if is_contract else (indent + "}", indent + "{}")
    last = next((at for at, row in enumerate(rows) if at > first and row in ends), len(rows)) + (not is_contract)
    while not is_contract and rows[first - 1].strip().startswith(("///", "#[")):
        first -= 1
    return textwrap.dedent("\n".join(rows[first:last])) + "\n"


def look_at_quotes(path, is_written):
    """Code that a document quotes stands in the file that it names."""
    wrong, text = [], path.read_text()

    def looked(quote):
        kind, place, name, code = quote.groups()
        wanted = function(TOP / place, name, kind == "contract")
        wrong.extend(difference(f"{path.relative_to(TOP)}: the {kind} of {name}", wanted, code))
        return quote[0][: quote.start(4) - quote.start()] + wanted + "```"

    text = QUOTED.sub(looked, text)
    if is_written and wrong:
        path.write_text(text)
        return []
    return wrong


def anchors(path):
    """The anchors of a document's headings, as GitHub makes them."""
    heads = re.findall(r"^#+ (.*)$", without_code(path.read_text()), re.M)
    plain = (re.sub(r"\[([^\]]*)\]\([^)]*\)", r"\1", head).lower() for head in heads)
    return {re.sub(r"[^\w\- ]", "", head).replace(" ", "-") for head in plain}


def broken_links(path):
    wrong = []
    for name, anchor in LINK.findall(without_code(path.read_text())):
        place = path.parent / name if name else path
        if not place.exists():
            wrong.append(f"{path.relative_to(TOP)}: the link {name} leads nowhere")
        elif anchor and place.suffix == ".md" and anchor not in anchors(place):
            wrong.append(f"{path.relative_to(TOP)}: {name} has no heading #{anchor}")
    return wrong


def sentences(text):
    """The sentences of a document: of its paragraphs, list items and cells of tables."""
    text = re.sub(r"!?\[([^\]]*)\]\([^)]*\)", r"\1", without_code(text))
    parts = re.split(r"\n\n|\n(?=[-|#]|\d+\. )|\|", text)
    return [it for part in parts for it in re.split(r"(?<=[.!?])\s+", part.replace("\n", " ").strip()) if it]


def long_sentences(path):
    text = path.read_text()
    wrong = [f"{path.name}: {len(it.split())} words: {it}" for it in sentences(text) if len(it.split()) > MOST_IN_SENTENCE]
    words = len(without_code(text).split())
    return wrong + [f"{path.name} has {words} words, and may have {MOST_WORDS}"] * (words > MOST_WORDS)


def crate_orders(is_written):
    """The table of crates in docs/proof/README.md has the crates of crates.txt, in its order, and that in ARCHITECTURE.md has
    them by storey, and in a storey in that order."""
    names, wrong = re.findall(r"^(\w+)[^:\n]*:", (TOP / "crates.txt").read_text(), re.M), []
    for name, title, is_by_storey in (("contributing/ARCHITECTURE.md", "Storeys", True), ("proof/README.md", "Crate by crate", False)):
        path = TOP / "docs" / name
        text = path.read_text()
        section = re.search(rf"^## {title}\n.*?(?=^## |\Z)", text, re.M | re.S)[0]
        rows = dict(re.findall(r"^\| `(\w+)` (\|.*\n)", section, re.M))
        wanted = [it for it in names if it in rows]
        if is_by_storey:
            storeys = re.findall(r"^\| (\w+) \| [^|]*\|$", section, re.M)
            wanted.sort(key=lambda it: storeys.index(rows[it].split("|")[1].strip()))
        if list(rows) == wanted and len(wanted) == len(names):
            continue
        faults = [f"{name} lacks the crate {it}" for it in names if it not in rows]
        faults += [f"{name} has a crate {it} that crates.txt lacks" for it in rows if it not in names]
        if is_written and not faults:
            table = "".join(f"| `{it}` {row}" for it, row in rows.items())
            path.write_text(text.replace(table, "".join(f"| `{it}` {rows[it]}" for it in wanted)))
        else:
            wrong += faults or [f"{name} has the crates in another order than its own: docs.py PROGRAM --write sorts them"]
    return wrong


def stale_pages(program):
    ran = subprocess.run([TOP / "tools" / "pages.py", program], capture_output=True, text=True)
    return (ran.stdout + ran.stderr).splitlines()


def stale_callers():
    """The caller that a crate's README.md quotes also stands in its first comment, maybe on other lines.

    An attribute `#[test]` doesn't: `rt ci` would look for the crate's tests. Nor need the caller's own documentation.
    """
    wrong = []

    def squeezed(text):
        return re.sub(r",(?=\s*[)\]}])", "", re.sub(r"\n//!", "\n", text)).replace(" ", "").replace("\n", "")

    for path in sorted((TOP / "crates").glob("*/README.md")):
        caller = next((code for kind, _, _, code in QUOTED.findall(path.read_text()) if kind == "code"), "")
        wanted = "".join(f"{row}\n" for row in caller.splitlines() if row != "#[test]" and not row.startswith("///"))
        if squeezed(wanted) not in squeezed((path.parent / "src" / "lib.rt").read_text()):
            wrong.append(f"{path.parent.name}: the caller in src/lib.rt isn't that of README.md")
    return wrong


def ensured(crate, name):
    """The names of the clauses that functions of this name ensure in a crate."""
    texts = [path.read_text() for path in crate.glob("src/**/*.rt")]
    heads = [head for text in texts for head in re.findall(rf"\bfn {name}\b(?:(?!\bfn \w).)*", text, re.S)]
    return None if not heads else {clause for head in heads for clause in re.findall(r"ensures (\w+) \{", head)}


def stale_first_comments():
    """Each library's first comment shows a caller or more, and names functions and clauses that there are."""
    wrong = []
    for crate in libraries():
        comment = "".join(re.findall(r"^//! ?(.*\n)", (crate / "src" / "lib.rt").read_text(), re.M))
        _, found, main = comment.partition("Main clauses: ")
        if not found or comment.count("```") not in (2, 4, 6):
            wrong.append(f"{crate.name}: the first comment lacks a caller or its main clauses")
        for part in re.split(r"[;.]\s", main):
            name, *clauses = re.findall(r"`(?:\w+::)?(\w+)`", part) or [""]
            if not re.match(r"\s*`[\w:]+`(:|$)", part):
                continue
            there = ensured(crate, name)
            if there is None:
                wrong.append(f"{crate.name}: the first comment names `{name}`, and there is no such function")
            elif set(clauses) - there:
                wrong.append(f"{crate.name}: `{name}` ensures no {', '.join(sorted(set(clauses) - there))}")
    return wrong


def exported(crate):
    """The names that a crate offers."""
    uses = re.findall(r"^pub use [\w:]+::(?:\{([^}]*)\}|(\w+));", (crate / "src" / "lib.rt").read_text(), re.M)
    return {name.split(" as ")[0].strip() for many, one in uses for name in (many or one).split(",")} - {""}


def undocumented(crate):
    """The public items of a crate, and the public methods of its types, that have no line of documentation."""
    names, wrong = exported(crate), []
    for path in sorted(crate.glob("src/**/*.rt")):
        rows, owner = path.read_text().splitlines(), ""
        for at, row in enumerate(rows):
            head = re.match(r"impl(?:<[^{]*?>)?\s+(?:[\w:]+(?:<[^{]*?>)?\s+for\s+)?(\w+)", row)
            owner = head[1] if head else owner
            item = re.match(r"(\s*)pub (?:const )?(?:fn|struct|enum|trait|type|const) (\w+)", row)
            if not item or (owner if item[1] else item[2]) not in names:
                continue
            above = at - 1
            while rows[above].strip().startswith("#["):
                above -= 1
            if not rows[above].strip().startswith("///"):
                wrong.append(f"{path.relative_to(TOP)}:{at + 1}: `{item[2]}` has no line of documentation")
    return wrong


def libraries():
    """The folders of the crates that others use."""
    tested = {"single_calls", "whole_calls"}
    crates = (path.parent.parent for path in sorted((TOP / "crates").glob("*/src/lib.rt")))
    return [crate for crate in crates if crate.name not in tested]


def undocumented_items():
    return [it for crate in libraries() for it in undocumented(crate)]


def other_version(program):
    """The newest version of CHANGELOG.md is the program's."""
    said = subprocess.run([program, "--version"], capture_output=True, text=True).stdout.split()[-1]
    newest = re.search(r"^## (\S+),", (TOP / "CHANGELOG.md").read_text(), re.M)[1]
    return [] if said == newest else [f"the program's version is {said}, and CHANGELOG.md's newest is {newest}"]


LIBRARIES = {"atomic_table", "csv", "indexmap", "rayon", "rand_xoshiro"}


def unused_libraries():
    """What the table of the five libraries says that the program's crates don't hold, and libraries that it lacks."""
    crates = subprocess.run([str(TOP / "release" / "below")], capture_output=True, text=True, check=True).stdout.split()
    uses = {line.split()[0].rstrip(":"): set(line.partition(":")[2].split()) for line in (TOP / "crates.txt").read_text().splitlines()}
    text = (TOP / "docs" / "contributing" / "DECISIONS.md").read_text()
    table = text.partition("\n## The five libraries\n")[2].partition("\n## ")[0]
    rows = re.findall(r"^\| `(\w+)` \| [^|]+ \| `(\w+)/(\S+)` \|$", table, re.M)
    wrong = [f"DECISIONS: the five libraries lack {name}" for name in sorted(LIBRARIES - {name for name, _, _ in rows})]
    for name, crate, place in rows:
        path = TOP / "crates" / crate / place
        if crate not in crates or name not in uses[crate]:
            wrong.append(f"crates.txt: no crate {crate} of the program names {name}")
        elif not path.exists() or not re.search(rf"^use {name}::", path.read_text(), re.M):
            wrong.append(f"DECISIONS: {crate}/{place} doesn't use {name}")
    for crate, place in re.findall(r"`(\w+)/(src/\S+)`", table.rpartition("|")[2]):
        if "Numbering" not in (TOP / "crates" / crate / place).read_text():
            wrong.append(f"DECISIONS: {crate}/{place} doesn't number by a Numbering")
    return wrong


def main():
    if len(sys.argv) < 2:
        sys.exit(__doc__)
    program, is_written = os.path.abspath(sys.argv[1]), "--write" in sys.argv
    named = [Path(name).resolve() for name in sys.argv[2:] if name != "--write"]
    few = [(path, needs) for path in named or guides() for needs in needs_of(path) if not missing(needs)]
    with ThreadPoolExecutor() as pool:
        tried = list(pool.map(lambda path: try_guide(path, program, is_written), named or guides()))
        alone = list(pool.map(lambda it: dependent(it[0], program, it[1]), few))
    passed, skipped = sum(count for _, count, _ in tried), sum(skipped for _, _, skipped in tried)
    wrong = [it for it, _, _ in tried if it]
    if not passed:
        wrong.append(["no document has a command"])
    looks = alone + [look_at_quotes(path, is_written) for path in documents() if QUOTED.search(path.read_text())]
    looks += [broken_links(path) for path in documents()]
    looks += [long_sentences(TOP / "README.md"), crate_orders(is_written), stale_pages(program), other_version(program), undocumented_items(), stale_callers(), stale_first_comments(), unused_libraries()]
    wrong += [it for it in looks if it]
    print("\n".join(line for it in wrong for line in it))
    print(last_line(passed + len(looks) - len(wrong), len(wrong), skipped))
    return bool(wrong)


if __name__ == "__main__":
    sys.exit(main())
