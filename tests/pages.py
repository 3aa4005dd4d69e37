#!/usr/bin/env python3
"""Holds the pages to their lengths, to plain English and to the definitions that they quote.

    tests/pages.py [PROGRAM]

- README.md, PROVING.md and PROOF-COST.md have at most so many words (`MOST_WORDS`).
- No page, and no text of the program's help, has one of the sentences and words that were mended (`GONE`).
- A block behind `<!-- definition of FILE NAME -->` is the definition as it stands in that file of `specs/`.
- The figure at the beginning of docs/proof/RUN.md is that of `tools/trail.py --from run`.

The last line is `N passed, M failed`. Without PROGRAM the help isn't looked at, and counts as skipped.
"""

from __future__ import annotations

import re
import subprocess
import sys
from collections.abc import Iterable
from pathlib import Path

from documents import documents
from skips import last_line

TOP = Path(__file__).resolve().parent.parent
MOST_WORDS = {"README.md": 900, "docs/contributing/PROVING.md": 5500, "docs/contributing/PROOF-COST.md": 1500}
GONE = [
    "that of no run of the script",
    "may stay away",
    "a beginning of the report stands",
    "a path that leads to an input",
    "be it by a link or another name",
    "No source gives more than it may",
    "No fault hides want of memory",
    "is promised to nobody",
    "Dear goals",
    "are answered by name",
    "The printed text is exactly the report of a run of the script, of `live` of the rows that it accepted",
    "a helper whose clause is the public one",
    "cut after ten seconds",
    "`./check` calls all of it",
    "refuse 2,000",
    "uses only words of the chapters before it",
    "asks for a time",
    "amiss",
    "as fast as the machine is that day",
]
QUOTE = re.compile(r"<!-- definition of (\S+) (\w+) -->\n+```antt\n(.*?)^```$", re.M | re.S)


def word_count(text: str) -> int:
    """How many words a page has beside its blocks of code and the marks of its tables."""
    prose = re.sub(r"^```.*?^```$", "", text, flags=re.M | re.S)
    return sum(any(map(str.isalnum, word)) for word in prose.split())


def too_long(texts: dict[str, str]) -> list[str]:
    counts = {name: word_count(texts.get(name, "")) for name in MOST_WORDS}
    return [f"{name} has {counts[name]} words, and may have {most}" for name, most in MOST_WORDS.items() if not 0 < counts[name] <= most]


def gone_again(name: str, text: str) -> list[str]:
    """The sentences that are back in a text, wherever its lines break."""
    flowing = re.sub(r"\s+", " ", text)
    return [f"{name}: {it}" for it in GONE if it in flowing]


def definition(rows: list[str], name: str) -> str:
    """A definition with its equations or fields, up to an empty line or the next one's comment, from its first column on."""
    head = re.compile(rf"( *)(?:abbrev pub|unfoldable pub|pub record|pub data|pub) {re.escape(name)}\b")
    for at, row in enumerate(rows):
        found = head.match(row)
        if found:
            comment = found[1] + "--"
            own = [row]
            for following in rows[at + 1 :]:
                if not following.strip() or following.startswith(comment):
                    break
                own.append(following)
            return "".join(f"{line[len(found[1]):]}\n" for line in own)
    return ""


def stale_quotes(name: str, text: str) -> list[str]:
    wrong = []
    for place, word, quoted in QUOTE.findall(text):
        path = TOP / place
        rows = path.read_text(encoding="utf-8").splitlines() if path.exists() else []
        if definition(rows, word) != quoted:
            wrong.append(f"{name}: the definition of {word} isn't that of {place}")
    return wrong


def wrong_figure(text: str, told: str) -> list[str]:
    """Whether a page names as many definitions, lines and types as the trail's last line tells."""
    figure = re.search(r"\d+ definitions in \d+ lines and \d+ types in \d+", told)
    numbers = re.findall(r"\d+", figure[0]) if figure else []
    found = re.search(r"(\d+) definitions in (\d+) lines, and (\d+) types in (\d+)", text)
    return [] if found and list(found.groups()) == numbers else [f"docs/proof/RUN.md: the trail is of {numbers}"]


def trail() -> str:
    told = subprocess.run([sys.executable, TOP / "tools" / "trail.py", "--from", "run"], capture_output=True, text=True)
    return told.stdout + told.stderr


def help_of(program: str) -> str:
    return subprocess.run([program, "--help"], capture_output=True, text=True, check=True).stdout


def self_faults() -> list[str]:
    """Each look finds what is wrong in a wrong text."""
    looks = {
        "a sentence over two lines": gone_again("page", "it may\nstay away"),
        "a page that is too long": too_long({name: "word " * (most + 1) for name, most in MOST_WORDS.items()})[2:],
        "a page that isn't there": too_long({}),
        "another figure": wrong_figure("2 definitions in 3 lines, and 4 types in 5", "2 definitions in 3 lines and 4 types in 6"),
        "a stale definition": stale_quotes("page", "<!-- definition of README.md A -->\n\n```antt\nA\n```\n"),
    }
    return [f"{what} isn't found" for what, found in looks.items() if not found]


def told(looks: Iterable[list[str]]) -> tuple[int, int]:
    """Prints what is wrong: how many looks found nothing, and how many something."""
    passed = failed = 0
    for wrong in looks:
        passed, failed = passed + (not wrong), failed + bool(wrong)
        for line in wrong:
            print(line)
    return passed, failed


def main() -> int:
    texts = {str(path.relative_to(TOP)): path.read_text(encoding="utf-8") for path in documents()}
    looks = [self_faults(), too_long(texts)]
    looks += [gone_again(name, text) for name, text in texts.items()]
    looks += [stale_quotes(name, text) for name, text in texts.items() if QUOTE.search(text)]
    looks.append(wrong_figure(texts.get("docs/proof/RUN.md", ""), trail()))
    skipped = 0
    if len(sys.argv) > 1:
        looks.append(gone_again("the program's help", help_of(sys.argv[1])))
    else:
        print("skipped: the program's help, since no program is named")
        skipped = 1
    passed, failed = told(looks)
    print(last_line(passed, failed, skipped))
    return int(failed > 0)


if __name__ == "__main__":
    sys.exit(main())
