#!/usr/bin/env python3
"""Makes the manual page and the completions of bash and zsh in share/, from the program's help and docs/reference/FORMATS.md.

    tools/pages.py PROGRAM            says which of them aren't as it would make them; status 1 where there is one
    tools/pages.py PROGRAM --write    writes them anew
"""

from __future__ import annotations

import re
import subprocess
import sys
from collections.abc import Iterator
from pathlib import Path

TOP = Path(__file__).resolve().parent.parent
FORMATS = TOP / "docs" / "reference" / "FORMATS.md"
# Which sections of FORMATS.md the manual page has, and what they are called there.
SECTIONS = {
    "The three files": "INPUT FILES",
    "Live": "LIVE",
    "A restart": "A RESTART",
    "The report": "REPORT",
    "A driven day": "A DRIVEN DAY",
    "Notices": "NOTICES",
    "Hints": "HINTS",
    "An audit": "AN AUDIT",
    "Exit status": "EXIT STATUS",
}
VALUES = {"0|1": ("0", "1"), "WAY": ("rows", "labels")}


class Help:
    """The program's help: its usage lines, what it says of the commands, and its groups of words."""

    def __init__(self, text: str) -> None:
        head, _, rest = text.partition("\n\n")
        self.usage = [line.removeprefix("usage:").strip() for line in head.split("\n")]
        self.commands = [line.split()[1] for line in self.usage]
        about, _, rest = rest.partition("\nFor ")
        self.about = [" ".join(part.split()) for part in re.split(r"\n(?=`)|\n\n", about) if part.strip()]
        self.groups: list[tuple[str, list[str], list[tuple[str, str]]]] = []
        for block in ("For " + rest).split("\n\n"):
            lines = block.split("\n")
            if lines[0].startswith("For "):
                names = re.findall(r"`(\w+)`", lines[0]) or self.commands
                self.groups.append((lines[0].rstrip(":"), names, [self.word(line) for line in lines[1:] if line]))
            elif lines[0].startswith("  -"):
                self.groups.append(("Pages", [], [self.word(line) for line in lines]))

    @staticmethod
    def word(line: str) -> tuple[str, str]:
        """A word of the help: its form and what it means."""
        found = re.match(r"  (\S+(?:, \S+)*)\s{2,}(.*)", line)
        assert found, line
        return found[1], found[2]

    def words_of(self, command: str) -> list[tuple[str, str]]:
        """The words with a value that a command takes, in the help's order."""
        return [word for _, names, words in self.groups if command in names for word in words]


def escaped(text: str) -> str:
    """A line of text for roff: bold for code, the names of links alone, no line that roff would take for a command."""
    text = text.replace("\\", "\\e")
    text = re.sub(r"\[([^\]]*)\]\([^)]*\)", r"\1", text)
    text = re.sub(r"\*\*([^*]+)\*\*", r"\1", text)
    text = re.sub(r"``? ?(.+?) ?``?", lambda it: "\\fB" + it[1].replace("-", "\\-") + "\\fR", text)
    return re.sub(r"^([.'])", r"\\&\1", text)


def cells_of(row: str) -> list[str]:
    return [cell.strip() for cell in re.split(r"(?<!\\)\|", row.strip().strip("|"))]


def table(rows: list[str]) -> list[str]:
    """A table: of two columns a list of terms, of more a table of tbl."""
    head, *body = (cells_of(row) for row in rows if not re.fullmatch(r"[|\s:-]+", row))
    if len(head) == 2:
        return [line for term, meaning in body for line in (".TP", escaped(term) or "\\-", escaped(meaning))]
    lines = [".TS", " ".join("l" for _ in head[1:]) + " lx.", "\t".join(f"\\fI{cell}\\fR" for cell in head)]
    for cells in body:
        lines.append("\t".join(f"T{{\n{escaped(cell)}\nT}}" if at == len(cells) - 1 else escaped(cell) for at, cell in enumerate(cells)))
    return lines + [".TE"]


def parts_of(text: str) -> Iterator[list[str]]:
    """The parts of a text of Markdown: what stands between empty lines, and each block of code whole."""
    parts: list[list[str]] = [[]]
    is_code = False
    for row in text.split("\n"):
        if row.startswith("```"):
            if not is_code:
                parts.append([])
            is_code = not is_code
        if row or is_code:
            parts[-1].append(row)
        if not is_code and (not row or row.startswith("```")):
            parts.append([])
    return filter(None, parts)


def roff_of(text: str) -> list[str]:
    """Markdown's paragraphs, lists, tables, headings and code as roff."""
    lines: list[str] = []
    for rows in parts_of(text):
        part = rows[0]
        if part.startswith("```"):
            lines += [".PP", ".RS 4", ".nf", *(escaped_code(row) for row in rows[1:-1]), ".fi", ".RE"]
        elif part.startswith("#"):
            lines.append(f'.SS "{escaped(part.lstrip("# "))}"')
        elif part.startswith("|"):
            lines += table(rows)
        elif part.startswith("- "):
            lines += [line for row in rows for line in (".IP \\(bu 2", escaped(row.removeprefix("- ")))]
        elif part.startswith("1. "):
            lines += [line for row in rows for line in (f".IP {row.partition(' ')[0]} 3", escaped(row.partition(" ")[2]))]
        else:
            lines += [".PP", *(escaped(row) for row in rows)]
    return lines


def escaped_code(row: str) -> str:
    return re.sub(r"^([.'])", r"\\&\1", row.replace("\\", "\\e").replace("-", "\\-"))


def section(name: str) -> str:
    """The text of a section of FORMATS.md."""
    found = re.search(rf"^## {re.escape(name)}\n(.*?)(?=^## |\Z)", FORMATS.read_text(), re.M | re.S)
    if not found:
        raise SystemExit(f"{FORMATS.name} has no section {name}")
    return found[1]


def manual(pages: Help, version: str) -> str:
    """The manual page."""
    lines = [
        "'\\\" t",
        ".\\\" Made by tools/pages.py; change the program's help or docs/reference/FORMATS.md.",
        f'.TH RIDEPOOL 1 "" "{version}" "User Commands"',
        ".ad l",
        ".SH NAME",
        "ridepool \\- a proved dispatcher for shared taxis and minibuses",
        ".SH SYNOPSIS",
        ".nf",
        *(f"\\fB{escaped_code(line)}\\fR" for line in pages.usage),
        ".fi",
        ".SH DESCRIPTION",
    ]
    for part in pages.about:
        lines += [".PP", escaped(part)]
    lines.append(".SH WORDS")
    for title, _, words in pages.groups:
        lines.append(f'.SS "{escaped(title)}"')
        for form, meaning in words:
            lines += [".TP", f"\\fB{escaped_code(form)}\\fR", escaped(meaning)]
    for name, title in SECTIONS.items():
        lines += [f".SH {title}", *roff_of(section(name))]
    lines += [
        ".SH EXAMPLE",
        ".nf",
        "ridepool run network=network.csv fleet=fleet.csv script=script.csv",
        ".fi",
        ".SH LICENCE",
        "Apache 2.0 or MIT, as you choose. Copyright 2026 the ridepool developers.",
    ]
    return "\n".join(lines) + "\n"


def bash(pages: Help) -> str:
    """The completion of bash."""
    cases: list[str] = []
    values: list[str] = []
    for command in pages.commands:
        names = " ".join(form.split("=")[0] for form, _ in pages.words_of(command))
        cases.append(f'    {command}) keys="{names}" ;;')
    words = dict(word.split("=") for command in pages.commands for word, _ in pages.words_of(command))
    paths = "|".join(key for key, value in words.items() if value == "FILE")
    for key, value in words.items():
        if value in VALUES:
            values.append(f'      {key}) COMPREPLY=($(compgen -W "{" ".join(VALUES[value])}" -- "$value")) ;;')
    return "\n".join(
        [
            "# Completion of ridepool for bash. Made by tools/pages.py.",
            "_ridepool() {",
            '  local line=${COMP_LINE:0:COMP_POINT} word key value keys=""',
            "  word=${line##* }",
            '  if [[ $word == *=* ]]; then',
            "    key=${word%%=*} value=${word#*=}",
            "    case $key in",
            f'      {paths}) compopt -o filenames; COMPREPLY=($(compgen -f -- "$value")) ;;',
            *values,
            "    esac",
            "    return",
            "  fi",
            "  if ((COMP_CWORD == 1)); then",
            f'    COMPREPLY=($(compgen -W "{" ".join(pages.commands)} --help --version" -- "$word"))',
            "    return",
            "  fi",
            "  case ${COMP_WORDS[1]} in",
            *cases,
            "  esac",
            "  for key in $keys; do",
            '    if [[ " $line" != *" $key="* && $key == "$word"* ]]; then COMPREPLY+=("$key="); fi',
            "  done",
            "  compopt -o nospace",
            "}",
            "complete -F _ridepool ridepool ./ridepool",
            "",
        ]
    )


def zsh(pages: Help) -> str:
    """The completion of zsh."""
    lines = ["#compdef ridepool", "# Completion of ridepool for zsh. Made by tools/pages.py.", "local -a keys"]
    lines += ["if ((CURRENT == 2)); then", f"  compadd -- {' '.join(pages.commands)} --help --version", "  return", "fi"]
    words = dict(word.split("=") for command in pages.commands for word, _ in pages.words_of(command))
    paths = "|".join(key for key, value in words.items() if value == "FILE")
    lines += [f"if compset -P '({paths})='; then", "  _files", "  return", "fi"]
    for key, value in words.items():
        if value in VALUES:
            lines += [f"if compset -P '{key}='; then", f"  compadd -- {' '.join(VALUES[value])}", "  return", "fi"]
    lines.append("case $words[2] in")
    for command in pages.commands:
        said = (f"{form.split('=')[0]}:{meaning}" for form, meaning in pages.words_of(command))
        lines += [f"  {command})", "    keys=(", *(f"      '{it.replace(chr(39), chr(39) + chr(92) + chr(39) * 2)}'" for it in said), "    )", "    ;;"]
    return "\n".join([*lines, "esac", "_describe word keys -S =", ""])


def main() -> int:
    if len(sys.argv) < 2 or sys.argv[2:] not in ([], ["--write"]):
        raise SystemExit(__doc__)
    said = [subprocess.run([sys.argv[1], word], capture_output=True, text=True, check=True).stdout for word in ("--help", "--version")]
    pages = Help(said[0])
    made = {
        "man/man1/ridepool.1": manual(pages, said[1].splitlines()[0]),
        "bash-completion/completions/ridepool": bash(pages),
        "zsh/site-functions/_ridepool": zsh(pages),
    }
    stale = []
    for name, text in made.items():
        path = TOP / "share" / name
        if path.exists() and path.read_text() == text:
            continue
        if sys.argv[2:]:
            path.parent.mkdir(parents=True, exist_ok=True)
            path.write_text(text)
        else:
            stale.append(name)
    for name in stale:
        print(f"share/{name} isn't what tools/pages.py makes: write it anew with tools/pages.py PROGRAM --write")
    return bool(stale)


if __name__ == "__main__":
    sys.exit(main())
