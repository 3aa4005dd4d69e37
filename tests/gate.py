#!/usr/bin/env python3
"""Tries ./check and ./check all on a small repository of fakes: what they sum up, what they call, and what makes them fail.

    tests/gate.py [PROGRAM]

The scripts of tests/ there are shell scripts that say what a try wants, and its python3 is a shell. rt, apt-get, dpkg-query, id
and nproc are fakes, too; all other programs of the machine that ./check finds are those of TOOLS. The last line is
`N passed, M failed`.
"""

import os
import re
import shutil
import subprocess
import sys
import tempfile
from concurrent.futures import ThreadPoolExecutor
from pathlib import Path

from skips import last_line

TOP = Path(__file__).resolve().parent.parent
TOOLS = "bash cat dirname env grep mktemp readlink rm setsid sleep tail tee timeout".split()
BEGUN = re.findall(r"^begin (\w+) ?(.*)$", (TOP / "check").read_text(), re.M)
PARTS = [name for name, _ in BEGUN]
BY_HAND = {"edits", "made_texts", "make_day", "make_desk_pictures", "make_sumo_day", "walked", "wrong_program"}
LOOKS = ("trail", "rooms", "parameters", "uncalled", "maps")  # the tools that look at the sources
# What ./check counts beside the parts: the release by checksums and the looks. The gate holds the bytes, too.
OWN, OWN_OF_GATE = 1 + len(LOOKS), 2 + len(LOOKS)
GOOD = 'echo "1 passed, 0 failed"\n'
TIME = re.compile(r"check: \d+ minutes \d+ seconds on 2 processors")
PACKAGES = "# some packages\n\nlibone  run\npython3-two  run docs\nthree\n"
CALLS = '#!/bin/bash\necho "{0} $*" >>"$CALLS"\n'


class Wrong(Exception):
    pass


def demand(holds, *why):
    if not holds:
        raise Wrong(" ".join(map(str, why)))


class Fakes:
    """A folder with the real ./check and fakes of all that it calls. Without a toolchain, as root, with all packages."""

    def __init__(self, folder):
        self.top, self.path, self.calls = folder / "a top", folder / "bin", folder / "calls"
        self.path.mkdir()
        self.calls.touch()
        for name in TOOLS:
            (self.path / name).symlink_to(shutil.which(name))
        (self.path / "python3").symlink_to(shutil.which("bash"))
        self.tool("nproc", "echo 2\n")
        self.tool("id", "echo 0\n")
        self.tool("dpkg-query", "echo installed\n")
        self.tool("apt-get", "")
        for name in ("check", ".ci/run"):
            self.put(name, (TOP / name).read_text())
        for name in PARTS:
            self.put(f"tests/{name}.py", GOOD)
        self.put("tests/edits.py", "")
        self.put("tests/packages", PACKAGES)
        for name in LOOKS:
            self.put(f"tools/{name}.py", "")
        self.put("release/jobs", "echo 2\n")
        self.put("release/hold", "")
        self.put("release/find", 'echo "$PWD/release/ridepool_program"\n')
        self.put("release/MADE_OF", "sources 1\ntoolchain a-kit-1 logic abc\nprogram 2\n")
        self.put("release/ridepool_program", "")
        self.put("crates/ridepool_program/out/ridepool_program", "")

    def put(self, name, text):
        """Puts a file, as one that may be executed."""
        path = self.top / name
        path.parent.mkdir(parents=True, exist_ok=True)
        path.write_text(text)
        path.chmod(0o755)

    def tool(self, name, text):
        """Puts a program of the machine, which notes its calls."""
        (self.path / name).write_text(CALLS.format(name) + text)
        (self.path / name).chmod(0o755)

    def toolchain(self, version="a-kit-1 logic abc", ci="echo '5 passed, 0 failed (1 s)'"):
        """Puts a toolchain of this version, whose gate does this."""
        self.tool("rt", f'if [ "$1" = version ]; then echo "{version}"; else {ci}; fi\n')

    def check(self, *words, script="check"):
        """Runs ./check: its status, and its lines without the time it took."""
        environment = {"PATH": str(self.path), "CALLS": str(self.calls)}
        ran = subprocess.run(
            [self.top / script, *words], stdin=subprocess.DEVNULL, stdout=subprocess.PIPE, stderr=subprocess.STDOUT, text=True, env=environment
        )
        return ran.returncode, [line for line in ran.stdout.splitlines() if not TIME.fullmatch(line)]

    def demand(self, counts, *words, status=0, said="", **more):
        """A run must end with the line of these counts, and say this on the way."""
        got, lines = self.check(*words, **more)
        demand((got, lines[-1]) == (status, last_line(*counts)), f"status {status} and {counts} should come:", got, *lines)
        demand(any(said in line for line in lines), f"{said!r} isn't said:", *lines)
        return lines

    def called(self, tool):
        """The words of each call of a tool."""
        return [line.partition(" ")[2] for line in self.calls.read_text().splitlines() if line.split(" ")[0] == tool]


ALL = len(PARTS) + OWN
GATE = len(PARTS) + OWN_OF_GATE


def every_script_is_a_part(_):
    """Each script of tests/ is begun by ./check, but for those that make inputs or are called by hand."""
    scripts = {path.stem for path in (TOP / "tests").glob("*.py") if "__main__" in path.read_text()}
    demand(scripts - BY_HAND == set(PARTS), "these are no parts:", scripts - BY_HAND - set(PARTS), "these are no scripts:", set(PARTS) - scripts)


def called_by(door, place):
    """The files of tests in a place that ./check has a door call: all, or those that it names."""
    files = sorted(place.glob("test_*.py")) if place.is_dir() else [place]
    for words in (words.split() for name, words in BEGUN if name == door):
        names = [word for word in words if not word.startswith("-")]
        yield from [file for file in files if not names or file.stem.removeprefix("test_") in names]


def every_file_of_tests_is_called(_):
    """Each file of tests by pytest is called by ./check once."""
    doors = {path.stem: re.search(r'main\("([^"]+)"', path.read_text()) for path in (TOP / "tests").glob("*.py")}
    called = [file for door, found in doors.items() if found for file in called_by(door, TOP / "tests" / found[1])]
    demand(sorted(called) == sorted((TOP / "tests").glob("*/test_*.py")), "these files of tests are called:", *sorted(called))


def all_is_well(fakes):
    """Parts are told in one order, also where the first ends behind the last; nothing of the toolchain is called."""
    first, words = BEGUN[0]
    fakes.put(f"tests/{first}.py", f'if [ "${{*:2}}" = "{words}" ]; then until [ -e "$CALLS.last" ]; do sleep 0.1; done; fi\n{GOOD}')
    fakes.put(f"tests/{PARTS[-1]}.py", f': >"$CALLS.last"\n{GOOD}')
    lines = fakes.demand((ALL, 0))
    heads = [line for line in lines if line.startswith("== tests/")]
    demand(heads == [f"== tests/{name}.py {words}" for name, words in BEGUN], *heads)
    demand(not fakes.called("rt") and not fakes.called("apt-get"), fakes.calls.read_text())


def parts_that_fail(fakes):
    """Failures are summed; so is a part without its last line, with a status alone, or that is killed."""
    fakes.put("tests/run.py", 'echo "7 passed, 2 failed"\nexit 1\n')
    fakes.demand((ALL - 1 + 7, 2), status=1)
    for text in ("echo 2 passed\n", "", f"{GOOD}echo more\n"):
        fakes.put("tests/run.py", text)
        fakes.demand((ALL - 1, 1), status=1)
    for text in ("exit 3", "kill -9 $$", "kill -9 $PPID"):
        fakes.put("tests/run.py", f"{GOOD}{text}\n")
        fakes.demand((ALL, 1), status=1)


def skips_are_counted(fakes):
    fakes.put("tests/run.py", 'echo "skipped: it, since why"\necho "3 passed, 0 failed, 4 skipped"\n')
    fakes.put("tests/docs.py", 'echo "0 passed, 0 failed, 20 skipped"\n')
    fakes.demand((ALL - 2 + 3, 0, 24))


def looks_at_the_sources(fakes):
    for name in LOOKS:
        fakes.put(f"tools/{name}.py", "exit 1\n")
        fakes.demand((ALL - 1, 1), status=1)
        fakes.put(f"tools/{name}.py", "")


def a_release_of_other_sources(fakes):
    """It fails, also where a program that was built is tried in its place; that one is tried then."""
    fakes.put("tests/run.py", f'echo "tried $1"\n{GOOD}')
    fakes.demand((ALL, 0), said=f"tried {fakes.top}/release/ridepool_program")
    fakes.put("release/find", 'echo "$PWD/crates/ridepool_program/out/ridepool_program"\n')
    fakes.demand((ALL - 1, 1), status=1, said=f"tried {fakes.top}/crates/ridepool_program/out/ridepool_program")
    fakes.put("release/find", "echo 'ridepool: the release is of other sources' >&2\nexit 1\n")
    fakes.demand((ALL - 1, 1), status=1, said="ridepool: the release is of other sources")
    fakes.toolchain()
    fakes.demand((GATE - 1 + 5, 1), "all", status=1, said="ridepool: the release is of other sources")
    (fakes.top / "crates/ridepool_program/out/ridepool_program").unlink()
    fakes.demand((0, 2), status=1, said="there is no program of these sources to try")


def the_logic(fakes):
    """Where a toolchain is here its logic is that of the release; its number may be another."""
    fakes.toolchain("a-kit-2 logic abc")
    fakes.demand((ALL, 0))
    for version in ("a-kit-1 logic abd", "a-kit-1 logic ab", "nothing"):
        fakes.toolchain(version)
        fakes.demand((ALL - 1, 1), status=1, said="another logic")
    demand(not any("ci" in it for it in fakes.called("rt")), fakes.called("rt"))


def the_gate(fakes):
    """It calls the toolchain's own gate, with no words, and holds the release; looking up edits isn't counted."""
    fakes.toolchain()
    fakes.demand((GATE + 5, 0), "all")
    demand([it for it in fakes.called("rt") if it != "version"] == ["ci"], fakes.called("rt"))
    fakes.demand((GATE + 5, 0), script=".ci/run")
    fakes.toolchain(ci="echo '3 passed, 2 failed (9 s)'; exit 1")
    fakes.demand((GATE + 3, 2), "all", status=1)
    for ci in ("true", "echo '5 passed'", "exit 1"):
        fakes.toolchain(ci=ci)
        fakes.demand((GATE, 1), "all", status=1)
    fakes.toolchain(ci="echo '5 passed, 0 failed (1 s)'; exit 1")
    fakes.demand((GATE + 5, 1), "all", status=1)
    (fakes.path / "rt").unlink()
    fakes.demand((GATE, 1), "all", status=1)


def the_gate_holds_the_release(fakes):
    fakes.toolchain()
    fakes.put("release/hold", 'echo "not what was built: $1"\nexit 1\n')
    fakes.demand((GATE + 5 - 1, 1), "all", status=1, said="not what was built: crates/ridepool_program/out/ridepool_program")
    fakes.put("release/hold", "")
    fakes.put("tests/edits.py", "echo '2 edits can be applied, 1 not'\nexit 1\n")
    fakes.demand((GATE + 5, 1), "all", status=1)


def packages_are_installed(fakes):
    """As root those that are missing, and where that fails the tests go on."""
    fakes.tool("dpkg-query", 'if [ "$4" = three ]; then echo installed; fi\n')
    fakes.demand((ALL, 0), said="check: installing libone python3-two")
    calls = fakes.called("apt-get")
    demand(len(calls) == 2 and calls[0].endswith(" update"), calls)
    demand(calls[1].endswith(" install -y --no-install-recommends libone python3-two"), calls)
    fakes.tool("apt-get", "echo 'E: no network'\nexit 100\n")
    lines = fakes.demand((ALL, 0), said="check: the packages couldn't be installed")
    demand("E: no network" in lines, *lines)


def packages_are_named(fakes):
    """Who isn't root gets the command; where there is no Debian nothing is said."""
    fakes.tool("id", "echo 1000\n")
    fakes.tool("dpkg-query", 'if [ "$4" = libone ]; then echo installed; fi\n')
    fakes.demand((ALL, 0), said="apt-get install --no-install-recommends python3-two three")
    demand(not fakes.called("apt-get"), fakes.called("apt-get"))
    (fakes.path / "dpkg-query").unlink()
    lines = fakes.demand((ALL, 0))
    demand(not any("apt-get" in line for line in lines), *lines)


def words(fakes):
    """Another word, and no Python."""
    for word in ("quick", "--help"):
        status, lines = fakes.check(word)
        demand((status, lines) == (2, ["usage: ./check [all]"]), word, status, *lines)
    (fakes.path / "python3").unlink()
    fakes.demand((0, 1), status=1, said="there is no python3")


TRIED = [every_script_is_a_part, every_file_of_tests_is_called, all_is_well, parts_that_fail, skips_are_counted, looks_at_the_sources]
TRIED += [a_release_of_other_sources, the_logic, the_gate, the_gate_holds_the_release, packages_are_installed, packages_are_named, words]


def fault(tried):
    """What is wrong with one of the tries, or nothing."""
    with tempfile.TemporaryDirectory() as folder:
        try:
            tried(Fakes(Path(folder)))
        except Wrong as wrong:
            return f"{tried.__name__}: {wrong}"


def main():
    with ThreadPoolExecutor(len(os.sched_getaffinity(0))) as pool:
        faults = [it for it in pool.map(fault, TRIED) if it]
    print("\n".join([*faults, last_line(len(TRIED) - len(faults), len(faults))]))
    return bool(faults)


if __name__ == "__main__":
    sys.exit(main())
