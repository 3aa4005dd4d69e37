#!/usr/bin/env python3
"""Tries how ./ridepool finds its program, by checksums of all sources once and then by sizes and times of change alone, and
what it says where it has none; ./install, the manual page and the completions.

    tests/start.py PROGRAM

Works on a copy of some sources with a release made of PROGRAM there, and with a sha256sum that counts its calls. Of the
machine's programs the scripts find those of TOOLS alone. The last line is `N passed, M failed`, and `, K skipped` behind it
where tests can't be tried here.
"""

import hashlib
import os
import pathlib
import re
import shutil
import subprocess
import sys
import tempfile
import time
from concurrent.futures import ThreadPoolExecutor

from skips import Skipped, last_line

TOP = pathlib.Path(__file__).resolve().parent.parent
CRATES = "ridepool_program: pool_base\npool_base:\n"  # two crates are enough, and quick to copy
SOURCE = pathlib.Path("crates", "pool_base", "src", "lib.rt")
COUNTING = '#!/bin/sh\necho call >>"$CALLS"\nexec {} "$@"\n'
PROVING = '#!/bin/sh\necho "$*" >>"$CALLS"\nexit 1\n'
TOOLS = "bash cat cmp cp cut date dirname env find grep install mkdir mktemp mv readlink rm rmdir sh sort touch xargs".split()
BUILD = "./build proves and builds the program of these sources, in half an hour or more\n"


class Wrong(Exception):
    pass


class Copy:
    """A copy of some sources, with a release of the program, whose calls of sha256sum are counted."""

    def __init__(self, folder, program):
        self.top, self.calls = folder / "top", folder / "calls"
        for name in ("release", "crates/ridepool_program/src", "crates/pool_base/src", "crates/pool_base/specs", "crates/pool_base/proofs"):
            shutil.copytree(TOP / name, self.top / name, ignore=shutil.ignore_patterns(".found*"))
        shutil.copytree(TOP / "share", self.top / "share")
        for name in ("ridepool", "build", "install", "HANDLES", "LICENSE-MIT", "LICENSE-APACHE", "CHANGELOG.md"):
            shutil.copy(TOP / name, self.top / name)
        (self.top / "crates.txt").write_text(CRATES)
        shutil.copy(program, self.top / "release" / "ridepool_program")
        sources = subprocess.run([self.top / "release" / "sources"], capture_output=True, text=True, check=True).stdout.strip()
        self.sources = sources
        checksum = hashlib.sha256(pathlib.Path(program).read_bytes()).hexdigest()
        (self.top / "release" / "MADE_OF").write_text(f"sources {sources}\nprogram {checksum}\n")
        self.path = folder / "bin"
        self.path.mkdir()
        for name in TOOLS:
            (self.path / name).symlink_to(shutil.which(name))
        self.put_tool("sha256sum", COUNTING.format(shutil.which("sha256sum")))
        self.environment = {"PATH": str(self.path), "CALLS": str(self.calls)}
        time.sleep(2.1)

    def put_tool(self, name, text):
        """Puts a script among the tools."""
        (self.path / name).write_text(text)
        (self.path / name).chmod(0o755)

    def run(self, *command):
        """Runs a command of the copy's folder."""
        return subprocess.run(command, capture_output=True, text=True, env=self.environment, cwd=self.top)

    def start(self):
        """Runs `./ridepool --version`: its status, what it printed, and whether checksums were made."""
        self.calls.unlink(missing_ok=True)
        ran = self.run("./ridepool", "--version")
        return ran.returncode, ran.stdout + ran.stderr, self.calls.exists()

    def demand(self, what, status, text, summed):
        got_status, got_text, got_summed = self.start()
        if got_status != status or text not in got_text or got_summed != summed:
            raise Wrong(f"{what}: status {got_status}, checksums {'made' if got_summed else 'not made'}\n{got_text}")

    def demand_found(self, what, summed):
        self.demand(what, 0, f"sources {self.sources}\n", summed)


def unchanged(copy):
    copy.demand_found("the first start", True)
    copy.demand_found("the second start", False)


def same_size_and_time(copy):
    """A source that changes is noticed though its size and its time of change are put back."""
    copy.demand_found("the first start", True)
    path = copy.top / SOURCE
    before, data = path.stat(), path.read_bytes()
    path.write_bytes(data.replace(b"//!", b"///", 1))
    os.utime(path, ns=(before.st_atime_ns, before.st_mtime_ns))
    copy.demand("a changed source", 1, "is of other sources", True)
    path.write_bytes(data)
    copy.demand_found("the source put back", True)
    time.sleep(2.1)
    copy.start()
    copy.demand_found("the source put back, two seconds later", False)


def new_source(copy):
    copy.demand_found("the first start", True)
    (copy.top / SOURCE).with_name("more.rt").write_text("")
    copy.demand("a new source", 1, "is of other sources", True)


def other_program(copy):
    copy.demand_found("the first start", True)
    path = copy.top / "release" / "ridepool_program"
    path.write_bytes(path.read_bytes() + b"\n")
    copy.demand("another program", 1, "isn't the program that was made", True)


def demand_refused(copy, why, *command):
    """A start that must say in one line why there is no program, and must not build one."""
    ran = copy.run(*command)
    if (ran.returncode, ran.stdout, ran.stderr) != (1, "", f"ridepool: the release {why}: {BUILD}"):
        raise Wrong(f"{command}: status {ran.returncode}\n{ran.stdout}{ran.stderr}")


def nothing_is_proved_unasked(copy):
    """Where the release isn't of these sources, the toolchain isn't called: neither by ./ridepool nor by ./install."""
    copy.put_tool("rt", PROVING)
    (copy.top / SOURCE).with_name("more.rt").write_text("")
    copy.calls.unlink(missing_ok=True)
    demand_refused(copy, "is of other sources", "./ridepool", "run")
    demand_refused(copy, "is of other sources", "./install", str(copy.top.parent / "home"))
    shutil.rmtree(copy.top / "release" / ".found", ignore_errors=True)
    (copy.top / "release" / "ridepool_program").unlink()
    demand_refused(copy, "isn't there", "./ridepool", "run")
    if "ci" in copy.calls.read_text().split():
        raise Wrong("the toolchain was called")


def one_that_was_built(copy):
    """The program that ./build made is started where the release is of other sources."""
    (copy.top / SOURCE).with_name("more.rt").write_text("")
    out = copy.top / "crates" / "ridepool_program" / "out"
    shutil.copytree(copy.top / "release", out)
    sources = copy.run("bash", "release/sources").stdout.strip()
    (out / "MADE_OF").write_text((out / "MADE_OF").read_text().replace(copy.sources, sources))
    copy.demand("one that was built", 0, f"sources {sources}\n", True)


def build_without_toolchain(copy):
    ran = copy.run("./build")
    if ran.returncode != 1 or ran.stdout or ran.stderr.count("\n") != 1 or "there is no toolchain" not in ran.stderr:
        raise Wrong(f"./build: status {ran.returncode}\n{ran.stdout}{ran.stderr}")


def not_executable_here(copy):
    """A release of these sources that this machine can't run."""
    path = copy.top / "release" / "ridepool_program"
    path.write_bytes(b"\x7fELF of another machine")
    checksum = hashlib.sha256(path.read_bytes()).hexdigest()
    (copy.top / "release" / "MADE_OF").write_text(f"sources {copy.sources}\nprogram {checksum}\n")
    demand_refused(copy, "can't be executed here (it needs Linux on x86-64 and the GNU C library 2.34 or later)", "./ridepool", "run")


def lost_bits(copy):
    """In a folder whose files have lost their execute bits `bash ./ridepool` starts the program, also once it is known."""
    for path in [copy.top / "ridepool", *(copy.top / "release").iterdir()]:
        path.chmod(0o644)
    time.sleep(2.1)
    for _ in range(2):
        ran = copy.run("bash", "./ridepool", "--version")
        if ran.returncode != 0 or copy.sources not in ran.stdout or ran.stderr:
            raise Wrong(f"bash ./ridepool: status {ran.returncode}\n{ran.stdout}{ran.stderr}")
        ran = copy.run("bash", "release/find")
        if ran.returncode != 1 or ran.stdout or "start the program by bash ./ridepool\n" not in ran.stderr:
            raise Wrong(f"release/find: status {ran.returncode}\n{ran.stdout}{ran.stderr}")


def damaged_memory(copy):
    """What was kept is damaged: everything is summed again."""
    copy.demand_found("the first start", True)
    kept = copy.top / "release" / ".found"
    kept.write_text(kept.read_text().replace("HANDLES 3", "HANDLES 4"))
    copy.demand_found("a damaged memory", True)
    kept.write_text("")
    copy.demand_found("an empty memory", True)


def nowhere_to_keep(copy):
    """Where nothing can be kept the program starts, and nothing is said of it."""
    (copy.top / "release" / ".found").mkdir()
    for _ in range(2):
        status, text, summed = copy.start()
        if status != 0 or not summed or len(text.splitlines()) != 2:
            raise Wrong(f"nothing can be kept: status {status}\n{text}")


def from_elsewhere(copy):
    """Through a link, from another folder."""
    link = copy.top.parent / "link"
    link.symlink_to(copy.top / "ridepool")
    ran = subprocess.run([link, "--version"], capture_output=True, text=True, cwd="/", env=copy.environment)
    if ran.returncode != 0 or copy.sources not in ran.stdout or ran.stderr:
        raise Wrong(f"through a link: status {ran.returncode}\n{ran.stdout}{ran.stderr}")


def install(copy, prefix, home):
    """Installs under a folder, and gives what was printed."""
    environment = {**copy.environment, "HOME": str(home)}
    ran = subprocess.run([copy.top / "install", *prefix], capture_output=True, text=True, env=environment, cwd=home)
    if ran.returncode != 0 or ran.stderr:
        raise Wrong(f"install: status {ran.returncode}\n{ran.stdout}{ran.stderr}")
    return ran.stdout


def demand_installed(copy, prefix, home):
    """All stands under the folder, the program runs there, and nothing is left once it is taken away."""
    for name in ("bin/ridepool", "share/man/man1/ridepool.1", "share/doc/ridepool/LICENSE-MIT"):
        if not (prefix / name).is_file():
            raise Wrong(f"install: {prefix / name} is missing")
    told = [subprocess.run([prefix / "bin/ridepool", word], capture_output=True, text=True, cwd="/").stdout for word in ("--version", "--help")]
    if copy.sources not in told[0] or not told[1].startswith("usage: ridepool run"):
        raise Wrong(f"the installed program: {told}")
    ran = subprocess.run([prefix / "bin/ridepool", "run"], capture_output=True, text=True, cwd="/")
    if (ran.returncode, ran.stderr) != (2, "ridepool: words: missing network\n"):
        raise Wrong(f"the installed program: status {ran.returncode}, {ran.stderr}")
    ran = subprocess.run([prefix / "bin/ridepool-uninstall"], capture_output=True, text=True, cwd="/")
    left = sorted(str(path) for path in home.rglob("*"))
    if (ran.returncode, ran.stdout, ran.stderr, left) != (0, f"ridepool is gone from {prefix}\n", "", []):
        raise Wrong(f"uninstall: status {ran.returncode}, {ran.stdout}{ran.stderr}; left are {left}")


def installed(copy):
    """In an empty home, in a folder with blanks and quotes, and twice in the same place."""
    home = copy.top.parent / "home"
    home.mkdir()
    if "Add its folder to your PATH" not in install(copy, [], home):
        raise Wrong("install: nothing is said of PATH")
    demand_installed(copy, home / ".local", home)
    for _ in range(2):
        install(copy, ["it's a/\"place $(false)"], home)
    demand_installed(copy, home / "it's a" / '"place $(false)', home)


def manual(copy):
    """The manual page has no line that the formatter warns of."""
    if not shutil.which("man"):
        raise Skipped("man isn't here")
    page = copy.top / "share" / "man" / "man1" / "ridepool.1"
    ran = subprocess.run(["man", "--warnings", "-E", "UTF-8", "-l", "-Tutf8", page], capture_output=True, text=True)
    text = re.sub("\x1b\\[[0-9;]*m|.\x08", "", ran.stdout)
    if ran.returncode != 0 or ran.stderr or "ridepool run network=FILE" not in text:
        raise Wrong(f"the manual page: status {ran.returncode}\n{ran.stderr}")


def completed(copy):
    """What bash offers behind some beginnings of a line."""
    script = copy.top / "share" / "bash-completion" / "completions" / "ridepool"
    (copy.top.parent / "street.csv").touch()
    for line, wanted in [
        ("ridepool ru", ["run"]),
        ("ridepool audit rep", ["report="]),
        ("ridepool load wait=3 s", ["seed=", "side="]),
        ("ridepool run network=x ne", []),
        ("ridepool run network=str", ["street.csv"]),
        ("ridepool drive times=", ["rows", "labels"]),
        ("ridepool run proof=", ["0", "1"]),
    ]:
        words = line.split(" ")
        asked = (
            f"compopt() {{ :; }}; . '{script}'; COMP_LINE='{line}' COMP_POINT={len(line)} COMP_CWORD={len(words) - 1}; "
            f"COMP_WORDS=({line} ''); _ridepool; printf '%s\\n' \"${{COMPREPLY[@]}}\""
        )
        ran = subprocess.run(["bash", "-c", asked], capture_output=True, text=True, cwd=copy.top.parent)
        if ran.stdout.split() != wanted or ran.stderr:
            raise Wrong(f"completion of {line!r}: {ran.stdout.split()}, and {wanted} should come\n{ran.stderr}")


TRIED = [unchanged, same_size_and_time, new_source, other_program, damaged_memory, nowhere_to_keep, from_elsewhere]
TRIED += [nothing_is_proved_unasked, one_that_was_built, build_without_toolchain, not_executable_here, lost_bits]
TRIED += [installed, manual, completed]


def outcome(tried):
    """What one of the tries says, and whether it failed or was skipped."""
    with tempfile.TemporaryDirectory() as folder:
        try:
            tried(Copy(pathlib.Path(folder), pathlib.Path(sys.argv[1]).resolve()))
        except Wrong as wrong:
            return f"{tried.__name__}: {wrong}", 1, 0
        except Skipped as why:
            return f"skipped: {tried.__name__}, since {why}", 0, 1
        return None, 0, 0


def main():
    with ThreadPoolExecutor() as pool:
        told = list(pool.map(outcome, TRIED))
    failed, skipped = sum(it[1] for it in told), sum(it[2] for it in told)
    print("\n".join([*(it[0] for it in told if it[0]), last_line(len(TRIED) - failed - skipped, failed, skipped)]))
    return bool(failed)


if __name__ == "__main__":
    sys.exit(main())
