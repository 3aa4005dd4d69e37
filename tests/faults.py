"""Runs the program with the calls of a plan refused, by faults.c, which a C compiler of this machine builds."""

import os
import shutil
import struct
import subprocess
import tempfile
from pathlib import Path

KINDS = "memory network fleet script report output notices threads".split()
ROW = struct.Struct("4Q")  # most, fail, calls, failed: as in faults.c


class Plan:
    """What fails in a run, and after it what was called: `most` and `fail` by kind."""

    def __init__(self, most=None, fail=None):
        self.most, self.fail = most or {}, fail or {}
        self.calls, self.failed = {}, {}

    def write(self, path):
        path.write_bytes(b"".join(ROW.pack(self.most.get(it, 0), self.fail.get(it, 0), 0, 0) for it in KINDS))

    def read(self, path):
        for kind, row in zip(KINDS, ROW.iter_unpack(path.read_bytes())):
            self.calls[kind], self.failed[kind] = row[2:]


class Shim:
    """The library that stands before the C library. `why` tells why there is none, `is_missing` whether for want of a compiler."""

    def __init__(self, program):
        self.program = program
        self.folder = tempfile.TemporaryDirectory()
        self.library = Path(self.folder.name) / "faults.so"
        self.compiler = next(filter(None, map(shutil.which, [os.environ.get("CC", "cc"), "gcc", "clang"])), None)
        self.is_missing = not self.compiler
        self.why = self.build() or self.probe()

    def build(self):
        if self.is_missing:
            return "there is no C compiler"
        source = Path(__file__).with_name("faults.c")
        ran = subprocess.run([self.compiler, "-O2", "-shared", "-fPIC", "-o", self.library, source], capture_output=True, text=True)
        return ran.returncode and f"{self.compiler} can't build tests/faults.c: {ran.stderr.strip()}"

    def probe(self):
        """Why no call of the program passes through the library, if none does."""
        plan = Plan()
        with tempfile.TemporaryDirectory() as folder:
            self.run(Path(folder), ["load", "side=2", "vehicles=1", "riders=1", "rounds=1"], plan)
        return not (plan.calls["memory"] and plan.calls["output"]) and "the program doesn't call the C library of this machine"

    def run(self, folder, words, plan):
        """Runs the program in the folder, and notes in the plan what it called."""
        environment = self.environment(folder, plan)
        ran = subprocess.run([self.program, *words], cwd=folder, env=environment, capture_output=True, timeout=60)
        plan.read(folder / "plan")
        return ran

    def environment(self, folder, plan):
        """Writes the plan into the folder, and gives the environment in which a call is made by it."""
        plan.write(folder / "plan")
        return {**os.environ, "LD_PRELOAD": str(self.library), "FAULTS_PLAN": str(folder / "plan")}
