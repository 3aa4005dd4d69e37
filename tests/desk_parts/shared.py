"""What the tests of the desk share: a started desk, folders for days, the audit of a kept day."""

import contextlib
import http.client
import json
import os
import pathlib
import re
import resource
import shutil
import signal
import subprocess
import sys
import tempfile
import time

TOP = pathlib.Path(__file__).resolve().parent.parent.parent
TOOLS, LINE, TOWN = TOP / "tools", TOP / "examples" / "line", TOP / "examples" / "town"
PATIENCE = 120
LONG = ("wait=7200", "delay=7200")  # no rider of a test expires, however slow the machine is
OWN = 1_000_000  # the least number of a ride that a caller may give
WITH_PACKAGE = {**os.environ, "PYTHONPATH": str(TOP / "python")}  # in which a changed desk imports the package of this clone


def until(holds, what, patience=PATIENCE):
    """Waits until something holds, and gives it."""
    end = time.monotonic() + patience
    while time.monotonic() < end:
        found = holds()
        if found:
            return found
        time.sleep(0.05)
    raise AssertionError(f"after {patience} s still not: {what}")


class Desk:
    """A started desk, which has said what it is waited for: that it keeps its day or, while the day so far is read, that its
    port answers. With None it isn't waited for. The port is a free one; batches are sealed by calls alone, if `every` isn't
    given."""

    def __init__(self, folder, *arguments, program=None, most_bytes=None, tool=TOOLS / "desk.py", waits_for="keeps its day", **more):
        extra = ["port=0", *([f"program={program}"] if program else [])]
        if not {"demo", "every=0"} & set(arguments) and not pathlib.Path(folder, "day.json").exists():
            extra.append("every=0")
        extra = [word for word in extra if not any(it.startswith(word.split("=")[0] + "=") for it in arguments)]
        self.child = subprocess.Popen(
            [sys.executable, str(tool), *arguments, f"day={folder}", *extra],
            stdin=subprocess.PIPE, stderr=subprocess.PIPE, text=True, **more,
            preexec_fn=most_bytes and (lambda: resource.setrlimit(resource.RLIMIT_FSIZE, (most_bytes, most_bytes))))
        self.child.stdin.close()
        self.folder, self.said, self.token = pathlib.Path(folder), [], None
        self.port = self.opened(waits_for) if waits_for else None

    def opened(self, what="keeps its day"):
        """The port, which the desk says when it is open."""
        while line := self.child.stderr.readline():
            self.said.append(line.rstrip("\n"))
            found = re.search(rf"http://.*:(\d+) {what}", line)
            if found:
                return int(found.group(1))
        self.child.wait()
        return None

    def call(self, method, path, body=None, headers=(), raw=None):
        """Calls the desk. Gives the status and the answer."""
        connection = http.client.HTTPConnection("127.0.0.1", self.port, timeout=PATIENCE)
        sent = {"content-type": "application/json"} if body is not None else {}
        if self.token:
            sent["authorization"] = f"Bearer {self.token}"
        text = raw if raw is not None else None if body is None else json.dumps(body)
        connection.request(method, path, text, {**sent, **dict(headers)})
        answer = connection.getresponse()
        value = answer.read()
        connection.close()
        return answer.status, json.loads(value) if "json" in answer.headers.get("content-type", "") else value

    def gives(self, method, path, body=None):
        """What a call answers that must be taken."""
        status, answer = self.call(method, path, body)
        assert status in (200, 201), (method, path, body, status, answer)
        return answer

    def refuses(self, status, word, method, path, body=None):
        """A call that must be refused with this status and word."""
        found, answer = self.call(method, path, body)
        assert (found, answer.get("word")) == (status, word), (method, path, body, found, answer)
        assert answer["text"], answer

    def second(self):
        """The second of the book."""
        return self.call("GET", "/health")[1]["second"]

    def plan(self):
        """Seals a batch and waits for its plan."""
        batch = self.gives("POST", "/seal")["batch"]
        until(lambda: self.call("GET", f"/batches/{batch}")[0] == 200, f"plan {batch}")
        return self.gives("GET", f"/batches/{batch}")

    def state(self):
        """What rides, vehicles and batches are, without what depends on the second or on the machine."""
        passing = ("wait_time", "arrival_time", "late", "seconds", "place")
        lists = (self.gives("GET", path) for path in ("/rides", "/vehicles", "/batches?last=1000"))
        return [[{key: it[key] for key in it if key not in passing} for it in items] for items in lists]

    def live(self):
        """The process of `ridepool live`."""
        return int(pathlib.Path(f"/proc/{self.child.pid}/task/{self.child.pid}/children").read_text().split()[0])

    def end(self, which=signal.SIGTERM):
        """Ends the desk. Gives its status."""
        if self.child.poll() is None:
            self.child.send_signal(which)
        try:
            self.child.wait(PATIENCE)
        except subprocess.TimeoutExpired:
            self.child.kill()
            raise
        if not self.child.stderr.closed:
            self.said += self.child.stderr.read().splitlines()
            self.child.stderr.close()
        return self.child.returncode


@contextlib.contextmanager
def desk(*arguments, folder=None, **more):
    """A desk in a folder that goes away afterwards, or in one that is given."""
    place = folder or tempfile.mkdtemp(prefix="desk-test-")
    it = Desk(place, *arguments, **more)
    try:
        assert it.port, it.said
        yield it
    finally:
        if it.child.poll() is None:
            it.end()
        if not folder:
            shutil.rmtree(place, ignore_errors=True)


HELD = """#!/bin/sh
if [ "$1" = resume ]; then while [ ! -e {folder}/go ]; do sleep 0.1; done; fi
exec {program} "$@"
"""


@contextlib.contextmanager
def held_desk(folder, program):
    """A desk that goes on with the day in a folder, whose program waits until it is let go. Gives the desk, whose port answers,
    and the call that lets the program go."""
    with tempfile.TemporaryDirectory(prefix="desk-test-") as place:
        held = pathlib.Path(place) / "held"
        held.write_text(HELD.format(folder=place, program=program))
        held.chmod(0o755)
        it = Desk(folder, f"program={held}", waits_for="answers")
        try:
            assert it.port, it.said
            yield it, (held.parent / "go").touch
        finally:
            it.end()


@contextlib.contextmanager
def folder_for_days():
    """A folder that goes away afterwards."""
    with tempfile.TemporaryDirectory(prefix="desk-test-") as place:
        yield pathlib.Path(place) / "day"


def inputs(place):
    """The words that name an example's files."""
    return [f"{name}={place / name}.csv" for name in ("network", "nodes", "fleet")]


def fails(text, *arguments, folder=None, **more):
    """A desk that must not open, with status 2 and this text in its last line. Gives all its lines."""
    place = folder or tempfile.mkdtemp(prefix="desk-test-")
    it = Desk(place, *arguments, **more)
    try:
        assert it.port is None, ("it opened", arguments, it.said)
        assert it.child.returncode == 2 and text in it.said[-1], (arguments, it.said)
        return it.said
    finally:
        it.end()
        if not folder:
            shutil.rmtree(place, ignore_errors=True)


def audited(program, folder, batches):
    """The kept day must be accepted by `audit`."""
    files = [f"network={folder}/network.csv", f"fleet={folder}/fleet.csv", f"script={folder}/rows.csv"]
    found = subprocess.run([program, "audit", *files, f"report={folder}/transcript"], capture_output=True, text=True)
    assert found.returncode == 0 and found.stdout.startswith("audit ok entries "), (found.stdout, found.stderr)
    assert found.stdout.endswith(f"batches {batches}\n"), (found.stdout, batches)
