"""A client of `ridepool live`, and the judge of what it gets."""

import contextlib
import os
import select
import subprocess
import time

from inputs import Run
from judge import Wrong, judge
from live_parts.given import HEADERS


class Client:
    """A call of `live`, its ends in hand."""

    patience = 2.0  # seconds, after which a call is taken to hang

    def __init__(self, program, folder, *words, script=None, **more):
        named = [f"network={folder}/network.csv", f"fleet={folder}/fleet.csv"]
        named += [f"script={script}"] if script else []
        pipe = subprocess.PIPE
        self.call = subprocess.Popen([program, "live", *named, *words], stdin=pipe, stdout=pipe, stderr=pipe, **more)
        self.out, self.told, self.begun = b"", b"", 0
        self.open = [self.call.stdout, self.call.stderr]

    def send(self, text):
        """Sends text or bytes at once."""
        self.call.stdin.write(text if isinstance(text, bytes) else text.encode())
        self.call.stdin.flush()

    def more(self, patience):
        """Reads what has come on standard output and error, or waits for some; whether some came, or an end."""
        ready, _, _ = select.select(self.open, [], [], patience)
        for stream in ready:
            read = os.read(stream.fileno(), 1 << 20)
            if not read:
                self.open.remove(stream)
            elif stream is self.call.stdout:
                self.out += read
            else:
                self.told += read
        return bool(ready)

    def more_until(self, holds):
        """Reads until this holds; whether it did in time, before both outputs ended."""
        end = time.monotonic() + self.patience
        while not holds():
            left = end - time.monotonic()
            if left <= 0 or not self.open or not self.more(left):
                return holds()
        return True

    def lines(self):
        """The whole lines that came so far."""
        return self.out.decode().split("\n")[:-1]

    def wait_for(self, wanted):
        """Waits until what came holds this line, and gives its place; fails where it doesn't come. Nothing is sent meanwhile."""
        if not self.more_until(lambda: any(map(wanted, self.lines()[self.begun :]))):
            raise AssertionError(f"no answer before the next row; the last lines are {self.lines()[-3:]}, {self.told!r}")
        return next(place for place, line in enumerate(self.lines()) if place >= self.begun and wanted(line))

    def ask(self, row):
        """Sends a row and waits for its line, which begins where the last one ended."""
        before = len(self.lines())
        self.send(row + "\n")
        lane, word = row.split(",")[1:3]
        self.begun = before
        place = self.wait_for(lambda line: line.split(" ")[1:3] == [lane, word])
        self.begun = 0
        return self.lines()[place]

    def refused(self, row, told):
        """Sends a row and waits until all lines that were told are these, the last one for this row."""
        self.send(row + "\n")
        self.more_until(lambda: self.told.count(b"\n") >= len(told))
        assert self.told.decode().splitlines() == told, f"{self.told!r} was told, and not {told}"

    def wait_for_end(self, batch):
        """Waits for the last line of the block of this batch."""
        self.begun = self.wait_for(lambda line: line == f"batch {batch}")
        self.wait_for(lambda line: line == "end")
        self.begun = 0

    def end(self, patience=600):
        """Closes the client's end, and gives the status, all that was written and what was said of refused rows."""
        self.call.stdin.close()
        return self.ended(patience)

    def ended(self, patience):
        """Waits until the call has ended, and gives the status and what it wrote on standard output and error."""
        end = time.monotonic() + patience
        while self.open:
            if not self.more(max(0, end - time.monotonic())):
                raise AssertionError(f"the call doesn't end; the last lines are {self.lines()[-3:]}, {self.told!r}")
        return self.call.wait(patience), self.out.decode(), self.told.decode()

    def close(self):
        """Ends the call, if it still runs, and closes its ends."""
        self.call.kill()
        self.call.wait()
        for end in (self.call.stdin, self.call.stdout, self.call.stderr):
            with contextlib.suppress(OSError):  # what wasn't written yet can't be
                end.close()

    def kill(self):
        """Ends the call at once, and reads what it had written."""
        self.call.kill()
        self.call.wait()
        while self.open and self.more(0.1):
            pass


def judged(program, folder, accepted, report, *words, header=HEADERS[0]):
    """Fails unless the report is that of a run of these rows: by the judge, and where all stand in lane 0 by `run`, byte
    for byte; and unless `audit` confirms it."""
    (folder / "accepted.csv").write_text("\n".join([header, *accepted, ""]))
    named = ["network=network.csv", "fleet=fleet.csv", "script=accepted.csv"]
    try:
        judge(Run(folder, ["run", *named, *words]), report)
    except Wrong as wrong:
        raise AssertionError(f"the judge refuses it: {wrong}")
    if all(row.split(",")[1] == "0" for row in accepted):
        ran = subprocess.run([program, "run", *named, *words], cwd=folder, capture_output=True, text=True)
        assert ran.stdout == report, "`run` prints another report"
    if "proof=1" in words:
        (folder / "report").write_text(report)
        audit = subprocess.run([program, "audit", *named, "report=report"], cwd=folder, capture_output=True, text=True)
        assert audit.returncode == 0, f"`audit` refuses it: {audit.stderr}"
