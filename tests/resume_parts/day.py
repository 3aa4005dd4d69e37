"""Days that are cut, and what `resume` makes of them."""

import subprocess
from pathlib import Path

from resume_parts.kept import Kept

PATIENCE = 600  # seconds of a call, after which it is taken to hang


def header_of(rows):
    """The header of rows, by how many fields they have."""
    return "round,lane,command,a,b,c,d,e" if rows and rows[0].count(",") == 7 else "round,lane,command,a,b,c,d"


def script_of(rows):
    """The text of a script of rows."""
    return "\n".join([header_of(rows), *rows, ""])


class Day:
    """A day in a folder: its rows, the words of its call, and its whole report."""

    def __init__(self, program, folder, rows, *words):
        self.program, self.folder, self.rows, self.words = program, Path(folder), rows, words
        self.named = [f"network={folder}/network.csv", f"fleet={folder}/fleet.csv"]
        ran = self.call("live", [*words, "proof=1"], script_of(rows))
        assert ran.returncode == 0, f"`live` ends with {ran.returncode}, {ran.stderr!r}"
        self.report = ran.stdout

    def call(self, command, words, rows=""):
        """Calls the program on the files of the day, with these rows on standard input."""
        given = [self.program, command, *self.named, *words]
        return subprocess.run(given, input=rows.encode(), capture_output=True, timeout=PATIENCE)

    def resume(self, report, rows, *words):
        """Goes on from a report with these rows."""
        (self.folder / "transcript").write_bytes(report)
        return self.call("resume", [f"report={self.folder}/transcript", *words], script_of(rows) if rows else header_of(self.rows) + "\n")

    def audit(self, report, rows):
        """Audits a report of these rows."""
        (self.folder / "audited").write_bytes(report)
        (self.folder / "audited.csv").write_text(script_of(rows))
        return self.call("audit", [f"script={self.folder}/audited.csv", f"report={self.folder}/audited"])

    def goes_on(self, torn, *words):
        """Goes on from a torn report with the rows that are left: it keeps what the rule says, tells so, and what comes out is
        audited. Gives the new report."""
        kept = Kept(torn)
        before, left = kept.parted(self.rows)
        ran = self.resume(torn, left, *words)
        assert ran.returncode == 0, f"status {ran.returncode}, {ran.stderr!r} behind {len(torn)} bytes"
        assert ran.stderr.decode() == kept.told(), f"{ran.stderr!r} behind {len(torn)} bytes, and not {kept.told()!r}"
        assert ran.stdout.startswith(kept.text), f"another beginning behind {len(torn)} bytes"
        audit = self.audit(ran.stdout, before + left)
        assert audit.returncode == 0, f"`audit` refuses what comes behind {len(torn)} bytes: {audit.stderr!r}"
        return ran.stdout

    def refuses(self, torn, line):
        """A report that is refused: status 13, this line, and nothing is written."""
        ran = self.resume(torn, [])
        said = ran.returncode, ran.stdout, ran.stderr.decode()
        assert said == (13, b"", f"ridepool: report: {line}\n"), f"{said} behind {len(torn)} bytes, and not {line!r}"
