"""How `ridepool live` and `ridepool resume` are started: their files and words."""

import pathlib
import shutil
import tempfile
from typing import List, Optional

from ridepool.days.calls import program_path, town_files
from ridepool.faults import fault_of
from ridepool.inputs.checks import Path
from ridepool.inputs.fleet import Fleet
from ridepool.inputs.network import Network
from ridepool.settings import Settings


class Start:
    """The folder with the files of a session, and the call."""

    def __init__(self, net: Network, fleet: Fleet, settings: Optional[Settings], program: Optional[Path],
                 report: Optional[bytes] = None, options: Optional[List[str]] = None) -> None:
        path, self.files = program_path(program), town_files(net, fleet)
        self.folder = tempfile.mkdtemp(prefix="ridepool-live-")
        for name, given in self.files.items():
            pathlib.Path(self.folder, f"{name}.csv").write_text(given.text, encoding="ascii")
        words = [f"{name}={self.folder}/{name}.csv" for name in self.files]
        if report is None:
            self.words = ["live", *words, *(settings or Settings()).words()]
        else:
            pathlib.Path(self.folder, "report").write_bytes(report)
            self.words = ["resume", *words, f"report={self.folder}/report", *(options or [])]
        self.call = [path, *self.words]

    def fault(self, status: int, errors: "list[str]") -> Exception:
        """Why the program has ended."""
        return fault_of(status, "\n".join(errors), self.words, self.files)

    def clear(self) -> None:
        """Removes the folder."""
        shutil.rmtree(self.folder, ignore_errors=True)
