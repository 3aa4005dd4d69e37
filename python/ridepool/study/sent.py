"""The modules that drive days, sent to the workers of a cluster, which need no package."""

import pathlib
import tempfile
import zipfile
from typing import Any, List

PACKAGE = pathlib.Path(__file__).resolve().parent.parent
ROOMS = ("city", "days", "inputs", "policies", "report", "sessions", "study")
# A worker may have these modules of an earlier study, or of another version. They are forgotten when this is loaded.
FIRST = """import sys

for name in [name for name in sys.modules if name.startswith("ridepool.")]:
    del sys.modules[name]
"""


def sent() -> List[pathlib.Path]:
    """The modules that are sent. What drives a day stands on Python alone, what plans a fleet of a city doesn't."""
    own = [path for path in sorted(PACKAGE.glob("*.py")) if path.name != "__init__.py"]
    return own + [path for room in ROOMS for path in sorted((PACKAGE / room).glob("*.py"))]


def pack(path: pathlib.Path) -> None:
    """Writes the modules into a zip file, as a package of their own."""
    with zipfile.ZipFile(path, "w", zipfile.ZIP_DEFLATED) as packed:
        packed.writestr("ridepool/__init__.py", FIRST + (PACKAGE / "__init__.py").read_text(encoding="utf-8"))
        for module in sent():
            packed.write(module, f"ridepool/{module.relative_to(PACKAGE)}")


def send(client: Any) -> None:
    """Sends the modules to all workers of a client, those that come later too."""
    with tempfile.TemporaryDirectory(prefix="ridepool-study-") as folder:
        path = pathlib.Path(folder, "ridepool.zip")
        pack(path)
        client.upload_file(str(path))
