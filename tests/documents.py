"""The pages of the repository, which `docs.py` and `pages.py` look at."""

from __future__ import annotations

import subprocess
from pathlib import Path

TOP = Path(__file__).resolve().parent.parent
COMMAND = ["git", "ls-files", "-z", "-co", "--exclude-standard", "*.md"]


def documents() -> list[Path]:
    """All pages of the repository; outside a clone, or where there is no git, all that lie here."""
    try:
        named = subprocess.run(COMMAND, cwd=TOP, capture_output=True, text=True).stdout
    except OSError:
        named = ""
    paths = [TOP / name for name in named.split("\0") if name] or TOP.glob("**/*.md")
    return sorted(path for path in paths if path.exists())
