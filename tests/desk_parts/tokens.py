"""Tokens of a desk, made by its command."""

import subprocess
import sys

from desk_parts.shared import TOOLS


def token(path, *words):
    """What `token` prints on the two streams."""
    call = [sys.executable, str(TOOLS / "desk.py"), "token", f"tokens={path}", *words]
    done = subprocess.run(call, capture_output=True, text=True)
    return done.returncode, done.stdout, done.stderr


def made(path, *words):
    """A new token."""
    status, out, errors = token(path, *words)
    assert status == 0 and len(out.strip()) >= 32, (words, out, errors)
    return out.strip()
