"""What the scripts of tests share: tests that can't be tried here, and the last line."""


class Skipped(Exception):
    """Why a test can't be tried here."""


def last_line(passed: int, failed: int, skipped: int = 0) -> str:
    """The last line of a script of tests."""
    return f"{passed} passed, {failed} failed" + (f", {skipped} skipped" if skipped else "")
