"""The lines of a report as arrays: which kind each has, where each begins, and the numbers of a kind's lines.

A report may have millions of lines of edges, rows and trees. None of these is gone through one by one.
"""

import warnings
from functools import cached_property
from typing import NamedTuple

import numpy as np
import numpy.typing as npt

from ridepool.faults import RefusedInput
from ridepool.inputs.checks import Numbers
from ridepool.report.reader import COUNTED, FIRST_LINE, Report, Reader

Bytes = npt.NDArray[np.uint8]
NEW_LINE, BLANK, MINUS = 10, 32, 45
HEAD = 4
NAMED = ("batch", "end", *COUNTED)


def key_of(word: str) -> int:
    """What the first three bytes of a line that begins with a word are, as a number."""
    first, second, third = (word + " ")[:3].encode("ascii")
    return first << 16 | second << 8 | third


KEYS = {key_of(word): word for word in NAMED}


class Block(NamedTuple):
    """The lines of a batch's block, from `batch` up to `end`."""

    first: int
    last: int


class Table(NamedTuple):
    """The numbers of some lines, one after the other, and how many each line has."""

    numbers: Numbers
    counts: Numbers

    def column(self, at: int, missing: int = -1) -> Numbers:
        """The number at a position of each line, `missing` where a line is shorter."""
        starts = np.cumsum(self.counts) - self.counts
        there = self.counts > at
        found = np.full(len(self.counts), missing, dtype=np.int64)
        found[there] = self.numbers[starts[there] + at]
        return found


class Lines:
    """A report's text, or a part of one."""

    def __init__(self, text: Bytes, file: str) -> None:
        self.text, self.file = text, file
        self.ends: Numbers = np.flatnonzero(text == NEW_LINE)
        self.starts: Numbers = np.concatenate([[0], self.ends[:-1] + 1]).astype(np.int64)[:len(self.ends)]

    def need_whole(self) -> None:
        """A RefusedInput where this is no whole report."""
        if len(self.ends) < HEAD + 1 or self.line(0) != FIRST_LINE:
            raise RefusedInput(self.file, 1, reason=f"not a report of ridepool: the first line is not `{FIRST_LINE}`")
        if int(self.ends[-1]) != len(self.text) - 1 or not self.line(len(self) - 1).startswith("done "):
            raise RefusedInput(self.file, len(self), reason="the report is cut: its last line is not `done N`")

    def __len__(self) -> int:
        """How many lines there are."""
        return len(self.ends)

    def line(self, at: int) -> str:
        """A line, counted from 0."""
        return bytes(self.text[self.starts[at]:self.ends[at]]).decode("ascii", "replace")

    @cached_property
    def keys(self) -> Numbers:
        """The first three bytes of each line, as a number. No line of a report is shorter."""
        last = len(self.text) - 1
        first, second, third = (self.text[np.minimum(self.starts + k, last)].astype(np.int64) for k in range(3))
        keys: Numbers = first << 16 | second << 8 | third
        return keys

    def are(self, word: str) -> "npt.NDArray[np.bool_]":
        """Which lines begin with a word."""
        return np.asarray(self.keys == key_of(word))

    @cached_property
    def blocks(self) -> "list[Block]":
        """The blocks of the batches, in order."""
        firsts, lasts = np.flatnonzero(self.are("batch")), np.flatnonzero(self.are("end"))
        if len(firsts) != len(lasts) or (firsts > lasts).any():
            raise RefusedInput(self.file, reason="not a report of ridepool: a batch has no end")
        return [Block(first, last) for first, last in zip(firsts.tolist(), lasts.tolist())]

    @cached_property
    def counted(self) -> "npt.NDArray[np.bool_]":
        """Which lines are edges, rows or nodes of a tree."""
        return np.asarray(np.isin(self.keys, [key_of(word) for word in COUNTED]))

    def report(self) -> Report:
        """What stands in the other lines, read one by one. What is no whole report is a RefusedInput."""
        self.need_whole()
        reader, at = Reader(), 0
        others = np.flatnonzero(~self.counted)
        lengths = self.ends - self.starts + 1
        kept = self.text[np.repeat(~self.counted, lengths)]
        texts = bytes(kept).decode("ascii", "replace").split("\n")[:-1]
        try:
            reader.head(texts[:HEAD])
            for at, text in zip(others[HEAD:].tolist(), texts[HEAD:]):
                reader.line(text)
            report = reader.ended()
        except (ValueError, KeyError, IndexError, TypeError):
            raise RefusedInput(self.file, at + 1, None, self.line(at), "a line of a report") from None
        self.count(report)
        return report

    def count(self, report: Report) -> None:
        """Tells each batch how many lines of edges, rows and trees it has."""
        edges = np.array([[block.first, block.last] for block in self.blocks], dtype=np.int64).reshape(-1, 2)
        for word in COUNTED:
            before = np.concatenate([[0], np.cumsum(self.are(word))])
            for batch, number in zip(report.batches, (before[edges[:, 1]] - before[edges[:, 0]]).tolist()):
                if number:
                    batch.counts[word] = number

    def numbers(self, word: str, block: Block) -> Table:
        """The numbers of a block's lines that begin with a word."""
        span = slice(block.first, block.last)
        return self._table(np.flatnonzero(self.keys[span] == key_of(word)) + block.first, len(word))

    def _table(self, lines: Numbers, skipped: int) -> Table:
        """The numbers of some lines, behind so many bytes of each."""
        if not len(lines):
            return Table(np.array([], dtype=np.int64), np.array([], dtype=np.int64))
        lengths = self.ends[lines] - self.starts[lines] - skipped + 1
        first, last = int(self.starts[lines[0]]), int(self.ends[lines[-1]]) + 1
        steps = np.zeros(last - first + 1, dtype=np.int8)
        steps[self.starts[lines] + skipped - first] += 1
        steps[self.ends[lines] + 1 - first] -= 1
        kept = self.text[first:last][np.cumsum(steps[:-1], dtype=np.int8).astype(bool)]
        blanks = np.concatenate([[0], np.cumsum(kept == BLANK)])
        ends = np.cumsum(lengths)
        counts = (blanks[ends] - blanks[ends - lengths]).astype(np.int64)
        good = ((kept >= 48) & (kept <= 57)) | (kept == BLANK) | (kept == NEW_LINE) | (kept == MINUS)
        with warnings.catch_warnings():
            warnings.simplefilter("error")
            try:
                numbers = np.fromstring(bytes(kept), dtype=np.int64, sep=" ") if counts.any() else np.zeros(0, np.int64)
            except (DeprecationWarning, ValueError):
                good[:] = False
        if not good.all() or len(numbers) != counts.sum():
            raise RefusedInput(self.file, int(lines[0]) + 1, None, self.line(int(lines[0])), "a line of a report")
        return Table(numbers, counts)
