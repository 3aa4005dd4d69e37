"""Columns of a table, judged and taken as numbers. What isn't taken is refused with its place."""

import pathlib
from dataclasses import dataclass
from typing import Any, Optional, Sequence, Union

import numpy as np
import numpy.typing as npt
import pandas as pd

from ridepool.faults import RefusedInput

Numbers = npt.NDArray[np.int64]
Decimals = npt.NDArray[np.float64]
Path = Union[str, "pathlib.PurePath"]


@dataclass(frozen=True)
class Table:
    """A frame, with what it is called, and the line of each row where it was read from a file."""

    frame: Any
    file: str
    lines: Optional[Sequence[int]] = None

    def line(self, row: int) -> int:
        """The line of a row, both counted as a reader of the table does: from 1."""
        return row + 1 if self.lines is None else self.lines[row]

    def refused(self, row: int, column: str, expected: str) -> RefusedInput:
        """The exception for what stands in a row, counted from 0."""
        return RefusedInput(self.file, self.line(row), column, self.frame[column].iloc[row], expected)

    def need(self, columns: Sequence[str]) -> None:
        """Refuses a table that lacks one of these columns."""
        for column in columns:
            if column not in self.frame.columns:
                raise RefusedInput(self.file, None, column, None, reason=f"there is no column {column}; there are: "
                                   f"{', '.join(map(str, self.frame.columns))}")

    def whole(self, column: str, least: int, most: int, expected: Optional[str] = None) -> Numbers:
        """The whole numbers of a column, each from `least` to `most`."""
        values = self.frame[column]
        numbers = pd.to_numeric(values, errors="coerce").to_numpy(dtype=np.float64, na_value=np.nan)
        good = np.isfinite(numbers) & (numbers == np.floor(numbers)) & (numbers >= least) & (numbers <= most)
        if values.dtype == object or pd.api.types.is_string_dtype(values):
            good &= plain_digits(values)
        if pd.api.types.is_bool_dtype(values):
            good &= False
        if not good.all():
            raise self.refused(int(np.argmin(good)), column, expected or f"a whole number from {least} to {most}")
        return np.asarray(numbers, dtype=np.int64)

    def decimal(self, column: str) -> Decimals:
        """The decimal numbers of a column, not a number where nothing stands."""
        values = self.frame[column]
        empty = values.isna().to_numpy() | (values.astype(str) == "").to_numpy()
        numbers = pd.to_numeric(values, errors="coerce").to_numpy(dtype=np.float64, na_value=np.nan)
        wrong = ~np.isfinite(numbers) & ~empty
        if wrong.any():
            raise self.refused(int(np.argmax(wrong)), column, "a decimal number")
        return np.asarray(numbers, dtype=np.float64)

    def only_once(self, column: str, values: Numbers) -> None:
        """Refuses a second row with the same number."""
        twice = pd.Series(values).duplicated().to_numpy()
        if twice.any():
            raise self.refused(int(np.argmax(twice)), column, "a number that no earlier row has")

    def at_most(self, most: int, what: str) -> None:
        """Refuses a table of too many rows."""
        if len(self.frame) > most:
            raise RefusedInput(self.file, self.line(most), None, len(self.frame), f"at most {most} {what}")


def plain_digits(values: Any) -> "npt.NDArray[np.bool_]":
    """Which texts of a column are digits alone; what is no text is judged as a number alone."""
    texts = values.astype(str)
    is_text = values.map(lambda value: isinstance(value, str)).to_numpy()
    return np.asarray(texts.str.fullmatch("[0-9]+").to_numpy(dtype=bool) | ~is_text, dtype=bool)


def read_csv(path: Path, header: Optional[Sequence[str]] = None) -> Table:
    """A CSV file, each field as a text. With `header` the first row must be exactly that."""
    text = pathlib.Path(path).read_bytes()
    try:
        lines = text.decode("utf-8-sig").splitlines()
        frame = pd.read_csv(path, dtype=str, keep_default_na=False, encoding="utf-8-sig")
    except (UnicodeDecodeError, pd.errors.EmptyDataError, pd.errors.ParserError) as fault:
        raise RefusedInput(str(path), reason=f"not a CSV file: {' '.join(str(fault).split())}") from None
    numbers = [number for number, line in enumerate(lines, 1) if line]
    if header is not None and tuple(frame.columns) != tuple(header):
        raise RefusedInput(str(path), numbers[0], None, lines[numbers[0] - 1], f"the header {','.join(header)}")
    return Table(frame, str(path), numbers[1:])
