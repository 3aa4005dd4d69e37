"""The figures of a study: four measures over the size of the fleet, a line for each number of seats, a panel for each
longest wait. A cell that is marked is drawn hollow, and the caption says why."""

import csv
import textwrap
from collections import defaultdict
from typing import Any, DefaultDict, Dict, List, Mapping, Sequence, Tuple

from ridepool.draw import style
from ridepool.study.plan import SETTINGS, SPLITS
from ridepool.study.table import COLUMNS, DONE, MARKED, OLD_COLUMNS
from ridepool.words import Fault

NAMES = (*SETTINGS, "split")
MEASURES = (("share", "served,\n% of requests", 100), ("mean_wait", "mean wait,\nseconds", 1),
            ("mean_delay", "mean delay,\nseconds", 1), ("aboard", "persons aboard\na vehicle, mean", 1))
DRAWN = ("vehicles", "seats", "wait")
TAKEN_TOGETHER = ("delay", "seed")
CAPTION, MOST_REASONS = 110, 6
MARKS = "os^Dv*XP"
DASHES = ("-", "--", "-.", ":")
Row = Dict[str, Any]  # settings are numbers, all else texts
COLOURS = (style.BLUE, style.ORANGE, style.BLACK, style.DARK_SKY, style.GREY)


def read_cells(path: str) -> List[Row]:
    """The rows of cells.csv that have results. A table of version 1.3 has the first columns alone."""
    with open(path, newline="", encoding="utf-8") as file:
        table = csv.DictReader(file)
        if tuple(table.fieldnames or ()) not in (COLUMNS, OLD_COLUMNS):
            raise Fault(f"{path}: not a table of study.py")
        rows = [with_new(row) for row in table if row["state"] in (DONE, MARKED) and row["share"]]
    return [{**row, **{name: int(row[name]) for name in SETTINGS}} for row in rows]


def with_new(row: Mapping[str, str]) -> Dict[str, str]:
    """A row with the columns that its table may not have. Of an older one its overflows mark it."""
    over = int(row["overflows"])
    mark = f"{over} of {row['batches']} batches overflowed" if over else ""
    return {"fleets": "1", "split": SPLITS[0], "mark": mark, **row}


def chosen(path: str, rows: List[Row], values: Mapping[str, str]) -> List[Row]:
    """The rows with the settings that the words name. What else differs between them must be drawn."""
    asked = {name: value for name, value in values.items() if name in NAMES}
    rows = [row for row in rows if all(str(row[name]) == value for name, value in asked.items())]
    if not rows:
        raise Fault(f"{path}: no cell that is done has these settings")
    for name in NAMES:
        there = sorted({row[name] for row in rows})
        if len(there) > 1 and name not in DRAWN + TAKEN_TOGETHER:
            raise Fault(f"{path}: cells differ in {name}: name one of {', '.join(map(str, there))} by {name}=")
    return rows


def line_of(rows: Sequence[Row], measure: str, factor: int) -> Tuple[List[int], List[float]]:
    """Fleet sizes and the mean of a measure at each, over the seeds. Where nobody is served there is no wait and no delay."""
    values: DefaultDict[int, List[float]] = defaultdict(list)
    for row in rows:
        if row[measure]:
            values[row["vehicles"]].append(factor * float(row[measure]))
    sizes = sorted(values)
    return sizes, [sum(values[size]) / len(values[size]) for size in sizes]


def draw_marked(axes: style.Axes, rows: Sequence[Row], sizes: Sequence[int], line: Sequence[float], at: int,
                name: str) -> None:
    """Hollow marks where a cell is marked."""
    marked = {row["vehicles"] for row in rows if row["mark"]}
    hollow = [(size, value) for size, value in zip(sizes, line) if size in marked]
    if hollow:
        axes.plot(*zip(*hollow), marker=MARKS[at % len(MARKS)], linestyle="", color=COLOURS[at % len(COLOURS)],
                  markerfacecolor="white", markersize=5, clip_on=False, zorder=4, gid=f"{name}-marked")


def draw_panel(axes: style.Axes, rows: Sequence[Row], seats: Sequence[int], measure: str, factor: int) -> None:
    """A measure of one longest wait."""
    for at, count in enumerate(seats):
        mine = [row for row in rows if row["seats"] == count]
        sizes, line = line_of(mine, measure, factor)
        axes.plot(sizes, line, marker=MARKS[at % len(MARKS)], linestyle=DASHES[at % len(DASHES)], linewidth=1.2,
                  color=COLOURS[at % len(COLOURS)], markersize=4.5, clip_on=False, zorder=3,
                  label=style.counted(count, "seat"), gid=f"{measure}-{count}")
        draw_marked(axes, mine, sizes, line, at, f"{measure}-{count}")
    axes.grid(axis="y", color=style.PALE, linewidth=0.6)
    axes.set_axisbelow(True)


def caption_of(rows: Sequence[Row]) -> List[str]:
    """What all cells have in common, which seeds they have, and why cells are marked."""
    fixed = [f"{name} {rows[0][name]}" for name in NAMES if name not in DRAWN and len({row[name] for row in rows}) == 1]
    seeds = sorted({row["seed"] for row in rows})
    lines = textwrap.wrap(", ".join(name for name in fixed if not name.startswith("seed ")) +
                          f"; {'seed' if len(seeds) == 1 else 'the mean of seeds'} {', '.join(map(str, seeds))}", CAPTION)
    marked = [row for row in rows if row["mark"]]
    why = [f"hollow: {cell_name(row)}: {row['mark']}" for row in marked[:MOST_REASONS]]
    more = [f"and {len(marked) - MOST_REASONS} more hollow cells"] if len(marked) > MOST_REASONS else []
    return [*lines, *why, *more]


def cell_name(row: Row) -> str:
    """A cell by what is drawn."""
    return f"{style.counted(row['vehicles'], 'vehicle')}, {style.counted(row['seats'], 'seat')}, wait {row['wait']}"


def draw(path: str, values: Mapping[str, str]) -> style.Picture:
    """The picture."""
    rows = chosen(path, read_cells(path), values)
    waits, seats = (sorted({row[name] for row in rows}) for name in ("wait", "seats"))
    picture = style.figure(max(4.5, 1.5 + 2.6 * len(waits)), 8.0)
    panels = picture.subplots(len(MEASURES), len(waits), sharex=True, sharey="row", squeeze=False)
    for line, (measure, name, factor) in zip(panels, MEASURES):
        for axes, wait in zip(line, waits):
            draw_panel(axes, [row for row in rows if row["wait"] == wait], seats, measure, factor)
        line[0].set_ylabel(name)
        line[0].set_ylim(bottom=0)
        style.whole_ticks(line[0].yaxis, most=5) if measure != "aboard" else None
    for axes, wait in zip(panels[0], waits):
        axes.set_title(f"wait at most {wait:,} s")
    for axes in panels[-1]:
        axes.set_xlabel("vehicles")
        style.whole_ticks(axes.xaxis, most=5)
    picture.supxlabel("\n".join(caption_of(rows)), x=0.01, ha="left", fontsize=7)
    panels[0][-1].legend(loc="upper left", bbox_to_anchor=(1.0, 1.0), frameon=False)
    picture.align_ylabels(panels[:, 0])
    return picture
