"""The figure of compared policies: a panel for each of three measures, with a bar for each policy and a line from the least
to the most over the seeds. A policy with marked days is hollow, and its name says so."""

from typing import Any, Dict, List

from ridepool.draw import style
from ridepool.study.spread import read_rows

PANELS = (("share", "served,\n% of requests", 100), ("mean_wait", "mean wait,\nseconds", 1),
          ("mean_in_car", "mean in-car delay,\nseconds", 1))
Row = Dict[str, Any]


def name_of(row: Row) -> str:
    """A policy with its seats, and how many of its days are marked."""
    name = f"{row['policy']}, {style.counted(int(row['seats']), 'seat')}"
    return f"{name}: {row['marked']:.0f} of {style.counted(int(row['seeds']), 'day')} marked" if row["marked"] else name


def draw_panel(axes: style.Axes, rows: List[Row], measure: str, factor: int) -> None:
    """A measure of all policies, the first one on top."""
    means = [factor * row[measure] for row in rows]
    beyond = [[factor * (row[measure] - row[f"{measure}_least"]) for row in rows],
              [factor * (row[f"{measure}_most"] - row[measure]) for row in rows]]
    bars = axes.barh(range(len(rows)), means, height=0.7, xerr=beyond, color=style.SKY, edgecolor=style.SKY,
                     error_kw={"ecolor": style.DARK, "capsize": 2.5, "elinewidth": 1.0})
    for row, bar in zip(rows, bars):
        bar.set_gid(f"{measure}-{row['policy'].replace(' ', '-')}-{row['seats']:.0f}")
        bar.set_facecolor("white" if row["marked"] else style.SKY)
    axes.grid(axis="x", color=style.PALE, linewidth=0.6)
    axes.set_axisbelow(True)
    axes.set_xlim(left=0)
    style.whole_ticks(axes.xaxis, most=5)


def draw(path: str) -> style.Picture:
    """The picture of policies.csv."""
    rows = read_rows(path)
    picture = style.figure(9.0, 1.3 + 0.3 * len(rows))
    panels = picture.subplots(1, len(PANELS), sharey=True)
    for axes, (measure, name, factor) in zip(panels, PANELS):
        draw_panel(axes, rows, measure, factor)
        axes.set_xlabel(name)
    panels[0].set_yticks(range(len(rows)), [name_of(row) for row in rows])
    panels[0].invert_yaxis()
    seeds = style.counted(int(rows[0]["seeds"]), "seed")
    picture.supxlabel(f"bars: the mean over {seeds}; lines: the least and the most", x=0.01, ha="left", fontsize=7)
    return picture
