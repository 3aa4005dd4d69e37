"""Colours, sizes and the writing of a picture.

The colours are those of Paul Tol's scheme "muted" for trips and of Okabe and Ito for all else; both were
chosen so that the colour-blind tell them apart. Whatever differs by colour differs by shape or place, too.
"""

from typing import Any, List, Optional, Sequence, Tuple

import matplotlib
from matplotlib.backends.backend_agg import FigureCanvasAgg
from matplotlib.colors import to_hex, to_rgb, to_rgba_array
from matplotlib.figure import Figure
from matplotlib.text import Text
from matplotlib.ticker import FuncFormatter, MaxNLocator

from ridepool.words import Fault

BLACK, DARK, GREY, OTHERS, PALE = "#000000", "#444444", "#777777", "#a8a8a8", "#dddddd"
BLUE, ORANGE, SEAL = "#0072b2", "#d55e00", "#a0a0a0"
DARK_SKY, SKY, MIST = "#56b4e9", "#8ecbf0", "#cfe8f8"
TRIPS = ("#332288", "#cc6677", "#117733", "#88ccee", "#882255", "#ddcc77", "#44aa99", "#aa4499", "#999933")
ENDINGS = (".svg", ".png", ".pdf")
COARSE, FINE = 110, 200
Picture = Any  # matplotlib has no types
Axes = Any

matplotlib.rcParams.update({
    "svg.fonttype": "none",
    "svg.hashsalt": "ridepool",
    "font.family": "sans-serif",
    "font.sans-serif": ["DejaVu Sans", "Verdana", "Arial", "Helvetica"],
    "font.size": 9,
    "axes.titlesize": 10,
    "axes.spines.top": False,
    "axes.spines.right": False,
    "hatch.linewidth": 0.5,
})


# On a dark ground these take the place of the plain ones; the colours of trips and measures stay.
GROUND = "#14171c"
ON_DARK = {BLACK: "#f2f2f2", DARK: "#d0d0d0", GREY: "#a0a0a0", OTHERS: "#6a6f78", PALE: "#343a44", SEAL: "#787878",
           BLUE: "#4aa3df", "#332288": "#8f80e0", "#882255": "#c4609a", "#ffffff": GROUND}
COLOURED = ("color", "facecolor", "edgecolor", "markerfacecolor", "markeredgecolor")


def check_ending(path: str) -> None:
    """Refuses a picture's name whose ending says nothing."""
    if not path.lower().endswith(ENDINGS):
        raise Fault(f"{path}: a picture's name ends in {' or '.join(ENDINGS)}")


def figure(width: float, height: float, fine: bool = False, layout: Optional[str] = "constrained") -> Picture:
    """An empty picture of so many inches; a fine one has more dots for what is small."""
    picture = Figure(figsize=(width, height), layout=layout, dpi=FINE if fine else COARSE)
    FigureCanvasAgg(picture)
    return picture


def darker(colours: Any) -> List[Tuple[float, ...]]:
    """Colours as they are on a dark ground, of one or of many."""
    rows = to_rgba_array(colours)
    return [(*to_rgb(ON_DARK.get(to_hex(row), to_hex(row))), row[3]) for row in rows]


def darken(picture: Picture) -> None:
    """Puts a picture on a dark ground: what is black gets light, and what is white gets dark."""
    picture.set_facecolor(GROUND)
    for axes in picture.axes:
        axes.set_facecolor(GROUND)
    for artist in picture.findobj():
        if artist is picture.patch or any(artist is axes.patch for axes in picture.axes):
            continue
        for name in COLOURED:
            if hasattr(artist, f"set_{name}") and hasattr(artist, f"get_{name}"):
                darken_one(artist, name)


def darken_one(artist: Any, name: str) -> None:
    """The same for one colour of what is drawn. What has none, or takes it from elsewhere, stays."""
    given = getattr(artist, f"get_{name}")()
    if isinstance(given, str) and given in ("none", "auto") or given is None or len(given) == 0:
        return
    if isinstance(artist, Text) and given == "white":
        return
    found = darker(given)
    is_many = not isinstance(given, (str, tuple)) and hasattr(given[0], "__len__")
    getattr(artist, f"set_{name}")(found if is_many else found[0])


def write(picture: Picture, path: str) -> None:
    """Writes a picture. The same report always gives the same SVG and PNG."""
    undated = {"Date": None} if path.lower().endswith(".svg") else None
    picture.savefig(path, dpi="figure", metadata=undated)


def whole_ticks(axis: Any, most: int = 10, steps: Sequence[int] = (1, 2, 5, 10)) -> None:
    """So many ticks at most, at whole numbers, with a comma before each three digits."""
    axis.set_major_locator(MaxNLocator(most, integer=True, steps=steps, min_n_ticks=1))
    axis.set_major_formatter(FuncFormatter(lambda value, _: f"{value:,.0f}"))


def counted(count: int, word: str, words: Optional[str] = None) -> str:
    """`1 rider`, `2 riders`, `1,000 riders`."""
    return f"{count:,} {word if count == 1 else words or word + 's'}"
