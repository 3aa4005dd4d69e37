"""The map of a batch: streets grey, each chosen trip a coloured line along shortest ways with its stops in
order, riders left out as crosses, moves of idle vehicles dashed.

Where there are many trips, only those with the most stops have colours, names and numbers at their stops;
the others are thin and dark.
"""

import math
from collections import Counter
from dataclasses import dataclass
from typing import Any, Dict, Iterable, List, Mapping, Optional, Sequence, Tuple

from matplotlib.collections import LineCollection
from matplotlib.lines import Line2D
from matplotlib.patheffects import Normal, Stroke

from ridepool.draw import style
from ridepool.draw.ground import Ground, Point
from ridepool.report.reader import Batch, Report, Request, Trip
from ridepool.words import Fault

MAP_WIDTH, LEAST_HEIGHT, MOST_HEIGHT = 7.4, 3.4, 10.5
LEFT, BELOW, TITLE, KEY_WIDTH = 0.15, 0.15, 0.45, 3.2
MOST_NAMED, MOST_NODE_NAMES = 12, 40
MARK = 11.0
ASIDE, MOST_ASIDE = 1.6, 4.0
DASHES = (0, (4, 3))


@dataclass(frozen=True)
class Way:
    """A trip on the map: the vehicle's node where it is known, its stops, and the line through them."""

    trip: Trip
    begin: Optional[int]
    line: List[Point]


@dataclass(frozen=True)
class Canvas:
    """The map's axes, and how many points a metre has on paper."""

    axes: style.Axes
    scale: float

    def aside(self, points: Sequence[Point], shift: float) -> List[Point]:
        """Points moved by so many points on paper to the upper right."""
        return [(x + shift / self.scale, y + shift / self.scale) for x, y in points]


def find_batch(report: Report, number: int) -> Batch:
    """The batch of a number, with a plan."""
    for batch in report.batches:
        if batch.number == number:
            if batch.overflow:
                raise Fault(f"batch {number} has no plan: it had more pairs than allowed")
            return batch
    there = f"1 to {report.batches[-1].number}" if report.batches else "none"
    raise Fault(f"no batch {number}: the report has {there}")


def ways_of(batch: Batch, ground: Ground, before: Mapping[int, int]) -> List[Way]:
    """The trips with stops, those with the most stops first."""
    ways = []
    for trip in batch.plans():
        begin = before.get(trip.vehicle)
        nodes = [node for node in (begin, *(stop.node for stop in trip.stops)) if node is not None]
        if trip.stops:
            ways.append(Way(trip, begin, ground.line(nodes)))
    return sorted(ways, key=lambda way: (-len(way.trip.stops), way.trip.vehicle))


def canvas_of(places: Mapping[int, Point]) -> Tuple[style.Picture, Canvas]:
    """An empty picture with a map as high as the places ask for."""
    xs, ys = zip(*places.values())
    wide, high = max(xs) - min(xs) or 1.0, max(ys) - min(ys)
    margin = 0.06 * max(wide, high)
    wide, high = wide + 2 * margin, high + 2 * margin
    height = min(max(MAP_WIDTH * high / wide, LEAST_HEIGHT), MOST_HEIGHT)
    picture = style.figure(LEFT + MAP_WIDTH + KEY_WIDTH, BELOW + height + TITLE, layout=None)
    width = picture.get_figwidth()
    area = (LEFT / width, BELOW / picture.get_figheight(), MAP_WIDTH / width, height / picture.get_figheight())
    axes = picture.add_axes(area)
    metres = max(wide / MAP_WIDTH, high / height)
    middle = (max(xs) + min(xs)) / 2, (max(ys) + min(ys)) / 2
    axes.set_xlim(middle[0] - metres * MAP_WIDTH / 2, middle[0] + metres * MAP_WIDTH / 2)
    axes.set_ylim(middle[1] - metres * height / 2, middle[1] + metres * height / 2)
    axes.axis("off")
    return picture, Canvas(axes, 72 / metres)


def spread(points: Iterable[Point], apart: float, taken: List[Point]) -> List[Point]:
    """Places for marks near their points, each `apart` from those before it and from the taken ones."""
    placed: List[Point] = []
    for point in points:
        tries = [point] + [around(point, apart * ring, part / (8 * ring))
                           for ring in (1, 2, 3, 4) for part in range(8 * ring)]
        free = (place for place in tries
                if all(math.dist(place, other) >= 0.97 * apart for other in taken + placed))
        placed.append(next(free, point))
    return placed


def around(point: Point, radius: float, turn: float) -> Point:
    """A place on the circle around a point, from the upper right on."""
    angle = 2 * math.pi * (turn + 0.125)
    return point[0] + radius * math.cos(angle), point[1] + radius * math.sin(angle)


def draw_streets(canvas: Canvas, ground: Ground) -> List[Point]:
    """The streets, and the nodes' names where there are few. Gives the places that the names take."""
    names, arcs = ground.streets.names, ground.streets.graph.tocoo()
    pairs = {(min(pair), max(pair)) for pair in zip(arcs.row, arcs.col)}
    lines = [[ground.places[names[start]], ground.places[names[end]]] for start, end in sorted(pairs)]
    width = 1.6 if len(lines) <= 2000 else 0.7
    canvas.axes.add_collection(
        LineCollection(lines, colors=style.PALE, linewidths=width, zorder=0, gid="streets"))
    if len(names) > MOST_NODE_NAMES:
        return []
    below = [(x, y - 1.3 * MARK / canvas.scale) for x, y in (ground.places[node] for node in names)]
    for node, place in zip(names, below):
        canvas.axes.text(*place, str(node), color=style.GREY, fontsize=7, ha="center", va="center")
    return below


def draw_others(canvas: Canvas, ways: Sequence[Way], ground: Ground) -> None:
    """Trips without a name: a street is the wider the more of them use it; their stops are small marks."""
    uses = Counter(frozenset(leg) for way in ways for leg in zip(way.line, way.line[1:]) if leg[0] != leg[1])
    most = max(uses.values(), default=1)
    legs = sorted(uses, key=lambda leg: (uses[leg], sorted(leg)))
    canvas.axes.add_collection(LineCollection(
        [sorted(leg) for leg in legs], colors=style.OTHERS, zorder=1, gid="others",
        linewidths=[0.5 + 2.5 * uses[leg] / most for leg in legs]))
    for kind, shape in (("pick", "^"), ("drop", "v")):
        places = [ground.places[stop.node] for way in ways for stop in way.trip.stops if stop.kind == kind]
        if places:
            canvas.axes.scatter(*zip(*places), s=9, marker=shape, color=style.DARK, linewidths=0, zorder=2,
                                gid=f"other-{kind}s")


def ink_on(colour: str) -> str:
    """Black on light colours, white on dark ones."""
    red, green, blue = (int(colour[at:at + 2], 16) for at in (1, 3, 5))
    return "black" if 0.3 * red + 0.59 * green + 0.11 * blue > 140 else "white"


def colour_of(rank: int) -> str:
    """A trip's colour; after the last one they come again."""
    return style.TRIPS[rank % len(style.TRIPS)]


def strokes(rank: int) -> Dict[str, Any]:
    """How a named trip's line is drawn: where the colours come again, with white inside."""
    looks: Dict[str, Any] = {"color": colour_of(rank), "linewidth": 2.4}
    if rank >= len(style.TRIPS):
        looks["path_effects"] = [Normal(), Stroke(linewidth=0.8, foreground="white")]
    return looks


def draw_lines(canvas: Canvas, ways: Sequence[Way]) -> None:
    """The lines of named trips, a little aside from each other where they share a street."""
    step = min(ASIDE, 2 * MOST_ASIDE / max(1, len(ways) - 1))
    for rank, way in enumerate(ways):
        aside = canvas.aside(way.line, step * (rank - (len(ways) - 1) / 2))
        line = way.line[:1] + aside + way.line[-1:]
        canvas.axes.plot(*zip(*line), solid_joinstyle="round", zorder=3, gid=f"way-{way.trip.vehicle}",
                         **strokes(rank))


def draw_stops(canvas: Canvas, ways: Sequence[Way], ground: Ground, taken: List[Point]) -> None:
    """The stops of named trips with their numbers in the trip's order; marks at one node stand side by side."""
    stops = [(rank, order, stop) for rank, way in enumerate(ways)
             for order, stop in enumerate(way.trip.stops, 1)]
    points = [ground.places[stop.node] for _, _, stop in stops]
    placed = spread(points, 1.25 * MARK / canvas.scale, taken)
    strings = [[place, point] for place, point in zip(placed, points) if place != point]
    canvas.axes.add_collection(LineCollection(strings, colors=style.GREY, linewidths=0.5, zorder=4))
    for kind, shape, name in (("pick", "^", "pickups"), ("drop", "v", "dropoffs")):
        shown = [(place, rank) for place, (rank, _, stop) in zip(placed, stops) if stop.kind == kind]
        if shown:
            canvas.axes.scatter(
                *zip(*(place for place, _ in shown)), s=(1.25 * MARK) ** 2, marker=shape, zorder=5, gid=name,
                color=[colour_of(rank) for _, rank in shown], edgecolors="white", linewidths=0.8)
    for (x, y), (rank, order, stop) in zip(placed, stops):
        canvas.axes.text(x, y - MARK / canvas.scale, f"{ways[rank].trip.vehicle}", color=style.DARK, fontsize=4.5, ha="center",
                         va="center", zorder=6, gid=f"stop-of-{ways[rank].trip.vehicle}")
        lift = (-1.2 if stop.kind == "pick" else 1.2) / canvas.scale
        canvas.axes.text(x, y + lift, str(order), color=ink_on(colour_of(rank)), fontsize=6.5, ha="center",
                         va="center_baseline", zorder=6)


def bar_metres(metres: float) -> float:
    """The length of a scale bar: the longest of 1, 2 and 5 with noughts that is at most so many metres."""
    least = 10.0 ** math.floor(math.log10(metres))
    return max(times * least for times in (1, 2, 5) if times * least <= metres)


def draw_scale(canvas: Canvas) -> None:
    """A bar of so many metres, at the lower left."""
    (west, east), (south, north) = canvas.axes.get_xlim(), canvas.axes.get_ylim()
    metres = bar_metres((east - west) / 4)
    x, y = west + 0.02 * (east - west), south + 0.02 * (north - south)
    canvas.axes.plot([x, x + metres], [y, y], color=style.DARK, linewidth=2, solid_capstyle="butt", zorder=8, gid="scale")
    text = f"{metres:,.0f} m" if metres < 1000 else f"{metres / 1000:,.0f} km"
    canvas.axes.text(x, y + 3 / canvas.scale, text, color=style.DARK, fontsize=7, va="bottom", zorder=8)


def draw_vehicles(canvas: Canvas, named: Sequence[Way], before: Mapping[int, int], ground: Ground) -> None:
    """A ring where each vehicle stands, coloured for named trips."""
    colours = {way.trip.vehicle: colour_of(rank) for rank, way in enumerate(named)}
    known = sorted((vehicle in colours, vehicle, node) for vehicle, node in before.items())
    if known:
        small = len(known) > 60
        canvas.axes.scatter(
            *zip(*(ground.places[node] for _, _, node in known)), zorder=4, gid="vehicles", facecolors="white",
            s=[50 if is_named else 8 if small else 30 for is_named, _, _ in known],
            edgecolors=[colours.get(vehicle, style.GREY) for _, vehicle, _ in known],
            linewidths=[1.8 if is_named else 0.8 for is_named, _, _ in known])


def draw_left(canvas: Canvas, batch: Batch, requests: Mapping[int, Request], before: Mapping[int, int],
              ground: Ground) -> int:
    """Riders left out, and the moves towards them. Gives how many moves have no known beginning."""
    places = [ground.places[requests[rider].origin] for rider in batch.out]
    if places:
        size = 90 if len(places) <= 40 else 40
        canvas.axes.scatter(*zip(*places), s=size, marker="X", color=style.BLACK, edgecolors="white",
                            linewidths=0.8, zorder=7, gid="left-out")
    known = [move for move in batch.moves if move.vehicle in before]
    lines = [ground.line([before[move.vehicle], requests[move.rider].origin]) for move in known]
    canvas.axes.add_collection(LineCollection(
        lines, colors=style.BLACK, linewidths=1.1, linestyles=DASHES, zorder=3.5, gid="moves"))
    return len(batch.moves) - len(known)


def key(canvas: Canvas, named: Sequence[Way], others: Sequence[Way], batch: Batch, before: Mapping[int, int]) -> None:
    """What the colours and shapes mean, beside the map."""
    shown = []
    for rank, way in enumerate(named):
        trip = way.trip
        text = f"vehicle {trip.vehicle}: {style.counted(len(trip.stops), 'stop')}, delay {trip.delay:,} s"
        shown.append((Line2D([], [], **strokes(rank)), text))
    if others:
        text = f"{style.counted(len(others), 'other trip')}: wider for more"
        shown.append((Line2D([], [], color=style.OTHERS, linewidth=2), text))
    shown += [(mark("^", color=style.DARK), "pickup"), (mark("v", color=style.DARK), "drop-off")]
    if before:
        shown.append((mark("o", markerfacecolor="white", markeredgecolor=style.DARK), "vehicle at this seal"))
    if batch.out:
        shown.append((mark("X", color=style.BLACK, markeredgecolor="white", markersize=8), "rider left out"))
    if batch.moves:
        dashes = Line2D([], [], color=style.BLACK, linewidth=1.1, linestyle=DASHES)
        shown.append((dashes, "move of an idle vehicle"))
    canvas.axes.legend(*zip(*shown), loc="upper left", bbox_to_anchor=(1.0, 1.0), frameon=False, fontsize=8.5)


def mark(shape: str, **looks: Any) -> Any:
    """A mark of the key."""
    return Line2D([], [], linestyle="", marker=shape, **looks)


def notes(ways: Sequence[Way], unknown_moves: int) -> str:
    """What the map can't show, for a line below the key."""
    lost = sum(1 for way in ways if way.begin is None)
    lines = [f"{style.counted(lost, 'line')} without the way to the first stop"] if lost else []
    lines += [f"{style.counted(unknown_moves, 'move')} not drawn"] if unknown_moves else []
    return "\n".join(lines + ["name fleet=fleet.csv for these"]) if lines else ""


def draw(report: Report, number: int, ground: Ground) -> style.Picture:
    """The picture."""
    batch = find_batch(report, number)
    requests, before = report.requests(), ground.vehicles_before(report, batch.position)
    ways = ways_of(batch, ground, before)
    named, others = (ways, []) if len(ways) <= MOST_NAMED else (ways[:MOST_NAMED], ways[MOST_NAMED:])
    picture, canvas = canvas_of(ground.places)
    taken = draw_streets(canvas, ground) + [ground.places[requests[rider].origin] for rider in batch.out]
    draw_others(canvas, others, ground)
    draw_lines(canvas, named)
    draw_stops(canvas, named, ground, taken)
    draw_vehicles(canvas, named, before, ground)
    draw_scale(canvas)
    unknown_moves = draw_left(canvas, batch, requests, before, ground)
    key(canvas, named, others, batch, before)
    canvas.axes.text(1.03, 0.0, notes(ways, unknown_moves), transform=canvas.axes.transAxes, fontsize=8,
                     va="bottom", color=style.GREY)
    picture.suptitle(
        f"Batch {number} at second {batch.second:,}: {style.counted(len(ways), 'trip')}, "
        f"{style.counted(len(batch.out), 'rider')} left out, {style.counted(len(batch.moves), 'move')}",
        x=0.02, ha="left")
    return picture
