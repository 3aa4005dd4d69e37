"""The service of each batch: riders served and left out, waits, delays, cost and bound, vehicle-trip pairs."""

import math
from dataclasses import dataclass
from typing import AbstractSet, Any, Dict, Iterator, List, Mapping, Optional, Sequence, Set, Tuple

from matplotlib.ticker import MaxNLocator

from ridepool.draw import style
from ridepool.inputs.streets import Streets
from ridepool.report.marks import refusals_text
from ridepool.report.measure import refused_of
from ridepool.report.reader import Batch, Report, Request, Stop
from ridepool.words import Fault

WIDTH, HEIGHT = 9.0, 9.5
GAP = "gap,\n% of cost"


@dataclass(frozen=True)
class Service:
    """What a batch's plan gives its riders. Waits are of its pickups, delays of its drop-offs. `served` are those whom no
    batch before has picked up in its plan: a rider whose vehicle comes some batches later stands in each of their plans,
    and counts once.

    `worst_delay` is None where no network tells how long each ride takes at least.
    """

    number: int
    served: int
    out: int
    waits: Tuple[int, ...]
    mean_delay: float
    worst_delay: float
    cost: float
    bound: float
    rows: int


def direct_times(report: Report, streets: Optional[Streets]) -> Dict[int, float]:
    """The least seconds of each rider's ride, nothing without a network."""
    requests = report.requests()
    if streets is None:
        return {}
    pairs = streets.times({(request.origin, request.destination) for request in requests.values()})
    return {rider: pairs[r.origin, r.destination] for rider, r in requests.items()}


def delay_of(stop: Stop, requests: Mapping[int, Request], direct: Mapping[int, float]) -> float:
    """A drop-off's delay: its second less the earliest arrival possible, at least 0."""
    return max(0.0, stop.second - requests[stop.rider].second - direct[stop.rider])


def picked_by(batch: Batch) -> Set[int]:
    """The riders whom a batch's plan picks up."""
    return {stop.rider for trip in batch.plans() for stop in trip.stops if stop.kind == "pick"}


def services_of(report: Report, requests: Mapping[int, Request], direct: Mapping[int, float]) -> Iterator[Service]:
    """The service of each batch."""
    seen: Set[int] = set()
    for batch in report.batches:
        yield service_of(batch, requests, direct, seen)
        seen |= picked_by(batch)


def service_of(batch: Batch, requests: Mapping[int, Request], direct: Mapping[int, float],
               seen: AbstractSet[int] = frozenset()) -> Service:
    """A batch's service. `seen` are the riders whom a batch before has in its plan."""
    stops = [stop for trip in batch.plans() for stop in trip.stops]
    drops = [stop for stop in stops if stop.kind == "drop"]
    waits = [stop.second - requests[stop.rider].second for stop in stops if stop.kind == "pick"]
    delays = [delay_of(drop, requests, direct) for drop in drops if drop.rider in direct]
    total = sum(trip.delay or 0 for trip in batch.plans())
    return Service(
        batch.number, len(picked_by(batch) - seen), len(batch.out), tuple(waits),
        total / len(drops) if drops else math.nan, max(delays, default=math.nan),
        math.nan if batch.cost is None else batch.cost, math.nan if batch.bound is None else batch.bound,
        batch.counts["row"])


def looks(numbers: Sequence[int]) -> Dict[str, Any]:
    """Lines with marks that stay apart."""
    return {"linewidth": 1.2, "markersize": 5 if len(numbers) <= 60 else 2, "clip_on": False, "zorder": 3}


def draw_served(axes: style.Axes, numbers: Sequence[int], services: Sequence[Service], overflows: Sequence[int]) -> None:
    """Riders whom a plan picks up first, and riders left out on top of them."""
    served, out = [s.served for s in services], [s.out for s in services]
    axes.bar(numbers, served, color=style.BLUE, label="served")
    axes.bar(numbers, out, bottom=served, color=style.ORANGE, hatch="////", edgecolor="white", linewidth=0,
             label="left out")
    if overflows:
        axes.plot(overflows, [0] * len(overflows), "X", color=style.BLACK, markersize=8, clip_on=False,
                  linestyle="", label="no plan: more\npairs than allowed", gid="overflows")
    axes.set_ylim(0, 1.05 * max(1, *(s.served + s.out for s in services)))
    axes.set_ylabel("riders")


def draw_spread(axes: style.Axes, numbers: Sequence[int], means: List[float], worsts: List[float], limit: int,
                name: str) -> None:
    """Mean and worst seconds, and the limit that the settings give."""
    axes.axhline(limit, color=style.GREY, linewidth=1, linestyle=":", label=f"limit {limit:,}")
    if any(not math.isnan(worst) for worst in worsts):
        axes.plot(numbers, worsts, "^--", color=style.ORANGE, label="worst", gid=f"worst-{name}",
                  **looks(numbers))
    axes.plot(numbers, means, "o-", color=style.BLUE, label="mean", gid=f"mean-{name}", **looks(numbers))
    axes.set_ylim(0, 1.05 * max([limit, 1] + [value for value in means + worsts if not math.isnan(value)]))
    axes.set_ylabel(f"{name},\nseconds")


def draw_cost(axes: style.Axes, numbers: Sequence[int], services: Sequence[Service]) -> None:
    """The plan's cost above its bound."""
    costs, bounds = [s.cost for s in services], [s.bound for s in services]
    axes.fill_between(numbers, bounds, costs, color=style.SKY, linewidth=0)
    axes.plot(numbers, costs, "o-", color=style.BLUE, label="cost", gid="cost", **looks(numbers))
    axes.plot(numbers, bounds, "v--", color=style.ORANGE, label="bound", gid="bound", **looks(numbers))
    known = [value for value in costs + bounds if not math.isnan(value)]
    axes.set_ylim(min([0] + known), 1.05 * max([1] + known))
    axes.set_ylabel("cost,\nseconds")


def draw_gap(axes: style.Axes, numbers: Sequence[int], services: Sequence[Service]) -> None:
    """How far the bound lies below the cost, in percent of the cost."""
    gaps = [100 * (s.cost - s.bound) / s.cost if s.cost else 0.0 for s in services]
    axes.bar(numbers, [0.0 if math.isnan(gap) else gap for gap in gaps], color=style.SKY)
    known = [gap for gap in gaps if not math.isnan(gap)]
    axes.set_ylim(0, 1.05 * max(known) if known and max(known) > 0 else 1)
    if not known or max(known) == 0:
        axes.text(0.01, 0.5, no_gap(len(known), len(gaps)), transform=axes.transAxes, va="center")
        axes.set_yticks([0])
    else:
        axes.yaxis.set_major_locator(MaxNLocator(4))
    axes.set_ylabel(GAP)


def no_gap(planned: int, batches: int) -> str:
    """What is said where no planned batch has a gap. A batch that overflowed has no plan, and so neither cost nor bound."""
    if not planned:
        return "no batch has a plan"
    return "no gap: cost and bound meet" + ("" if planned == batches else f" in the {planned} of {batches} batches planned")


def title_of(report: Report, services: Sequence[Service]) -> str:
    """How many batches, requests and vehicles; how many requests were refused, and for which reason."""
    refused = refused_of(report)
    count = len(report.requests()) + sum(refused.values())
    why = f" ({sum(refused.values()):,} refused: {refusals_text(refused)})" if refused else ""
    return f"Service: {style.counted(len(services), 'batch', 'batches')}, " \
           f"{style.counted(count, 'request')}{why}, {style.counted(report.vehicles, 'vehicle')}"


def draw_pairs(axes: style.Axes, numbers: Sequence[int], services: Sequence[Service]) -> None:
    """How many vehicle-trip pairs the plan was chosen from."""
    axes.bar(numbers, [s.rows for s in services], color=style.GREY)
    axes.set_ylim(0, 1.05 * max(1, *(s.rows for s in services)))
    axes.set_ylabel("vehicle-trip\npairs")


def finish(picture: style.Picture, panels: Sequence[style.Axes], numbers: Sequence[int]) -> None:
    """Legends at the side, whole numbers at the axes, room for at least six batches."""
    for axes in panels:
        if axes.get_ylabel() != GAP:
            style.whole_ticks(axes.yaxis, most=6)
        axes.grid(axis="y", color=style.PALE, linewidth=0.6)
        axes.set_axisbelow(True)
        handles, labels = axes.get_legend_handles_labels()
        axes.legend(handles[::-1], labels[::-1], loc="center left", bbox_to_anchor=(1.0, 0.5), frameon=False)
    style.whole_ticks(panels[-1].xaxis)
    panels[-1].set_xlim(min(numbers) - 0.7, max(max(numbers), min(numbers) + 5) + 0.7)
    panels[-1].set_xlabel("batch")
    picture.align_ylabels(panels)


def draw(report: Report, streets: Optional[Streets]) -> style.Picture:
    """The picture."""
    if not report.batches:
        raise Fault("nothing to draw: no batch was closed")
    requests, direct = report.requests(), direct_times(report, streets)
    services = list(services_of(report, requests, direct))
    numbers = [service.number for service in services]
    picture = style.figure(WIDTH, HEIGHT)
    panels = picture.subplots(6, 1, sharex=True, gridspec_kw={"height_ratios": (3, 3, 3, 3, 2, 2)})
    draw_served(panels[0], numbers, services, [batch.number for batch in report.batches if batch.overflow])
    means = [sum(s.waits) / len(s.waits) if s.waits else math.nan for s in services]
    worsts = [max(s.waits, default=math.nan) for s in services]
    draw_spread(panels[1], numbers, means, worsts, report.settings["wait"], "wait")
    draw_spread(panels[2], numbers, [s.mean_delay for s in services], [s.worst_delay for s in services],
                report.settings["delay"], "delay")
    if streets is None:
        missing = "the worst delay is not in a report: name network=network.csv"
        panels[2].set_title(missing, loc="left", fontsize=8)
    draw_cost(panels[3], numbers, services)
    draw_gap(panels[4], numbers, services)
    draw_pairs(panels[5], numbers, services)
    picture.suptitle(title_of(report, services), x=0.01, ha="left")
    finish(picture, panels, numbers)
    return picture
