"""Figures for Prometheus, where its client is installed: what is counted as it happens, and what is read when it is asked."""

from __future__ import annotations

import importlib.util
import resource
from collections import Counter
from typing import TYPE_CHECKING, Any, Dict, Iterator, Optional

if TYPE_CHECKING:
    from ridepool.desk.dispatcher import Dispatcher

IS_THERE = importlib.util.find_spec("prometheus_client") is not None
ANSWERS = (0.001, 0.0025, 0.005, 0.01, 0.025, 0.05, 0.1, 0.25, 0.5, 1, 2.5, 5, 10)
PLANS = (0.01, 0.025, 0.05, 0.1, 0.25, 0.5, 1, 2.5, 5, 10, 30, 60, 120)
TYPE = "text/plain; version=0.0.4; charset=utf-8"


class Meter:
    """The figures of a desk. Without Prometheus' client nothing is counted."""

    def __init__(self) -> None:
        self.registry: Any = None
        if not IS_THERE:
            return
        from prometheus_client import CollectorRegistry, Histogram

        self.registry = CollectorRegistry()
        self.answers = Histogram("ridepool_answer_seconds", "From a command to its answer, which is on disk", buckets=ANSWERS,
                                 registry=self.registry)
        self.plans = Histogram("ridepool_plan_seconds", "From a seal to its plan", buckets=PLANS, registry=self.registry)

    def answered(self, seconds: float) -> None:
        """A command was answered."""
        if self.registry is not None:
            self.answers.observe(seconds)

    def planned(self, seconds: float) -> None:
        """A plan was made."""
        if self.registry is not None:
            self.plans.observe(seconds)

    def watch(self, dispatcher: Dispatcher) -> None:
        """Adds the figures that are read when they are asked for."""
        if self.registry is not None:
            from prometheus_client import ProcessCollector

            self.registry.register(Figures(dispatcher))
            ProcessCollector(registry=self.registry)

    def text(self) -> Optional[bytes]:
        """All figures in Prometheus' text form; None without its client."""
        if self.registry is None:
            return None
        from prometheus_client import generate_latest

        return bytes(generate_latest(self.registry))


class Figures:
    """What a dispatcher's state says."""

    def __init__(self, dispatcher: Dispatcher) -> None:
        self.dispatcher = dispatcher

    def collect(self) -> Iterator[Any]:
        """The figures, as the client of Prometheus asks for them."""
        from prometheus_client.core import CounterMetricFamily, GaugeMetricFamily

        it = self.dispatcher
        rides = GaugeMetricFamily("ridepool_rides", "Rides of the day by their state", labels=["state"])
        for state, count in sorted(states(it).items()):
            rides.add_metric([state], count)
        yield rides
        last = it.state.batches.get(len(it.state.batches), {})
        trouble = it.trouble_view()
        gauges: Dict[str, Any] = {
            "ready": ("1 while commands are taken", int(it.health()["status"] == "ready")),
            "second": ("The second of the book", it.clock.now()),
            "late_vehicles": ("Vehicles that are late", trouble["late"]),
            "trouble": ("Lines of trouble", trouble["count"]),
            "queue": ("Commands that wait for their answer", len(it.numbers)),
            "listeners": ("Streams of events", len(it.listeners)),
            "last_plan_gap": ("The gap of the last plan", last.get("gap", 0)),
            "last_plan_left_out": ("Riders whom the last plan left out", len(last.get("left_out", ()))),
            "live_memory_bytes": ("Memory of the dispatcher's program", memory_of(it)),
        }
        for name, (text, value) in gauges.items():
            yield GaugeMetricFamily(f"ridepool_{name}", text, value=value)
        counters = {"plans": ("Plans of the day", len(it.state.batches)), "restarts": ("New starts of the program", it.restarts),
                    "lapsed": ("Promises that lapsed", it.tally["lapsed"])}
        for name, (text, value) in counters.items():
            yield CounterMetricFamily(f"ridepool_{name}", text, value=value)


def states(dispatcher: Dispatcher) -> "Counter[str]":
    """How many rides are in each state."""
    state = dispatcher.state
    found = Counter({"waiting": 0, "promised": 0})
    found.update(state.rides[it].state for it in state.pool)
    found["aboard"] = sum(len(it.aboard) for it in state.vehicles.values())
    for over in ("delivered", "cancelled", "expired"):
        found[over] = dispatcher.tally[over]
    return found


def memory_of(dispatcher: Dispatcher) -> int:
    """The bytes of memory that the started program holds; 0 where it doesn't run."""
    if dispatcher.live is None or dispatcher.live.child is None:
        return 0
    try:
        with open(f"/proc/{dispatcher.live.child.pid}/statm", encoding="ascii") as file:
            return int(file.read().split()[1]) * resource.getpagesize()
    except (OSError, IndexError):
        return 0
