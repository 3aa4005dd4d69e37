"""A driven day by its rules: what the program enters of each vehicle, and what must hold of it.

Before each seal the vehicles are taken by id. Of each, the stops of its last chosen trip that are due are entered, and
then where it is: where its dwell ends after the seal, at that stop; else on its way to its next stop, or to the rider whom
its move names, at the first node that it comes to at or after the seal; else where it is. Several shortest walks may lead
there, so a report may have one of several places. Behind the last round comes one with the stops that are left.
"""

from dataclasses import dataclass, field
from typing import Callable, NamedTuple, Optional

from rules import NEVER


@dataclass
class Course:
    """What is on its way for a vehicle: stops, or where an idle one goes."""

    stops: list = field(default_factory=list)
    target: Optional[int] = None


class Reported(NamedTuple):
    """A report that may have any place, a node and a second, of which this holds."""

    vehicle: int
    may_be: Callable

    def printed(self, lines):
        """The report as it is printed, if it may be."""
        words = lines.look()
        lines.need(words[2:4] == ["report", str(self.vehicle)], f"here vehicle {self.vehicle} should be reported")
        place = tuple(int(it) for it in words[4:6])
        lines.need(self.may_be(*place), f"vehicle {self.vehicle} isn't there at that second")
        return "report", self.vehicle, *place


class Day:
    def __init__(self, run, book):
        self.run, self.book = run, book
        self.courses = {it: Course() for it in book.vehicles}
        self.first_promised, self.waits, self.delays, self.counts = {}, [0], [0], {"picked": 0, "dropped": 0}

    def driven(self, lanes):
        """The lanes of a round with what is entered before its seal, if it has one."""
        if not lanes[0] or lanes[0][0][0] != "seal":
            return lanes
        entered = [it for vehicle in self.book.vehicles.values() for it in self.entered(vehicle, lanes[0][0][1])]
        return [[*entered, *lanes[0]], *lanes[1:]]

    def last_lane(self):
        """The stops that are left, by vehicle."""
        return [self.command(it, stop) for it, course in self.courses.items() for stop in course.stops]

    def command(self, vehicle, stop):
        return "pickup" if stop.pick else "dropoff", vehicle, stop.rider, stop.second

    def entered(self, vehicle, now):
        course = self.courses[vehicle.id]
        due = [it for it in course.stops if it.second <= now]
        course.stops = course.stops[len(due) :]
        at, leaves = vehicle.node, vehicle.second
        if due:
            at, leaves = due[-1].node, due[-1].second + self.run.settings.dwell
        goal = course.stops[0].node if course.stops else course.target
        return [*(self.command(vehicle.id, it) for it in due), Reported(vehicle.id, self.place(at, leaves, goal, now))]

    def place(self, at, leaves, goal, now):
        """Where a vehicle that can leave at a second is at a seal, as a test of a node and a second."""
        if leaves > now:
            return lambda *place: place == (at, leaves)
        if goal is None or leaves + self.run.drive(at, goal) <= now:
            return lambda *place: place == (at if goal is None else goal, now)
        if leaves == now:
            return lambda *place: place == (at, now)
        return lambda node, second: self.comes_to(node, second, at, leaves, goal, now)

    def comes_to(self, node, second, at, leaves, goal, now):
        """Whether a shortest walk to the goal comes to a node at a second, and to the node before that before the seal."""
        drive = self.run.drive
        on_walk = drive(at, node) + drive(node, goal) == drive(at, goal) and second == leaves + drive(at, node)
        before = [it for it, seconds in self.run.arcs_to[node] if leaves + drive(at, it) + seconds == second]
        return on_walk and second >= now and any(leaves + drive(at, it) < now for it in before)

    def note(self, lines, command, reply):
        """Each stop is made in time."""
        word, *numbers = command
        if word in ("pickup", "dropoff"):
            wanted = {"pickup": "picked", "dropoff": "dropped"}[word]
            lines.need(reply == wanted, f"each stop of a day is answered, and this one was {reply}")
            self.counts[wanted] += 1
            rider, second = self.book.riders[numbers[1]], numbers[2]
            if word == "pickup":
                lines.need(second <= self.first_promised[rider.id], "the pickup is later than first promised")
                self.waits.append(second - rider.second)
            else:
                drive = self.run.drive(rider.origin, rider.destination)
                self.delays.append(second - rider.second - (drive if drive < NEVER else 0))
            settings = self.run.settings
            lines.need(self.waits[-1] <= settings.wait, "the rider waited too long")
            lines.need(self.delays[-1] <= settings.delay, "the rider came too late")
        elif word == "report":
            lines.need(reply == "placed", f"each vehicle of a day is placed, and this one was {reply}")

    def sealed(self, lines, batch):
        lines.need(not batch.lapsed and not batch.late, "on a day no promise lapses and no vehicle is late")

    def closed(self, trips, moves):
        """What a plan leaves on its way; after an overflow all goes on."""
        if trips is None:
            return
        self.courses = {it: Course() for it in self.courses}
        for vehicle, stops in trips:
            self.courses[vehicle].stops = list(stops)
            for stop in stops:
                if stop.pick:
                    self.first_promised.setdefault(stop.rider, stop.second)
        for vehicle, rider, _ in moves:
            self.courses[vehicle].target = self.book.riders[rider].origin

    def line(self):
        counts = " ".join(f"{word} {number}" for word, number in self.counts.items())
        return f"day {counts} worst-wait {max(self.waits)} worst-delay {max(self.delays)}"
