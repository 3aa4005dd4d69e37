"""Makes a well-formed report of a driven day on a square of streets, without the program.

Usage: made_day.py VEHICLES BATCHES SEED report|network

Every street takes 30 seconds. Each batch gives idle vehicles one to three riders; a fifth of the riders is
left out, and some idle vehicles move. Stops are entered before the seal that follows them, as `drive`
does. The plans are not the program's: they are good enough to be drawn.
"""

import random
import sys

SIDE = 20
STREET = 30
EVERY = 60


def seconds_between(start, end):
    """The seconds of a shortest way between two nodes."""
    start, end = start - 1, end - 1
    return STREET * (abs(start // SIDE - end // SIDE) + abs(start % SIDE - end % SIDE))


def network():
    """The rows of network.csv."""
    rows = ["from,to,seconds"]
    for node in range(1, SIDE * SIDE + 1):
        beside = [node + 1] * (node % SIDE > 0) + [node + SIDE] * (node + SIDE <= SIDE * SIDE)
        for other in beside:
            rows += [f"{node},{other},{STREET}", f"{other},{node},{STREET}"]
    return rows


class Day:
    """The report so far, and what each vehicle still has to do."""

    def __init__(self, vehicles, batches, seed):
        self.draw = random.Random(seed)
        self.lines = ["ridepool report 1",
                      "settings wait=3600 delay=3600 trip=3 penalty=10000 budget=200 pairs=200000 proof=0",
                      f"network nodes={SIDE * SIDE} arcs={len(network()) - 1}", f"fleet vehicles={vehicles}"]
        self.place = {vehicle: self.node() for vehicle in range(1, vehicles + 1)}
        self.stops = {vehicle: [] for vehicle in self.place}
        self.position, self.rider, self.batches = 0, 0, batches

    def node(self):
        """A drawn node."""
        return 1 + int(self.draw.random() * SIDE * SIDE)

    def enter(self, command, reply, lane=0):
        """A command's line."""
        self.lines.append(f"{self.position} {lane} {command} {reply}")
        self.position += 1

    def request(self, second):
        """A request of a new rider."""
        self.rider += 1
        origin, target = self.node(), self.node()
        target = target if target != origin else origin % (SIDE * SIDE) + 1
        party = 2 if self.draw.random() < 0.2 else 1
        self.enter(f"submit {self.rider} {origin} {target} {second}" + " 2" * (party == 2), "accepted", 1)
        return self.rider, origin, target

    def due(self, now):
        """Enters the stops up to a second, then where each vehicle is."""
        for vehicle, stops in self.stops.items():
            while stops and stops[0][3] <= now:
                kind, rider, node, second = stops.pop(0)
                word, reply = ("pickup", "picked") if kind == "pick" else ("dropoff", "dropped")
                self.enter(f"{word} {vehicle} {rider} {second}", reply)
                self.place[vehicle] = node
            if now < float("inf"):
                self.enter(f"report {vehicle} {self.place[vehicle]} {now}", "placed")

    def serve(self, vehicle, riders, now):
        """The stops of a vehicle: all pickups, then all drop-offs."""
        here, second = self.place[vehicle], now
        todo = [("pick", r, origin) for r, origin, _ in riders] + [("drop", r, end) for r, _, end in riders]
        for kind, rider, node in todo:
            second += seconds_between(here, node)
            self.stops[vehicle].append((kind, rider, node, second))
            here = node

    def assign(self, riders, now):
        """Gives four fifths of the riders to idle vehicles. Gives back those who are left out, by rising id."""
        idle = [vehicle for vehicle, stops in self.stops.items() if not stops]
        self.draw.shuffle(idle)
        most = len(riders) * 4 // 5
        left, out = riders[:most], riders[most:]
        while left and idle:
            count = self.draw.choice((1, 2, 2, 3))
            self.serve(idle.pop(), left[:count], now)
            left = left[count:]
        return sorted(out + left)

    def plan(self, number, now, riders):
        """The block of a batch."""
        out, rows, trips, cost = self.assign(riders, now), [], [], 0
        for vehicle, stops in self.stops.items():
            delay = 60 * sum(kind == "drop" for kind, *_ in stops)
            shown = "".join(f" {kind}:{rider}@{node}:{second}" for kind, rider, node, second in stops)
            rows.append(f"row {vehicle} {delay}")
            trips.append(f"trip {vehicle} {delay}{shown}")
            cost += delay
        idle = [vehicle for vehicle, stops in self.stops.items() if not stops]
        moves = [f"move {vehicle} {rider} {seconds_between(self.place[vehicle], origin)}"
                 for vehicle, (rider, origin, _) in zip(idle, out)]
        cost += 10000 * len(out)
        self.lines += [f"batch {number}", *rows, *trips, *(f"out {rider}" for rider, _, _ in out), *moves,
                       f"cost {cost}", f"bound {cost * 97 // 100}", f"nodes {3 + number}", "end"]

    def report(self):
        """The whole report."""
        for number in range(1, self.batches + 1):
            now = number * EVERY
            self.lines.append(f"round {2 * number}")
            count = max(2, len(self.place) // 4)
            riders = [self.request(now - EVERY + int(self.draw.random() * EVERY)) for _ in range(count)]
            self.lines.append(f"round {2 * number + 1}")
            self.due(now)
            self.enter(f"seal {now}", f"sealed {number}")
            self.enter(f"close {number}", "closed")
            self.plan(number, now, riders)
        self.lines.append(f"round {2 * self.batches + 2}")
        self.due(float("inf"))
        return self.lines + [f"done {self.position}"]


def main():
    """Prints what is asked for."""
    *numbers, what = sys.argv[1:]
    lines = network() if what == "network" else Day(*map(int, numbers)).report()
    print("\n".join(lines))


if __name__ == "__main__":
    main()
