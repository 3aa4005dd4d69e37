"""A day by plain calls, beside which the rows of a study are held."""

import heapq
import math
import subprocess
from collections import defaultdict

from tools_parts.shared import works

COLUMNS = ("time=second", "from_lon=from_x", "from_lat=from_y", "to_lon=to_x", "to_lat=to_y", "persons=persons",
           "from=0", "to=600")


class Plain:
    """A day by plain calls: from_trips.py makes its files, the program drives it, and what its report tells is counted
    by the entries alone, over searches of its own."""

    def __init__(self, program, folder, row, percent):
        self.row, self.folder, city = row, folder, folder.parent / "out" / "city"
        folder.mkdir()
        trips = [line for line in (city / "trips.csv").read_text().splitlines()]
        (folder / "trips.csv").write_text("\n".join([trips[0], *part_of(trips[1:], percent)]) + "\n")
        fleet = [f"{name}={row[name]}" for name in ("vehicles", "seats", "seed", "every")]
        works("from_trips", folder / "trips.csv", city / "nodes.csv", folder, *fleet, *COLUMNS)
        files = [f"network={city / 'network.csv'}", f"fleet={folder / 'fleet.csv'}", f"script={folder / 'script.csv'}"]
        settings = [f"{name}={row[name]}" for name in ("wait", "delay", "trip", "budget", "dwell")]
        done = subprocess.run([program, "drive", *files, *settings], capture_output=True, text=True, check=True)
        self.lines = done.stdout.splitlines()
        self.streets = defaultdict(list)
        for line in (city / "network.csv").read_text().splitlines()[1:]:
            start, end, seconds = map(int, line.split(","))
            self.streets[start].append((end, seconds))

    def seconds(self, start, end):
        """The least seconds from node to node."""
        waiting, known = [(0, start)], set()
        while waiting:
            second, node = heapq.heappop(waiting)
            if node == end:
                return second
            if node not in known:
                known.add(node)
                for after, more in self.streets[node]:
                    heapq.heappush(waiting, (second + more, after))
        return math.inf

    def entries(self):
        """The commands with their fields as numbers."""
        for line in self.lines:
            words = line.split()
            if words[0].isdigit():
                yield words[2], [int(word) for word in words[3:] if word.isdigit()], words[-1]

    def read(self):
        """What is counted."""
        riders, aboard, at = {}, defaultdict(set), {}
        self.waits, self.delays, self.shared, self.driven, self.empty = [], [], set(), 0, 0
        picked, self.rides = {}, []
        for command, fields, reply in self.entries():
            if command == "submit":
                riders[fields[0]] = fields[1:4] + (fields[4:5] or [1])
            elif command in ("report", "pickup", "dropoff"):
                vehicle, place, second = fields
                node = place if command == "report" else riders[place][0 if command == "pickup" else 1]
                drove = self.seconds(at.get(vehicle, node), node)
                self.driven += drove
                self.empty += 0 if aboard[vehicle] else drove
                at[vehicle] = node
            if reply == "picked":
                aboard[vehicle].add(place)
                self.shared |= aboard[vehicle] if len(aboard[vehicle]) > 1 else set()
                picked[place] = second
                self.waits.append(second - riders[place][2])
            elif reply == "dropped":
                aboard[vehicle].remove(place)
                origin, destination, asked, persons = riders[place]
                self.delays.append(max(0, second - asked - self.seconds(origin, destination)))
                self.rides.append((persons, picked[place], second))
        self.requests = len(riders)
        return self

    def aboard(self):
        """The mean persons aboard a vehicle from the first seal to the last."""
        seals = [fields[0] for command, fields, _ in self.entries() if command == "seal"]
        total = sum(persons * max(0, min(end, seals[-1]) - start) for persons, start, end in self.rides)
        return total / (seals[-1] - seals[0]) / int(self.row["vehicles"])

    def gaps(self):
        """The batches whose bound isn't the cost, and the largest gap in percent."""
        numbers = {kind: [int(line.split()[1]) for line in self.lines if line.startswith(f"{kind} ")]
                   for kind in ("cost", "bound")}
        gaps = [100 * (cost - bound) / cost for cost, bound in zip(numbers["cost"], numbers["bound"]) if cost != bound]
        return len(numbers["cost"]), len(gaps), max(gaps, default=0.0)

    def result(self):
        """The columns that are no measure of the machine."""
        self.read()
        batches, gaps, gap = self.gaps()
        worst = [f"{sorted(values)[math.ceil(0.95 * len(values)) - 1]}" for values in (self.waits, self.delays)]
        means = [f"{sum(values) / len(values):.2f}" for values in (self.waits, self.delays)]
        served = len(self.waits)
        return {"state": "done", "requests": str(self.requests), "served": str(served),
                "share": f"{served / self.requests:.4f}", "mean_wait": means[0], "p95_wait": worst[0],
                "mean_delay": means[1], "p95_delay": worst[1], "shared": str(len(self.shared)),
                "aboard": f"{self.aboard():.4f}", "empty_seconds": str(self.empty),
                "driven_seconds": str(self.driven), "batches": str(batches), "overflows": "0", "open": str(gaps),
                "largest_gap": f"{gap:.4f}"}


def part_of(trips, percent):
    """The trips of a part of the demand."""
    from random import Random

    draw = Random("which riders a part of the demand has")
    return [trip for trip in trips if draw.random() * 100 < percent]
