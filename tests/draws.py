"""Small inputs that are drawn by a seed: the words of a run and its three files, by name."""

import random

SUBMITS = 7  # in a script, and two more in a crowd, so that all plans can be listed


def table(header, rows):
    return "".join(f"{line}\n" for line in [header, *(",".join(map(str, row)) for row in rows)])


class Draw:
    """A town, a fleet, and a script of some rounds in which riders ask, ride and are left behind."""

    choices = {
        "wait": [0, 60, 200, 300, 300, 400, 400, 600],
        "delay": [0, 60, 100, 250, 300, 400, 600],
        "trip": [1, 2, 3, 5, 6],
        "penalty": [0, 40, 150, 500, 1000],
        "budget": [1, 2, 3, 5, 50],
        "pairs": [1, 3, 6, 12],
        "workers": [1, 2, 64],
        "dwell": [1, 5, 10, 20, 45, 600],
    }
    shares = {
        "wait": 0.8,
        "delay": 0.4,
        "trip": 0.3,
        "penalty": 0.3,
        "budget": 0.3,
        "pairs": 0.1,
        "workers": 0.2,
        "dwell": 0.35,
    }

    def __init__(self, seed):
        self.rng = random.Random(seed)
        self.nodes = self.rng.sample(range(1, 40), self.rng.randint(2, 6))
        self.vehicles = self.rng.sample(range(1, 20), self.rng.choice([0, 1, 2, 2, 2, 2, 3, 3, 4]))
        self.has_parties = self.chance(0.4)
        self.riders = []
        self.now = self.rng.choice([0, 0, 30, 100])
        self.files = {"network.csv": self.network(), "fleet.csv": self.fleet(), "script.csv": self.script()}
        self.words = ["run", *(f"{name}={name}.csv" for name in ("network", "fleet", "script")), "proof=1", *self.settings()]

    def chance(self, share):
        return self.rng.random() < share

    def settings(self):
        return [f"{key}={self.rng.choice(of)}" for key, of in self.choices.items() if self.chance(self.shares[key])]

    def network(self):
        seconds = self.rng.choice([[60], [0, 30, 60], [10, 25, 40, 90], range(0, 60)])
        streets = [(a, b) for a, b in zip(self.nodes, self.nodes[1:]) if self.chance(0.95)]
        streets += [(b, a) for a, b in streets if self.chance(0.9)]
        streets += [tuple(self.rng.choices(self.nodes, k=2)) for _ in range(self.rng.randint(1, 2 * len(self.nodes)))]
        self.rng.shuffle(streets)
        self.nodes = sorted({*sum(streets, ())}) or [1]
        return table("from,to,seconds", [(a, b, self.rng.choice(seconds)) for a, b in streets or [(1, 1)]])

    def fleet(self):
        def row(vehicle):
            seats, second = self.rng.choice([1, 2, 2, 3, 4, 4, 10]), self.rng.choice([0, 0, 60, 150, 300])
            return vehicle, seats, self.rng.choice(self.nodes), second

        return table("vehicle,seats,node,second", map(row, self.vehicles))

    def script(self):
        rows, number = [], 0
        for k in range(self.rng.randint(1, 5)):
            lanes = self.rng.choice([[0]] * 5 + [[0, 1], [0, 1, 2, 15]])
            asks = self.asks(self.rng.choice([1, 1, 2, 3] if k else [2, 3, 4, 5]))
            for word, *numbers in asks + (self.rides() if k else []):
                rows.append((number, self.rng.choice(lanes), word, *numbers))
            for _ in range(self.rng.choice([0, 1, 1, 1, 1, 2])):
                self.now += self.rng.choice([0, 0, 0, 0, 15, 30, 60, 150])
                rows.append((number, 0, "seal", self.now if self.chance(0.95) else self.now // 2))
            number += self.rng.choice([1, 1, 5])
        header = "round,lane,command,a,b,c,d" + ",e" * self.has_parties
        columns = header.count(",") + 1
        return table(header, [[*row, *[""] * (columns - len(row))] for row in rows])

    def asks(self, count):
        """New requests, of which some are refused."""
        commands = []
        for _ in range(count):
            if len(self.riders) < SUBMITS:
                name = self.rng.randint(1, 30)
                places = self.rng.sample(self.nodes, 2) if len(self.nodes) > 1 else self.nodes * 2
                if self.chance(0.02):
                    places[0] = 77
                second = max(0, self.now + self.rng.choice([-60, -20, 0, 0, 0, 0, 0, 15, 60]))
                party = [self.rng.choice([1, 1, 2, 3, 6])] if self.has_parties else []
                commands.append(("submit", name, *places, second, *party))
                self.riders.append(name)
        return commands

    def rides(self):
        """Cancels, pickups, drop-offs and reports. Which vehicle may pick whom up rests on the plan, so all of them try."""
        commands = []
        for rider in self.rng.sample(self.riders, len(self.riders)):
            if self.chance(0.08):
                commands.append(("cancel", rider))
            for word, share in (("pickup", 0.35), ("dropoff", 0.15)):
                if self.chance(share):
                    for later in sorted(self.rng.sample([0, 30, 60, 120, 300], 2)):
                        vehicles = self.rng.sample(self.vehicles, len(self.vehicles))
                        commands += [(word, it, rider, self.now + later) for it in vehicles]
        for vehicle in self.vehicles:
            if self.chance(0.25):
                second = self.now + self.rng.choice([0, 0, 30, 60, 200, 500])
                commands.append(("report", vehicle, self.rng.choice(self.nodes), second))
        return commands


class Crowd(Draw):
    """Many riders and one seal: the search has to branch in some."""

    choices = {**Draw.choices, "wait": [60, 100, 150], "delay": [50, 90, 150], "trip": [2, 3], "penalty": [60, 150, 1000]}
    shares = {"wait": 1, "delay": 1, "trip": 1, "penalty": 1, "budget": 0.3, "pairs": 0, "workers": 0.2, "dwell": 0.1}

    def network(self):
        self.nodes = list(range(1, self.rng.randint(4, 8) + 1))
        seconds = self.rng.choice([[30, 60], [10, 20, 30, 40, 50, 60, 70], range(5, 90)])
        share = self.rng.choice([0.4, 0.7, 1])
        streets = [(a, b) for a in self.nodes for b in self.nodes if a != b and self.chance(share)]
        self.nodes = sorted({*sum(streets, ())}) or [1, 2]
        return table("from,to,seconds", [(a, b, self.rng.choice(seconds)) for a, b in streets or [(1, 2)]])

    def fleet(self):
        vehicles = range(1, self.rng.randint(2, 5) + 1)
        rows = [(it, self.rng.choice([1, 2, 4]), self.rng.choice(self.nodes), 0) for it in vehicles]
        return table("vehicle,seats,node,second", rows)

    def script(self):
        riders = range(1, self.rng.randint(SUBMITS, SUBMITS + 2) + 1)
        rows = [(0, 0, "submit", it, *self.rng.sample(self.nodes, 2), 0) for it in riders]
        return table("round,lane,command,a,b,c,d", [*rows, (0, 0, "seal", 0, "", "", "")])


class DrivenDay(Draw):
    """A day: riders ask in any lane, and seals come often, so that they catch vehicles between stops and at dwells."""

    choices = {**Draw.choices, "wait": [100, 200, 300, 600], "delay": [100, 250, 400, 600], "dwell": [1, 5, 10, 45, 600]}
    shares = {**Draw.shares, "wait": 0.8, "delay": 0.8, "pairs": 0.15, "dwell": 0.5}

    def __init__(self, seed):
        super().__init__(seed)
        self.words[0] = "drive"

    def script(self):
        rows, number = [], self.rng.choice([0, 0, 7])
        for k in range(self.rng.randint(2, 8)):
            if self.chance(0.85):
                self.now += self.rng.choice([0, 0, 1, 1, 5, 15, 30, 60, 150])
                rows.append((number, 0, "seal", self.now))
            asks = self.asks(self.rng.choice([0, 1, 1, 2] if k else [1, 2, 3, 4]))
            rows += [(number, self.rng.choice([0, 0, 1, 2, 15]), word, *numbers) for word, *numbers in asks]
            number += self.rng.choice([1, 1, 5])
        header = "round,lane,command,a,b,c,d" + ",e" * self.has_parties
        columns = header.count(",") + 1
        return table(header, [[*row, *[""] * (columns - len(row))] for row in rows])
