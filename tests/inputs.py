"""The three files and the words of a run, for inputs that no reader refuses."""

from functools import cached_property
from types import SimpleNamespace

from book import Vehicle
from rules import Batch, travel_times

DEFAULTS = {
    "wait": 120,
    "delay": 180,
    "trip": 4,
    "penalty": 10_000,
    "budget": 200,
    "pairs": 200_000,
    "workers": 4,
    "proof": 0,
    "dwell": 0,
}
LANES = 16


def rows(path):
    """The rows under a file's header, and the number of the header's fields."""
    lines = [line for line in path.read_text().splitlines() if line]
    return [line.replace('"', "").split(",") for line in lines[1:]], lines[0].count(",") + 1


def arcs_of(path):
    return [tuple(map(int, row)) for row in rows(path)[0]]


def fleet_of(path):
    return [Vehicle(*map(int, row)) for row in rows(path)[0]]


def rounds_of(path):
    """The rounds: a number and sixteen lists of commands each, a command being a word and its numbers."""
    found, columns = rows(path)
    rounds = {}
    for number, lane, word, *fields in found:
        numbers = [int(it) for it in fields if it]
        if word == "submit" and columns == 7:
            numbers.append(1)
        rounds.setdefault(int(number), [[] for _ in range(LANES)])[int(lane)].append((word, *numbers))
    return list(rounds.items())


def settings_of(words):
    """The settings of the words, and under `files` the names that they give."""
    given = dict(word.split("=", 1) for word in words[1:])
    numbers = {key: int(given.get(key, value)) for key, value in DEFAULTS.items()}
    return SimpleNamespace(**numbers, files={key: given[key] for key in ("network", "fleet", "script") if key in given})


class Run:
    """What a run is given: its settings, streets, fleet and rounds."""

    def __init__(self, folder, words):
        self.is_day = words[0] == "drive"
        self.settings = settings_of(words)
        files = {key: folder / name for key, name in self.settings.files.items()}
        self.arcs = arcs_of(files["network"])
        self.fleet = fleet_of(files["fleet"])
        self.rounds = rounds_of(files["script"])

    @cached_property
    def drive(self):
        return travel_times(self.arcs)

    @cached_property
    def arcs_to(self):
        """By node: whence streets lead to it, each with its seconds."""
        found = {node: [] for arc in self.arcs for node in arc[:2]}
        for before, node, seconds in self.arcs:
            found[node].append((before, seconds))
        return found

    def batch(self, snapshot):
        """A batch of this run as it was sealed."""
        return Batch(snapshot, self.settings, self.drive)
