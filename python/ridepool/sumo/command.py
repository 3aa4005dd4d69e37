"""Dispatches the taxis of a SUMO simulation by `ridepool live`, and says how SUMO's own dispatcher does on the same day."""

import contextlib
import io
import math
import os
import pathlib
import statistics
import subprocess
import sys
import tempfile
import time
import xml.etree.ElementTree
from dataclasses import dataclass
from typing import Any, Dict, List, Mapping, Optional, Tuple, Union

from ridepool import program
from ridepool.inputs.tables import FLEET, MOST_NUMBER, read_network, read_nodes, write_table
from ridepool.sessions.client import Client
from ridepool.sessions.state import State, Vehicle
from ridepool.words import Fault, need, number, own_name, run_tool, split_words

SETTINGS = ("wait", "delay", "trip", "penalty", "budget", "pairs", "workers", "proof", "dwell", "times")
WORDS = SETTINGS + ("network", "nodes", "fleet", "every", "until", "own", "transcript", "program")
USAGE = ("use: %(prog)s DAY.sumocfg network=network.csv nodes=nodes.csv [every=30] [until=SECOND] [own=1] "
         "[fleet=FILE] [transcript=FILE] [program=FILE] [settings of live]; the network is one of from_sumo.py with edges=1")
SUMO_HOME = os.environ.get("SUMO_HOME", "/usr/share/sumo")
UNPLACED = -(2 ** 30)


@dataclass
class Rider:
    """A person of the simulation who asked for a ride."""

    number: int
    person: str
    reservation: str
    aboard: bool = False
    over: bool = False


class Day:
    """The simulation and the dispatcher, step by step. A vehicle is given its next stop alone, since SUMO can't
    take a rider from a taxi again: passengers' drop-offs, and the one rider who is picked up next."""

    def __init__(self, traci: Any, client: Client, nodes: Mapping[str, int], taxis: Mapping[int, str]) -> None:
        self.traci, self.client, self.nodes = traci, client, nodes
        self.taxis = taxis
        self.edges = {node: edge for edge, node in nodes.items()}
        self.riders: Dict[int, Rider] = {}
        self.by_person: Dict[str, Rider] = {}
        self.fetching: Dict[int, int] = {}
        self.given: Dict[int, List[int]] = {}
        self.moves = 0

    @property
    def state(self) -> State:
        return self.client.state

    def second(self) -> int:
        """The whole second of the simulation."""
        return int(self.traci.simulation.getTime())

    def step(self) -> None:
        """One second: who got in, who got out, and what those vehicles do next."""
        self.traci.simulationStep(self.second() + 1.0)
        here = set(self.traci.person.getIDList())
        for vehicle, taxi in self.taxis.items():
            for rider in self.entered(vehicle):
                inside = rider.person in here and self.traci.person.getVehicle(rider.person) == taxi
                if inside:
                    rider.aboard = True
                    if self.fetching.get(vehicle) == rider.number:
                        del self.fetching[vehicle]
                elif rider.aboard or rider.person not in here:
                    self.drop(vehicle, rider)
            self.send_on(vehicle)

    def entered(self, vehicle: int) -> List[Rider]:
        """The riders who are aboard by the book, maybe before they are aboard in the simulation."""
        return [self.riders[it] for it in list(self.state.vehicles[vehicle].aboard)]

    def drop(self, vehicle: int, rider: Rider) -> None:
        """A rider who isn't in the vehicle any more has arrived."""
        rider.over = True
        if self.fetching.get(vehicle) == rider.number:
            del self.fetching[vehicle]
        self.client.ask("dropoff", vehicle, rider.number, max(self.second(), self.state.vehicles[vehicle].second))

    def send_on(self, vehicle: int) -> None:
        """Where the next stop is a pickup and none is on its way, the rider is given to the taxi, and entered as
        picked up at the second of the plan: the simulation can't take it back."""
        stops = self.state.stops(vehicle)
        if not stops or vehicle in self.fetching:
            return
        kind, rider, _, second = stops[0]
        if kind == "pick" and second is not None:
            second = max(second, self.state.vehicles[vehicle].second)
            if self.client.ask("pickup", vehicle, rider, second) != "picked":
                return
            self.fetching[vehicle] = rider
        self.dispatch(vehicle)

    def dispatch(self, vehicle: int) -> None:
        """Gives the taxi its passengers in the order of the plan: one who isn't in it yet comes first, and twice."""
        order = [rider for kind, rider, _, _ in self.state.stops(vehicle)
                 if kind == "drop" and rider in self.state.vehicles[vehicle].aboard]
        first = [self.fetching[vehicle]] if vehicle in self.fetching else []
        wanted = first + order
        if not wanted or self.given.get(vehicle) == wanted:
            return
        self.given[vehicle] = wanted
        try:
            self.traci.vehicle.dispatchTaxi(self.taxis[vehicle], [self.riders[it].reservation for it in wanted])
        except self.traci.exceptions.TraCIException as fault:
            print(f"{own_name()}: taxi {self.taxis[vehicle]}: {fault}", file=sys.stderr)

    def ask_rides(self) -> None:
        """Enters the reservations that are new."""
        for it in self.traci.person.getTaxiReservations(1):
            if it.persons[0] in self.by_person:
                continue
            origin, destination = self.nodes.get(it.fromEdge), self.nodes.get(it.toEdge)
            rider = Rider(len(self.by_person) + 1, it.persons[0], it.id)
            self.by_person[rider.person] = self.riders[rider.number] = rider
            reply = None
            if origin is not None and destination is not None:
                reply = self.client.ask("submit", rider.number, origin, destination, int(it.depart),
                                        party=min(6, len(it.persons)))
            if reply != "accepted":
                rider.over = True
                print(f"{own_name()}: person {rider.person}: {reply or 'an end is not on the network'}",
                      file=sys.stderr)

    def place(self, vehicle: int, taxi: str) -> Optional[Tuple[int, int]]:
        """The node that a vehicle comes to next and the second; None where it is nowhere."""
        lane, offset = self.traci.vehicle.getLaneID(taxi), self.traci.vehicle.getLanePosition(taxi)
        if vehicle in self.fetching:
            return self.fetch_place(vehicle, taxi)
        if lane == "" or offset <= UNPLACED:
            return self.state.vehicles[vehicle].node, self.second()
        edge = self.traci.vehicle.getRoadID(taxi)
        if edge.startswith(":"):
            route = self.traci.vehicle.getRoute(taxi)
            edge, left = route[min(self.traci.vehicle.getRouteIndex(taxi) + 1, len(route) - 1)], 0.0
        else:
            left = self.traci.lane.getLength(lane) - offset
        if edge not in self.nodes:
            return None
        speed = max(0.1, self.traci.lane.getMaxSpeed(edge + "_0"))
        return self.nodes[edge], self.second() + math.ceil(left / speed)

    def fetch_place(self, vehicle: int, taxi: str) -> Optional[Tuple[int, int]]:
        """A vehicle that fetches a rider is said to come to that rider's street, when SUMO thinks it will."""
        goal = self.state.rides[self.fetching[vehicle]].origin
        edge = self.traci.vehicle.getRoadID(taxi)
        if edge == "" or edge.startswith(":"):
            return None
        way = self.traci.simulation.findRoute(edge, self.edges[goal])
        return goal, self.second() + math.ceil(way.travelTime)

    def report(self) -> None:
        """Enters where each vehicle is; one that was entered for a later second stays as it is."""
        present = set(self.traci.vehicle.getIDList())
        for vehicle, taxi in self.taxis.items():
            found = self.place(vehicle, taxi) if taxi in present else None
            if found is not None and found[1] >= self.state.vehicles[vehicle].second:
                self.client.ask("report", vehicle, *found)

    def plan(self) -> None:
        """Before each seal what is new, and after it what each vehicle does next."""
        self.ask_rides()
        self.report()
        before = {it: ride.vehicle for it, ride in self.state.rides.items() if ride.state == "promised"}
        batch = self.client.plan(self.second())
        for rider, vehicle in before.items():
            ride = self.state.rides[rider]
            self.moves += ride.state == "promised" and ride.vehicle != vehicle
        for rider in batch.expired:
            self.riders[rider].over = True
            self.traci.person.removeStages(self.riders[rider].person)
        for vehicle in self.taxis:
            self.send_on(vehicle)
        for move in batch.moves:
            self.drive_toward(move.vehicle, self.edges[self.state.rides[move.rider].origin])

    def drive_toward(self, vehicle: int, edge: str) -> None:
        """Sends an idle vehicle toward a rider who was left out; one that SUMO has parked may not take it."""
        try:
            self.traci.vehicle.changeTarget(self.taxis[vehicle], edge)
        except self.traci.exceptions.TraCIException:
            pass

    def goes_on(self) -> bool:
        """Whether anybody is to come, waits or is on the way."""
        return self.traci.simulation.getMinExpectedNumber() > 0 and (
            self.second() < 60 or any(not it.over for it in self.riders.values())
            or self.traci.person.getIDCount() > 0)


def sumo_words(config: str, out: str) -> List[str]:
    """The call of the simulation: riders and what they waited are written to a file, taxis wait for orders."""
    return ["sumo", "-c", config, "--tripinfo-output", out, "--tripinfo-output.write-unfinished",
            "--device.taxi.dispatch-algorithm", "traci", "--no-step-log", "--duration-log.disable", "--no-warnings"]


def start_taxis(traci: Any, every: int) -> Dict[int, str]:
    """Steps until taxis are there. Gives them by number, and their seats."""
    while traci.simulation.getTime() < 10 * every:
        traci.simulationStep(traci.simulation.getTime() + 1.0)
        fleet = sorted(traci.vehicle.getTaxiFleet(-1))
        if fleet:
            return dict(enumerate(fleet, 1))
    raise Fault("no taxi came into the simulation")


def write_fleet(traci: Any, taxis: Mapping[int, str], nodes: Mapping[str, int],
                path: Union[str, pathlib.Path]) -> List[Tuple[int, int, int, int]]:
    """The fleet as it stands in the simulation."""
    rows = []
    for vehicle, taxi in taxis.items():
        edge = traci.vehicle.getRoadID(taxi)
        if edge not in nodes:
            raise Fault(f"taxi {taxi} stands on {edge}, which is not on the network")
        rows.append((vehicle, min(10, traci.vehicle.getPersonCapacity(taxi)), nodes[edge],
                     int(traci.simulation.getTime())))
    write_table(path, FLEET, rows)
    return rows


def simulate(config: str, values: Mapping[str, str], folder: pathlib.Path) -> Tuple[pathlib.Path, str]:
    """The day with `live` as its dispatcher. Gives the file of riders, and a line on the dispatcher."""
    import traci

    nodes = {it.name: it.node for it in read_nodes(values["nodes"])}
    every, end = number(values, "every", 1, 3600, 30), number(values, "until", 1, MOST_NUMBER, MOST_NUMBER)
    out, seconds = folder / "ours.xml", []
    with contextlib.redirect_stdout(io.StringIO()):  # it says there that it waits for the simulation
        traci.start(sumo_words(config, str(out)))
    try:
        taxis = start_taxis(traci, every)
        fleet = values.get("fleet", folder / "fleet.csv")
        rows = write_fleet(traci, taxis, nodes, fleet)
        words = [f"network={values['network']}", f"fleet={fleet}",
                 *(f"{key}={values[key]}" for key in SETTINGS if key in values)]
        with open(values.get("transcript", os.devnull), "w", encoding="ascii") as transcript:
            client = Client(values.get("program") or program.path(), words, [Vehicle(*row) for row in rows], transcript)
            day = Day(traci, client, nodes, taxis)
            while day.second() < end and day.goes_on():
                if day.second() % every == 0:
                    began = time.monotonic()
                    day.plan()
                    seconds.append(time.monotonic() - began)
                day.step()
            client.end()
    finally:
        traci.close()
    gaps = [it["gap"] for it in day.state.batches.values() if not it["overflow"]]
    return out, (f"{len(seconds)} plans in at most {max(seconds):.1f} s, {sum(gap > 0 for gap in gaps)} with a gap, "
                 f"{day.moves} promises moved to another vehicle")


def own_dispatcher(config: str, values: Mapping[str, str], folder: pathlib.Path) -> pathlib.Path:
    """The same day with SUMO's own drtOnline.py, with the same longest wait and delay. Gives the file of riders."""
    out = folder / "theirs.xml"
    copy = folder / "theirs.sumocfg"
    words = sumo_words(config, str(out))
    subprocess.run([*words, "--save-configuration", str(copy)], check=True, stdout=subprocess.DEVNULL)
    tool = pathlib.Path(SUMO_HOME) / "tools" / "drt" / "drtOnline.py"
    every, wait, delay = (number(values, key, 0, MOST_NUMBER, least)
                          for key, least in (("every", 30), ("wait", 120), ("delay", 180)))
    end = ["--end-time", values["until"]] if "until" in values else []
    done = subprocess.run([sys.executable, str(tool), "-c", str(copy), "--sim-step", str(every), "--max-wait", str(wait),
                           "--drf", "0", "--drf-min", str(delay), *end], cwd=folder, capture_output=True, text=True)
    if done.returncode:
        last = (done.stderr.strip().splitlines() or ["it said nothing"])[-1]
        raise Fault(f"drtOnline.py ended with status {done.returncode}: {last}")
    return out


def rides_of(path: pathlib.Path) -> Dict[str, Tuple[float, float, float]]:
    """Each person's ride that was made: seconds of asking, of getting in and of getting out."""
    rides = {}
    for person in xml.etree.ElementTree.parse(path).getroot().iter("personinfo"):
        ride = person.find("ride")
        if ride is None or float(ride.get("arrival", -1)) < 0 or ride.get("vehicle") in (None, "", "NULL"):
            continue
        out, inside = float(ride.attrib["arrival"]), float(ride.attrib["depart"])
        rides[person.attrib["id"]] = (inside - float(ride.attrib["waitingTime"]), inside, out)
    return rides


def direct_seconds(values: Mapping[str, str], ends: Mapping[str, Tuple[int, int]]) -> Dict[str, Optional[int]]:
    """The least seconds of each person's ride over the network."""
    from ridepool.inputs.roads import Roads

    roads = Roads(read_network(values["network"]))
    found = {}
    for person, (origin, destination) in ends.items():
        way = roads.way(origin, destination)
        found[person] = sum(roads.out[a][b] for a, b in zip(way, way[1:])) if way else None
    return found


def asked_rides(config: str, nodes: Mapping[str, int]) -> Dict[str, Tuple[int, int]]:
    """The ends of each person's ride in the route files of a day."""
    routes = xml.etree.ElementTree.parse(config).getroot().find(".//route-files")
    if routes is None:
        raise Fault(f"{config}: no route-files")
    files = routes.attrib["value"].split(",")
    ends = {}
    for name in files:
        for person in xml.etree.ElementTree.parse(pathlib.Path(config).parent / name.strip()).getroot().iter("person"):
            ride = person.find("ride")
            if ride is not None and ride.get("from") in nodes and ride.get("to") in nodes:
                ends[person.attrib["id"]] = nodes[ride.attrib["from"]], nodes[ride.attrib["to"]]
    return ends


def line_of(name: str, path: pathlib.Path, direct: Mapping[str, Optional[int]]) -> str:
    """A line on a day: riders served of those who asked, their waits and delays."""
    least = {person: seconds for person, seconds in direct.items() if seconds is not None}
    rides = {person: it for person, it in rides_of(path).items() if person in least}
    if not rides:
        return f"{name}: served 0 of {len(direct)}"
    waits = [inside - asked for asked, inside, _ in rides.values()]
    delays = [out - asked - least[person] for person, (asked, _, out) in rides.items()]
    return (f"{name}: served {len(rides)} of {len(direct)}, wait {statistics.mean(waits):.0f} s, at most "
            f"{max(waits):.0f} s, delay {statistics.mean(delays):.0f} s, at most {max(delays):.0f} s")


def dispatch_day(arguments: List[str]) -> None:
    """The tool."""
    plain, values = split_words(arguments, WORDS, USAGE)
    if len(plain) != 1 or not {"network", "nodes"} <= set(values):
        raise Fault(USAGE)
    if pathlib.Path(values.get("fleet", "")).is_file():
        raise Fault(f"{values['fleet']}: a file is there already; fleet= names the one that the taxis are written to")
    need("sumolib", "traci", *(["pulp"] if number(values, "own", 0, 1, 0) else []),
         install="apt-get install sumo sumo-tools, and for own=1 python3-pulp coinor-cbc")
    os.environ["SUMO_HOME"] = SUMO_HOME
    nodes = {it.name: it.node for it in read_nodes(values["nodes"])}
    direct = direct_seconds(values, asked_rides(plain[0], nodes))
    with tempfile.TemporaryDirectory() as place:
        folder = pathlib.Path(place)
        out, dispatcher = simulate(plain[0], values, folder)
        print(line_of("ridepool", out, direct))
        print(f"  {dispatcher}", flush=True)
        if number(values, "own", 0, 1, 0):
            began = time.monotonic()
            print(line_of("drtOnline.py", own_dispatcher(plain[0], values, folder), direct))
            print(f"  the day took {time.monotonic() - began:.0f} s")


def main() -> None:
    """The command."""
    run_tool(dispatch_day, USAGE)
