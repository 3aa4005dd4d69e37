"""Drivers who follow their plans and riders who come by themselves, as clients of a dispatcher."""

import asyncio
import math
import random
from typing import Iterable, List, Mapping, Union

from ridepool.desk.dispatcher import Dispatcher, Refused, Unavailable
from ridepool.desk.ways import Ways
from ridepool.inputs.roads import Place
from ridepool.sessions.state import State, Vehicle

TICK = 0.25
SECONDS_BETWEEN_RIDERS = 18
CANCELS = 0.03
PARTIES = (1, 1, 1, 1, 2, 2, 3)


class Driver:
    """A driver: the node that is come to next, the second of that, and the node that was left."""

    def __init__(self, vehicle: Vehicle) -> None:
        self.vehicle, self.node, self.second = vehicle.vehicle, vehicle.node, vehicle.second
        self.behind, self.left = vehicle.node, vehicle.second

    def place(self, at: Mapping[int, Place], second: float) -> Place:
        """Where the vehicle is on the map."""
        (a, b), (c, d) = at[self.behind], at[self.node]
        if second >= self.second:
            return c, d
        part = max(0.0, (second - self.left) / (self.second - self.left))
        return a + part * (c - a), b + part * (d - b)


class Drivers:
    """All drivers of a day. They wait where they were reported while a batch is solved, as a plan begins there."""

    def __init__(self, dispatcher: Dispatcher, ways: Ways, at: Mapping[int, Place], dwell: int) -> None:
        self.dispatcher, self.ways, self.at, self.dwell = dispatcher, ways, at, dwell
        self.drivers = [Driver(it) for it in dispatcher.state.vehicles.values()]
        self.moving = asyncio.Lock()
        dispatcher.before_seal.append(self.report)

    @property
    def state(self) -> State:
        state: State = self.dispatcher.state
        return state

    async def report(self, second: int) -> None:
        """Before a seal: enters what is due, then where each vehicle is."""
        async with self.moving:
            await asyncio.gather(*(self.go(it, second) for it in self.drivers))
            await asyncio.gather(*(self.report_one(it, second) for it in self.drivers))

    async def report_one(self, driver: Driver, second: int) -> None:
        """A vehicle that stands is free at the seal's second; one on its way, when it comes to its next node."""
        if driver.second < second:
            driver.second = driver.left = second
            driver.behind = driver.node
        await self.dispatcher.command("report", driver.vehicle, driver.node, driver.second)

    async def tick(self) -> None:
        """Moves all vehicles to now, and shows where they are."""
        async with self.moving:
            if self.state.sealing is None and not self.dispatcher.sealing.locked():
                now = self.dispatcher.clock.now()
                await asyncio.gather(*(self.go(it, now) for it in self.drivers))
        second = self.dispatcher.clock.exact()
        self.dispatcher.show({it.vehicle: (*it.place(self.at, second), it.node) for it in self.drivers})

    async def go(self, driver: Driver, now: int) -> None:
        """Follows the plan up to a second, node by node."""
        while driver.second <= now:
            stops = self.state.stops(driver.vehicle)
            goal = stops[0][2] if stops else self.state.vehicles[driver.vehicle].move
            if goal is None or (not stops and goal == driver.node):
                return
            if goal == driver.node:
                if not await self.stop(driver, *stops[0][:2]):
                    return
            elif not self.drive(driver, goal):
                return

    async def stop(self, driver: Driver, kind: str, ride: int) -> bool:
        """Makes a stop. Gives whether it was taken."""
        command = "pickup" if kind == "pick" else "dropoff"
        entry = await self.dispatcher.command(command, driver.vehicle, ride, driver.second)
        if entry.reply.startswith("refused"):
            return False
        driver.behind, driver.left = driver.node, driver.second
        driver.second += self.dwell
        return True

    def drive(self, driver: Driver, goal: int) -> bool:
        """Sets out for the next node of a shortest way. Gives whether there is one."""
        way = self.ways.way(driver.node, goal)
        if way is None:
            return False
        driver.behind, driver.left, driver.node = driver.node, driver.second, way[1]
        driver.second += self.ways.roads.out[way[0]][way[1]]
        return True


class Riders:
    """Riders who ask at drawn moments for drawn trips; a few think better of it."""

    def __init__(self, dispatcher: Dispatcher, nodes: Iterable[int], seed: int) -> None:
        self.dispatcher, self.nodes, self.draws = dispatcher, sorted(nodes), random.Random(seed)
        self.next = dispatcher.clock.now() + 2

    async def tick(self) -> None:
        """Lets those ask who come by now."""
        now = self.dispatcher.clock.now()
        while self.next <= now:
            origin, destination = self.draws.sample(self.nodes, 2)
            party = self.draws.choice(PARTIES)
            ride = self.dispatcher.new_ride()
            await self.dispatcher.command("submit", ride, origin, destination, self.next, party=party)
            if self.draws.random() < CANCELS:
                await self.dispatcher.command("cancel", ride)
            self.next += max(1, math.ceil(self.draws.expovariate(1 / SECONDS_BETWEEN_RIDERS)))


async def run(dispatcher: Dispatcher, ways: Ways, at: Mapping[int, Place], dwell: int, seed: int,
              riders: bool = True) -> None:
    """Lets drivers drive and riders come, until the desk is closed."""
    clients: List[Union[Drivers, Riders]] = [Drivers(dispatcher, ways, at, dwell)]
    if riders:
        clients.append(Riders(dispatcher, ways.roads.out, seed))
    while True:
        await asyncio.sleep(TICK)
        for client in clients:
            try:
                await client.tick()
            except (Unavailable, Refused):
                await asyncio.sleep(1)
