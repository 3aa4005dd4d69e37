"""Tests of a desk that is killed at drawn moments, with its `live` or `resume` or without it, and is started again on the same
folder. Nothing that it answered may be lost. What it didn't answer may be there or not."""

import collections
import concurrent.futures
import contextlib
import http.client
import os
import pathlib
import random
import re
import shutil
import signal
import time

from desk_parts.shared import LONG, PATIENCE, TOWN, WITH_PACKAGE, Desk, audited, folder_for_days, inputs, until

SEED = int(os.environ.get("DESK_SEED", "67"))
DAYS = 4  # desks that are killed side by side, each in a folder of its own
KILLS = {"starting": 8, "answering": 8, "answered": 4, "solving": 6, "planned": 4, "stopped": 4, "ended": 6}
PLACED, RESTING, DRIVING = (1, 2), 3, range(4, 11)  # vehicles: those that are placed, the one with breaks, those that make stops
MOST_WAITING = 24  # riders; with more a plan takes long
SHORT = 0.2  # seconds


class Lost(AssertionError):
    """What was answered isn't in the day."""


def need(holds, what):
    """What was answered must be in the day."""
    if not holds:
        raise Lost(what)


class Told:
    """What the desks of a day were told, and what they answered. `values` has what takes the place of something else, as where
    a vehicle is: each value in turn, and whether it was answered. `kills` counts the kills by their moments, and `open` those at
    which a batch was open."""

    def __init__(self):
        self.answered, self.sent, self.count, self.open = [], 0, 0, 0
        self.names, self.contacts, self.kills = set(), set(), collections.Counter()
        self.values = collections.defaultdict(list)

    def next(self):
        """A number that was not given before."""
        self.count += 1
        return self.count

    def tell(self, it, method, path, body=None, value=None):
        """Makes a call, and keeps its answer where one comes and takes the call. `value` is a name and the value it gets."""
        self.sent += 1
        told = [value[1], False] if value else []
        if value:
            self.values[value[0]].append(told)
        with contextlib.suppress(OSError, http.client.HTTPException):
            status, answer = it.call(method, path, body)
            if status in (200, 201):
                self.answered.append((method, path, body, answer))
                told[1:] = [True]

    def may_be(self, name):
        """What a value may be: the last that was answered, or one that was told behind it. Empty where none was answered."""
        told = self.values[name]
        places = [place for place, (_, was_answered) in enumerate(told) if was_answered]
        return [value for value, _ in told[places[-1]:]] if places else []

    def must_be_in(self, it):
        """All that was answered must be in a desk's day, and in it must be no rider who never asked."""
        rides = {ride["ride"]: ride for ride in it.gives("GET", "/rides")}
        batches = {batch["batch"] for batch in it.gives("GET", "/batches?limit=1000")}
        names = collections.Counter(ride["who"] for ride in rides.values())
        need(set(names) <= self.names and set(names.values()) <= {1}, f"other riders: {names}")
        for method, path, body, answer in self.answered:
            if path == "/rides":
                ride = rides.get(answer["ride"], {})
                need(all(ride.get(key) == value for key, value in body.items()), (body, answer, ride))
            elif path == "/seal":
                need(answer["batch"] in batches, (answer, batches))
            elif path.endswith("/contact"):
                found = it.gives("GET", path)
                need(found == body, (path, body, found))
            elif becomes := states_behind(method, path):
                number = int(path.split("/")[2]) if body is None else body["ride"]
                state = rides.get(number, {}).get("state")
                need(state in becomes, (method, path, body, state))
        self.values_must_be_in({vehicle["vehicle"]: vehicle for vehicle in it.gives("GET", "/vehicles")})

    def values_must_be_in(self, vehicles):
        """Where vehicles are and which have a break must be what was told last."""
        for what, number in self.values:
            vehicle, may_be = vehicles[number], self.may_be((what, number))
            found = vehicle["out"] if what == "break" else (vehicle["node"], vehicle["second"])
            need(not may_be or found in may_be, (what, number, found, may_be))

    def must_be_in_report(self, text):
        """Each command that was answered must stand in the report once, with its reply."""
        found = collections.Counter(re.sub(r"^seal \d+", "seal", it) for it in re.findall(
            r"^\d+ \d+ ((?:submit|cancel|report|pickup|dropoff|seal) .*)$", text, re.M))
        for call in self.answered:
            entry = entry_of(*call)
            need(entry is None or found[entry] == 1, f"`{entry}` stands {found[entry]} times in the report")


def states_behind(method, path):
    """The states in which a call may leave its ride; None where it has no ride."""
    what, _, *rest = path.split("/")[1:]
    if what == "rides" and method == "DELETE":
        return ("cancelled",)
    return {("pickup",): ("aboard", "delivered"), ("dropoff",): ("delivered",)}.get(tuple(rest))


def entry_of(method, path, body, answer):
    """What the report says of an answered call, but for the second of a seal; None where it says nothing."""
    number, reply = path.split("/")[2:3], answer.get("reply")
    if reply is None:
        return None
    if path == "/rides":
        party = f" {body['persons']}" if body["persons"] > 1 else ""
        return f"submit {answer['ride']} {body['from']} {body['to']} {body['time']}{party} {reply}"
    if path == "/seal":
        return f"seal {reply}"
    if method == "DELETE":
        return f"cancel {number[0]} {reply}"
    if path.endswith("/position"):
        return f"report {number[0]} {body['node']} {body['second']} {reply}"
    return f"{path.split('/')[3]} {number[0]} {body['ride']} {body['second']} {reply}"


# The calls of a turn

def riders_calls(told, rng, rides):
    """Riders who ask, as many as may wait; some who cancel, and some who tell a telephone number."""
    waiting = [it["ride"] for it in rides if it["state"] in ("waiting", "promised")]
    for _ in range(max(2, min(8, MOST_WAITING - len(waiting)))):
        start, name = rng.randint(1, 80), f"rider {told.next()}"
        told.names.add(name)
        yield "POST", "/rides", {"from": start, "to": start % 80 + 1, "persons": rng.randint(1, 2), "time": 0, "who": name}
    for ride in rng.sample(waiting, min(len(waiting), 3)):
        yield "DELETE", f"/rides/{ride}"
    for it in rng.sample(rides, min(len(rides), 2)):
        path = f"/rides/{it['ride']}/contact"
        if path not in told.contacts:
            told.contacts.add(path)
            yield "POST", path, {"who": it["who"], "phone": str(told.next()), "note": None}


def vehicles_calls(told, rng, vehicles):
    """Vehicles that are placed or make their next stop, and one that goes out of service or comes back."""
    for number in PLACED:
        at = rng.randint(1, 80), told.next()
        yield "POST", f"/vehicles/{number}/position", {"node": at[0], "second": at[1]}, (("place", number), at)
    for number in rng.sample(DRIVING, 4):
        for stop in vehicles[number]["stops"][:1]:
            command = {"pick": "pickup", "drop": "dropoff"}[stop["kind"]]
            yield "POST", f"/vehicles/{number}/{command}", {"ride": stop["ride"], "second": stop["second"]}
    is_out = vehicles[RESTING]["out"]
    yield "DELETE" if is_out else "POST", f"/vehicles/{RESTING}/break", None, (("break", RESTING), not is_out)


class Turn:
    """A desk, the clients who call it, and the way to the moment at which it is killed. `took` are the seconds of its start. A
    program that stands still is waited for at most `pause` seconds."""

    def __init__(self, it, told, rng, clients, took, pause):
        self.it, self.told, self.rng, self.clients, self.took, self.pause = it, told, rng, clients, took, pause

    def tell(self, *call):
        """Begins a call."""
        return self.clients.submit(self.told.tell, self.it, *call)

    def begun(self):
        """Begins drawn calls in a drawn order."""
        vehicles = {it["vehicle"]: it for it in self.it.gives("GET", "/vehicles")}
        calls = [*riders_calls(self.told, self.rng, self.it.gives("GET", "/rides")), *vehicles_calls(self.told, self.rng, vehicles)]
        self.rng.shuffle(calls)
        return [self.tell(*call) for call in calls]

    def some_are_over(self, calls):
        """Waits until a drawn number of calls is over."""
        for _ in zip(range(self.rng.randint(0, len(calls))), concurrent.futures.as_completed(calls)):
            pass

    def answering(self):
        """While commands are answered."""
        self.some_are_over(self.begun())

    def solving(self):
        """Behind a seal: within a moment, or while commands are answered."""
        calls = self.begun()
        concurrent.futures.wait([self.tell("POST", "/seal")])
        if self.rng.random() < 0.5:
            self.some_are_over(calls)
        else:
            time.sleep(self.rng.random() * SHORT)

    def answered(self):
        """When all is answered, and nothing planned."""
        concurrent.futures.wait(self.begun())

    def planned(self):
        """When all is answered and planned."""
        concurrent.futures.wait([*self.begun(), self.tell("POST", "/seal")])
        until(lambda: self.it.call("GET", "/health")[1]["open_batch"] is None, "a plan")

    def stopped(self):
        """While commands wait for a program that stands still."""
        calls = self.begun()
        self.some_are_over(calls)
        os.kill(self.it.live(), signal.SIGSTOP)
        concurrent.futures.wait([*calls, *self.begun()], self.rng.random() * self.pause)

    def ended(self):
        """Behind the end of `live`: while the desk starts it again, or when it has and answers."""
        calls = self.begun()
        self.some_are_over(calls)
        os.kill(self.it.live(), signal.SIGKILL)
        if self.rng.random() < 0.5:
            return time.sleep(self.rng.random() * self.took)
        concurrent.futures.wait(calls)
        until(lambda: self.it.call("GET", "/health")[1]["restarts"] == 1, "another start")
        until(lambda: self.it.call("GET", "/health")[0] == 200, "ready again")
        self.told.must_be_in(self.it)
        self.some_are_over(self.begun())


def programs(it):
    """The program that a desk runs, if so."""
    return pathlib.Path(f"/proc/{it.child.pid}/task/{it.child.pid}/children").read_text().split()


def killed(it, order):
    """Kills a desk: behind the program that it runs, before it, or alone. A program that isn't killed ends by itself."""
    found = [int(pid) for pid in programs(it)]
    for pid in {0: (*found, it.child.pid), 1: (it.child.pid, *found), 2: (it.child.pid,)}[order]:
        with contextlib.suppress(ProcessLookupError):
            os.kill(pid, signal.SIGKILL)
    it.end(signal.SIGKILL)


def killed_day(program, folder, moments, seed, pause=SHORT, **more):
    """A day whose desk is killed at these moments, and is closed at last. Gives what was told."""
    rng, told, took = random.Random(seed), Told(), 1.0
    for moment in [*moments, None]:
        has_begun, began = (folder / "day.json").exists(), time.monotonic()
        words = [] if has_begun else [*inputs(TOWN), *LONG, "trip=3"]
        it = Desk(folder, *words, program=program, waits_for=None, **more)
        try:
            if moment == "starting":
                time.sleep(rng.random() * took)
            else:
                it.port = it.opened()
                assert it.port, it.said
                took = time.monotonic() - began
                told.must_be_in(it)
            if moment is not None:
                with concurrent.futures.ThreadPoolExecutor(4) as clients:
                    try:
                        if moment != "starting":
                            getattr(Turn(it, told, rng, clients, took, pause), moment)()
                    finally:
                        killed(it, rng.randrange(2 if moment == "stopped" else 3))
                told.kills[moment] += 1
                told.open += has_open_batch(folder)
        finally:
            it.end()
    until(lambda: not runs_on(folder), "each program has ended")
    text = (folder / "transcript").read_text()
    told.must_be_in_report(text)
    audited(program, folder, text.count("\nend\n"))
    return told


def has_open_batch(folder):
    """Whether a batch has no plan in the transcript yet."""
    path = folder / "transcript"
    text = path.read_text() if path.exists() else ""
    return text.count(" sealed ") > text.count("\nend\n")


def runs_on(folder):
    """The processes whose words have a folder."""
    found = []
    for path in pathlib.Path("/proc").glob("[0-9]*/cmdline"):
        with contextlib.suppress(OSError):
            if f"{folder}/".encode() in path.read_bytes():
                found.append(path.parent.name)
    return found


def test_forty_kills_at_drawn_moments_lose_nothing_answered(program):
    moments = [it for it, count in KILLS.items() for _ in range(count)]
    random.Random(SEED).shuffle(moments)
    began = time.monotonic()
    with contextlib.ExitStack() as folders, concurrent.futures.ThreadPoolExecutor(DAYS) as pool:
        days = []
        for number in range(DAYS):
            folder = folders.enter_context(folder_for_days())
            days.append(pool.submit(killed_day, program, folder, moments[number::DAYS], SEED + number))
        told = [day.result() for day in days]
    kills = sum((it.kills for it in told), collections.Counter())
    answered, sent = sum(len(it.answered) for it in told), sum(it.sent for it in told)
    print(f"  {answered} of {sent} calls were taken, and a batch was open at {sum(it.open for it in told)} of "
          f"{sum(kills.values())} kills; {time.monotonic() - began:.0f} s")
    assert kills == KILLS and all(it.answered for it in told), kills


def test_a_day_whose_desk_was_killed_as_it_began_begins(desk, fails, audited, folder):
    folder.mkdir(parents=True)
    shutil.copy(TOWN / "network.csv", folder)
    for name in ("fleet.csv.part", "day.json.part"):
        (folder / name).write_text("torn")
    fails("words: bad value", *inputs(TOWN), "wait=8000", folder=folder)
    assert {it.name for it in folder.iterdir() if it.suffix == ".csv"} == {"network.csv"}
    with desk(*inputs(TOWN), folder=folder) as it:
        it.gives("POST", "/rides", {"from": 2, "to": 4})
    assert {it.name for it in folder.iterdir() if it.suffix == ".part"} == set()
    audited(folder, 0)


WRONG = """
from ridepool.desk import command, dispatcher, folder
from ridepool.report.reader import Entry
{change}
command.main()
"""
EARLY = """
REPLIES = {"submit": "accepted", "cancel": "cancelled", "report": "placed", "pickup": "picked", "dropoff": "dropped"}
right = dispatcher.Dispatcher.command
async def early(self, name, *fields, party=1):
    asked = self.spawn(right(self, name, *fields, party=party))
    return Entry(0, 0, 0, name, fields, party, REPLIES[name]) if name in REPLIES else await asked
dispatcher.Dispatcher.command = early
"""
UNWRITTEN = """
def append(self, rows, lines):
    for file, text in zip(self.files, (rows, lines)):
        file.write(text)
folder.Folder.append = append
"""


def test_a_desk_that_answers_before_live_did_or_before_it_wrote_is_found(program):
    for change, moment in (EARLY, "stopped"), (UNWRITTEN, "answered"):
        with folder_for_days() as folder:
            folder.parent.mkdir(exist_ok=True)
            tool = folder.parent / "wrong.py"
            tool.write_text(WRONG.format(change=change))
            try:
                killed_day(program, folder, [moment], SEED, PATIENCE, tool=tool, env=WITH_PACKAGE)
            except Lost:
                continue
            raise AssertionError(f"nothing was lost by a desk that is killed {moment}:{change}")
