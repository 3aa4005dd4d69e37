"""The desk's middle: sends rows to `ridepool live`, keeps the day on disk, tells listeners what changed."""

from __future__ import annotations

import asyncio
import json
import time
from collections import deque
from typing import TYPE_CHECKING, Any, Awaitable, Callable, Coroutine
from typing import Counter as Counts
from typing import Deque, Dict, Iterable, List, Mapping, Optional, Sequence, Set, Tuple, TypeVar

from ridepool.desk import log
from ridepool.desk.book import Book
from ridepool.desk.breaks import Breaks
from ridepool.desk.contacts import Contacts
from ridepool.desk.folder import Folder
from ridepool.desk.metrics import Meter
from ridepool.desk.numbers import FIRST_OWN
from ridepool.desk.past import Past
from ridepool.desk.totals import Trip
from ridepool.desk.trouble import MOST_SHOWN, Trouble, Watch, setting
from ridepool.inputs.tables import Path
from ridepool.report.reader import Batch, Entry
from ridepool.sessions.process import Live
from ridepool.sessions.rows import entrys_row, lane_of, row_of
from ridepool.sessions.stand import stand_of
from ridepool.sessions.state import ENDED, Change, Ride, State, Vehicle
from ridepool.words import Fault

if TYPE_CHECKING:
    from ridepool.desk.hook import Hook

MOST_WAITING_ROWS = 10_000
MOST_RESTARTS = 3
MOST_LISTENERS, LISTENER_ROOM = 100, 2_000
ANSWER_SECONDS = 5  # a command or the disk that takes longer hangs
SLOW_PLANS = 10  # a plan that takes so many times `every` hangs
PLAN_SECONDS = 30  # what stands for `every` where plans are made by calls alone
RESTART_PAUSE = 0.5
CONTACTS, BREAKS = "contacts.jsonl", "breaks.json"  # in the day's folder
TOLD = ("waiting", "promised", "expired")
Result = TypeVar("Result")
Place = Tuple[float, float, int]  # on the map, and the node that comes next


class Unavailable(Exception):
    """Why no command can be taken at this moment."""


class Refused(Exception):
    """A row that `live` didn't take, with its text. The desk sends none of this kind."""


class Ended(Exception):
    """Why `live` can't be started again. It ends the desk."""


class Waiting:
    """A row that was sent and isn't answered yet."""

    def __init__(self, number: int, command: str, fields: Tuple[int, ...]) -> None:
        self.number, self.command, self.fields = number, command, fields
        self.sent = time.monotonic()
        self.answer: asyncio.Future[Entry] = asyncio.get_running_loop().create_future()

    def fail(self, fault: Exception) -> None:
        """Tells who waits that there is no answer."""
        if not self.answer.done():
            self.answer.set_exception(fault)


Answers = List[Tuple[Waiting, Entry]]
Piece = Tuple[Answers, List[Change]]  # what waits for the disk together


class Clock:
    """Seconds of the book. They pass `speed` times as fast as real ones, and never go back. The first isn't before
    `least`; `behind` is by how much the machine's clock was."""

    def __init__(self, began: float, speed: int, least: int = 0) -> None:
        given = (time.time() - began) * speed
        self.began, self.speed, self.behind = began, speed, max(0.0, least - given)
        self.least = max(given, least)
        self.mark = time.monotonic()

    def exact(self) -> float:
        """The second with its fraction."""
        return max(0.0, self.least + (time.monotonic() - self.mark) * self.speed)

    def now(self) -> int:
        """The whole second."""
        return int(self.exact())


class Dispatcher:
    """A running day. `status` is starting, ready or ended, with a text why. `failed` has what ends the desk. `past` is the day
    so far while a program starts; `has_opened` says that it was read once, `takes_lines` that what the program prints is the
    day's."""

    def __init__(self, program: Path, words: Sequence[str], folder: Folder, fleet: Callable[[], List[Vehicle]], clock: Clock,
                 watch: Watch) -> None:
        self.program, self.words, self.folder, self.fleet, self.clock = program, words, folder, fleet, clock
        self.watch, self.meter = watch, Meter()
        self.failed: asyncio.Future[BaseException] = asyncio.get_running_loop().create_future()
        self.status, self.why = "starting", "the dispatcher is starting"
        self.restarts = 0
        self.listeners: Set[asyncio.Queue[Optional[str]]] = set()
        self.places: Dict[int, Place] = {}
        self.has_opened = self.takes_lines = False
        self.before_seal: List[Callable[[int], Awaitable[None]]] = []
        self.sealing, self.stopping = asyncio.Lock(), False
        self.to_sync: Deque[Piece] = deque()
        self.syncing: Optional[asyncio.Task[None]] = None
        self.contacts, self.breaks = Contacts(folder.path / CONTACTS), Breaks(folder.path / BREAKS)
        self.hook: Optional[Hook] = None
        self.before_seal.append(self.keep_breaks)
        self.live: Optional[Live] = None
        self.told = asyncio.Condition()
        self.hang: Optional[str] = None
        self.stopped_since: Optional[float] = None
        self.sync_began: Optional[float] = None
        self.troubles_told: List[Trouble] = []
        self.book, self.round, self.next_ride = Book(self.fleet()), 0, 1
        self.past: Optional[Past] = None
        self.numbers_of_fleet = sorted(self.state.vehicles)
        self.clear()
        self.meter.watch(self)

    def clear(self) -> None:
        """What a new program begins with: nobody waits for it."""
        self.waiting: Dict[int, Deque[Waiting]] = {lane: deque() for lane in range(16)}
        self.sent = 0
        self.numbers: Dict[int, Waiting] = {}
        self.solving_since: Optional[float] = None

    @property
    def running(self) -> Live:
        """The program, which was started."""
        assert self.live is not None
        return self.live

    @property
    def state(self) -> State:
        """The book as the transcript tells it."""
        return self.book.state

    @property
    def tally(self) -> Counts[str]:
        """How many were delivered or cancelled, or expired, and how many promises lapsed."""
        return self.book.tally

    @property
    def trips(self) -> List[Trip]:
        """The rides that are over."""
        return self.book.trips

    # Beginning, going on and ending

    async def begin(self) -> None:
        """Starts the program with the day so far, and waits until all of it has come: `resume` on the transcript, or `live`
        where none stands. Until then the day's files and the book stay as they are."""
        self.clear()
        whole = self.folder.transcript_bytes()
        self.past = past = Past(Book(self.fleet()), self.folder.begin_anew(), whole)
        self.takes_lines = False
        self.live = live = Live(self.program, self.call(whole), self.on_lines, self.on_refused, self.on_end, self.on_other)
        has_come = False
        try:
            await live.start()
            assert live.reading is not None
            self.watched(live.reading)
            await self.until(lambda: self.status == "ended" or past.is_through)
            if self.status != "ended":
                await asyncio.get_running_loop().run_in_executor(None, past.files.sync)
                has_come = True
        finally:
            if not has_come:
                past.files.drop()
                self.past = None
        if not has_come:
            raise Unavailable(self.why)

    def call(self, whole: Optional[int]) -> List[str]:
        """The command and the words of the program."""
        if whole is None:
            return ["live", *self.words]
        kept = ("network=", "fleet=", "workers=", "times=")  # all others are the transcript's
        return ["resume", *(it for it in self.words if it.startswith(kept)), f"report={self.folder.transcript_path}"]

    async def until(self, holds: Callable[[], bool]) -> None:
        """Waits until something holds; it is tried at each piece of the transcript."""
        async with self.told:
            await self.told.wait_for(holds)

    def go_on(self) -> None:
        """Takes the day so far as the day, and is ready for commands."""
        past, before = self.past, self.state.batches
        assert past is not None
        self.folder.take(past.files)
        self.book, self.round, self.past = past.book, past.round, None
        self.has_opened = self.takes_lines = True
        for number, batch in self.state.batches.items():
            if "seconds" in before.get(number, ()):
                batch["seconds"] = before[number]["seconds"]
        self.set_status("ready", "")
        self.publish("state", self.snapshot())
        if past.closed is not None:
            self.publish_change(past.closed)

    def set_status(self, status: str, why: str) -> None:
        """Tells a new status."""
        self.status, self.why = status, why
        self.publish("status", self.health())

    async def end(self) -> None:
        """Ends the input of `live`, so that the transcript is a whole report, and keeps its last lines."""
        self.stopping = True
        is_starting = self.status == "starting"
        self.set_status("ended", "the desk was closed")
        if self.live is not None:
            await (self.live.kill() if is_starting else self.live.finish())
        if self.syncing is not None:
            await asyncio.wait([self.syncing])
        self.folder.close()

    # Commands

    async def command(self, command: str, *fields: int, party: int = 1) -> Entry:
        """Sends a command. Gives its entry of the transcript once that is on disk."""
        if self.status != "ready":
            raise Unavailable(self.why_in_full())
        if len(self.numbers) >= MOST_WAITING_ROWS:
            raise Unavailable("too many commands wait for their answer")
        lane = lane_of(command, fields)
        self.sent += 1
        waiting = Waiting(self.sent, command, fields)
        self.numbers[self.sent] = waiting
        self.waiting[lane].append(waiting)
        self.running.send(row_of(lane, command, fields, party, self.round))
        return await waiting.answer

    def fleet_numbers(self) -> List[int]:
        """The vehicles' numbers in their order."""
        return self.numbers_of_fleet

    def new_ride(self) -> int:
        """The least number that no ride has and that was not given out before. Callers' own numbers begin above."""
        while self.next_ride in self.state.rides:
            self.next_ride += 1
        if self.next_ride >= FIRST_OWN:
            raise Unavailable(f"all numbers of rides below {FIRST_OWN:,} were given in this day")
        self.next_ride += 1
        return self.next_ride - 1

    async def seal(self) -> Optional[Entry]:
        """Seals a batch now. Gives the entry; None where the last batch is still open, for then no row may follow."""
        async with self.sealing:
            if self.state.sealing is not None:
                return None
            second = max(self.clock.now(), self.last_seal())
            for prepare in self.before_seal:
                await prepare(second)
            return await self.command("seal", second)

    def last_seal(self) -> int:
        """The second of the last batch."""
        last = max(self.state.batches, default=None)
        return 0 if last is None else int(self.state.batches[last]["second"])

    async def keep_sealing(self, every: int) -> None:
        """Seals a batch every so many seconds; one that is still open then is waited for."""
        while True:
            pause = every - self.clock.exact() % every
            await asyncio.sleep(pause / self.clock.speed)
            try:
                if await self.seal() is None:
                    await self.until(lambda: self.state.sealing is None or self.status != "ready")
                    await self.seal()
            except (Unavailable, Refused):
                continue

    # What `live` says

    def on_lines(self, lines: List[str]) -> None:
        """Takes whole lines of the transcript: answers the rows, keeps the lines, tells the listeners."""
        if self.past is not None:
            self.past.take(lines)
        elif self.takes_lines:
            self.take(lines)
        self.spawn(self.notify())

    def take(self, lines: List[str]) -> None:
        """Takes lines behind the day so far."""
        rows: List[str] = []
        answers: Answers = []
        events: List[Change] = []
        for line in lines:
            change = self.book.line(line)
            if change is None:
                continue
            if change.entry is not None and change.entry.command != "close":
                rows.append(entrys_row(change.entry))
                self.answered(change.entry, answers)
            self.note_time(change)
            events.append(change)
        self.folder.append("".join(rows), "".join(line + "\n" for line in lines))
        self.release_after_sync(answers, events)

    def on_other(self, text: str) -> bool:
        """Takes a line of standard error that refuses no row. Gives whether it says how much is kept."""
        stand = stand_of(text)
        if stand is not None and self.past is not None:
            self.past.stand = stand
            self.spawn(self.notify())
        return stand is not None

    def release_after_sync(self, answers: Answers, events: List[Change]) -> None:
        """Answers and events that wait for the disk."""
        for waiting, _ in answers:
            self.numbers.pop(waiting.number, None)
        self.to_sync.append((answers, events))
        if self.syncing is None:
            self.syncing = self.spawn(self.sync())

    def answered(self, entry: Entry, answers: Answers) -> None:
        """Finds the row that an entry answers."""
        waiting = self.waiting[entry.lane].popleft()
        if (waiting.command, waiting.fields) != (entry.command, entry.fields):
            raise ValueError("live answered another row than was sent")
        answers.append((waiting, entry))

    def note_time(self, change: Change) -> None:
        """Takes the time from a seal to its block."""
        if change.batch is not None:
            if self.solving_since is None:
                raise ValueError("a block without its seal")
            seconds = time.monotonic() - self.solving_since
            self.meter.planned(seconds)
            self.state.batches[change.batch.number]["seconds"] = round(seconds, 3)
            self.solving_since = None
        elif change.entry is not None and change.entry.command == "seal" and self.state.sealing is not None:
            self.solving_since = time.monotonic()

    async def notify(self) -> None:
        """Wakes who waits for the transcript."""
        async with self.told:
            self.told.notify_all()

    async def sync(self) -> None:
        """Waits for the disk, then answers; what came meanwhile shares the next wait."""
        while self.to_sync:
            pieces, self.to_sync, self.sync_began = self.to_sync, deque(), time.monotonic()
            try:
                await asyncio.get_running_loop().run_in_executor(None, self.folder.sync)
            except OSError as fault:
                self.not_on_disk([*pieces, *self.to_sync], fault)
                break
            for answers, events in pieces:
                for waiting, entry in answers:
                    self.meter.answered(time.monotonic() - waiting.sent)
                    if not waiting.answer.done():
                        waiting.answer.set_result(entry)
                for change in events:
                    self.publish_change(change)
        self.syncing = self.sync_began = None

    def not_on_disk(self, pieces: Sequence[Piece], fault: OSError) -> None:
        """Where the disk fails, `live` is ended, and nobody is told an answer that may be lost."""
        self.to_sync.clear()
        self.running.told = str(fault)
        self.running.process.kill()
        for answers, _ in pieces:
            for waiting, _ in answers:
                waiting.fail(Unavailable(f"the day can't be kept: {fault}"))

    def on_refused(self, number: int, text: str) -> None:
        """A row that `live` refused. It is in no transcript."""
        waiting = self.numbers.pop(number, None)
        if waiting is not None:
            for lane in self.waiting.values():
                if waiting in lane:
                    lane.remove(waiting)
            waiting.fail(Refused(text))

    def on_end(self, text: str) -> None:
        """`live` has ended: nobody who waits is answered any more. It is started again, three times in all."""
        self.fail_waiting()
        self.spawn(self.notify())
        if self.status != "ready" or self.stopping:
            return self.set_status("ended", text)
        self.go_on_after(text)

    def fail_waiting(self) -> None:
        """Tells all who wait that no answer comes."""
        for waiting in self.numbers.values():
            waiting.fail(Unavailable("the dispatcher ended before it answered; look before you ask again"))
        self.numbers.clear()

    def go_on_after(self, text: str) -> None:
        """Starts `live` again after an end or a failed start; after three times the desk ends."""
        log.say(text, log.ERROR)
        if self.stopping:
            return None
        if self.restarts == MOST_RESTARTS:
            return self.give_up(f"{text}; it was started again {MOST_RESTARTS} times already")
        self.set_status("starting", f"{text}; it is started again")
        self.spawn(self.start_again())

    async def start_again(self) -> None:
        """Starts the program again from the folder."""
        if self.syncing is not None:
            await asyncio.wait([self.syncing])
        await asyncio.sleep(RESTART_PAUSE * self.restarts)
        self.restarts += 1
        try:
            await self.begin()
            self.go_on()
        except (Unavailable, OSError, Fault) as fault:
            await self.running.kill()
            return self.go_on_after(str(fault))
        log.say("ridepool live goes on from the folder")

    def give_up(self, text: str) -> None:
        """Ends the desk, since `live` can't go on."""
        self.set_status("ended", text)
        self.tell_trouble()
        self.fail(Ended(text))

    # What must not hang or die

    def spawn(self, work: Coroutine[Any, Any, Result]) -> asyncio.Task[Result]:
        """Starts a background task. One that dies ends the desk."""
        return self.watched(asyncio.ensure_future(work))

    def watched(self, task: asyncio.Task[Result]) -> asyncio.Task[Result]:
        """Sees to it that a task which dies ends the desk."""
        task.add_done_callback(self.look_after)
        return task

    def look_after(self, task: asyncio.Task[Result]) -> None:
        """Tells of a task that is over where it died."""
        fault = None if task.cancelled() else task.exception()
        if fault is not None:
            self.fail(fault)

    def fail(self, fault: BaseException) -> None:
        """Tells what ends the desk; the first that is told counts."""
        if not self.failed.done():
            self.failed.set_result(fault)

    async def keep_watch(self) -> None:
        """Looks each second for what hangs and for trouble, and tells the listeners what changed."""
        while True:
            await asyncio.sleep(1)
            self.look()

    def look(self) -> None:
        """Looks once."""
        before, self.hang = self.hang, self.hanging()
        if before != self.hang:
            log.say(self.hang or "nothing hangs any more", log.ERROR if self.hang else log.INFO)
            self.publish("status", self.health())
        self.tell_trouble()

    def tell_trouble(self) -> None:
        """Tells the listeners the trouble, where it is other than the last that they were told."""
        found = self.troubles()
        if found != self.troubles_told:
            self.troubles_told = found
            self.publish("trouble", self.trouble_view())

    def hanging(self) -> Optional[str]:
        """What hangs, in words; None where nothing does."""
        now, oldest = time.monotonic(), next(iter(self.numbers.values()), None)
        if self.status != "ready":
            return None
        if self.has_stopped(now):
            return f"the dispatcher was stopped by a signal; `kill -CONT {self.running.process.pid}` lets it go on"
        if self.solving_since is not None and now - self.solving_since > SLOW_PLANS * self.plan_seconds():
            return f"plan {self.open_batch()} takes more than {SLOW_PLANS * self.plan_seconds():.0f} s"
        if oldest is not None and now - oldest.sent > ANSWER_SECONDS:
            return f"the dispatcher hasn't answered a command for more than {ANSWER_SECONDS} s"
        if self.sync_began is not None and now - self.sync_began > ANSWER_SECONDS:
            return f"the disk hasn't taken the day's rows for more than {ANSWER_SECONDS} s"
        return None

    def has_stopped(self, now: float) -> bool:
        """Whether `live` is stopped for longer than a command may take."""
        self.stopped_since = (self.stopped_since or now) if self.running.is_stopped() else None
        return self.stopped_since is not None and now - self.stopped_since > ANSWER_SECONDS

    def plan_seconds(self) -> float:
        """Real seconds from plan to plan."""
        return (self.watch.every or PLAN_SECONDS) / self.clock.speed

    def troubles(self) -> List[Trouble]:
        """All trouble, the most urgent first."""
        now = self.clock.now()
        found: List[Trouble] = []
        if self.status != "ready" or self.hang:
            text = self.hang or self.why
            begun = next((it.second for it in self.troubles_told if it.text == text), now)
            found.append(Trouble("hangs", text, begun))
        if self.solving_since is not None and time.monotonic() - self.solving_since > self.plan_seconds():
            text = f"Plan {self.open_batch()} takes longer than the {self.plan_seconds():g} s from plan to plan"
            begun = int(now - (time.monotonic() - self.solving_since) * self.clock.speed)
            begun = next((it.second for it in self.troubles_told if it.text == text), begun)
            found.append(Trouble("slow-plan", text, begun, batch=self.open_batch()))
        return sorted(found + self.watch.found(self.state, now), key=Trouble.urgency)

    def trouble_view(self) -> Dict[str, Any]:
        """All trouble that was seen last, counted, and the most urgent of it."""
        found, now = self.troubles_told, self.clock.now()
        late = len({it.vehicle for it in found if it.kind == "late-vehicle"})
        return {"count": len(found), "late": late, "expired": self.tally["expired"], "lapsed": self.tally["lapsed"],
                "trouble": [it.view(now) for it in found[:MOST_SHOWN]]}

    # Listeners

    def listen(self) -> asyncio.Queue[Optional[str]]:
        """A queue of events, each a text of the stream. A listener who is far behind is let go."""
        if len(self.listeners) >= MOST_LISTENERS:
            raise Unavailable(f"{MOST_LISTENERS} listeners are connected already")
        queue: asyncio.Queue[Optional[str]] = asyncio.Queue(LISTENER_ROOM)
        self.listeners.add(queue)
        queue.put_nowait(event_text("state", self.snapshot()))
        return queue

    def release_listeners(self) -> None:
        """Ends all streams of events."""
        for queue in list(self.listeners):
            self.release(queue)

    def release(self, queue: asyncio.Queue[Optional[str]]) -> None:
        """Ends one stream of events."""
        self.listeners.discard(queue)
        while not queue.empty():
            queue.get_nowait()
        queue.put_nowait(None)

    def publish(self, kind: str, value: object) -> None:
        """Tells all listeners."""
        text = event_text(kind, value) if self.listeners else None
        for queue in list(self.listeners):
            if queue.full():
                self.release(queue)
            else:
                queue.put_nowait(text)

    def publish_change(self, change: Change) -> None:
        """Tells what a line changed."""
        if change.batch is not None:
            self.publish_notices(change.batch, change.rides)
        if not self.listeners:
            return
        rides = [self.ride_view(self.state.rides[it]) for it in sorted(change.rides)]
        vehicles = [self.vehicle_view(it) for it in sorted(change.vehicles)]
        if change.batch is not None:
            batch = self.state.batches[change.batch.number]
            self.publish("plan", {"batch": batch, "rides": rides, "vehicles": vehicles})
        elif change.entry is not None:
            it = change.entry
            self.publish("reply", {"position": it.position, "command": it.command, "fields": it.fields,
                                   "reply": it.reply, "rides": rides, "vehicles": vehicles,
                                   "open_batch": self.open_batch()})

    def publish_notices(self, batch: Batch, changed: Iterable[int]) -> None:
        """Tells what riders are to be told after a plan: when they are picked up, or that they aren't for now, or no more."""
        rides = [self.state.rides[it] for it in sorted(changed)]
        told = [{"ride": it.ride, "state": it.state, "vehicle": it.vehicle, "pickup_second": it.pickup,
                 "drop_off_second": it.dropoff} for it in rides if it.state in TOLD]
        value = {"batch": batch.number, "second": batch.second, "notices": told}
        self.publish("notices", value)
        if self.hook is not None and told:
            self.hook.tell(value)

    def ride_view(self, ride: Ride) -> Dict[str, Any]:
        """A ride with its rider's name."""
        return {**ride.view(), "who": self.contacts.of(ride.ride)["who"]}

    def publish_ride(self, number: int) -> None:
        """Tells that something else is known of a ride."""
        self.publish("ride", self.ride_view(self.state.rides[number]))

    async def keep_breaks(self, second: int) -> None:
        """Before a seal: vehicles out of service are free so late that they can pick up nobody in time."""
        wait = setting(self.state, "wait")
        for vehicle, node in list(self.breaks.nodes.items()):
            if vehicle in self.state.vehicles:
                await self.command("report", vehicle, node, second + wait + 1)

    def publish_vehicle(self, number: int) -> None:
        """Tells that something else is known of a vehicle."""
        self.publish("vehicle", self.vehicle_view(number))

    def vehicle_view(self, number: int) -> Dict[str, Any]:
        """A vehicle with the place where it was last seen, if somebody told it."""
        view = self.state.vehicle_view(number)
        due = view["stops"][0]["second"] if view["stops"] else None
        late = None if due is None else max(0, self.clock.now() - due)
        return {**view, "late": late, "place": self.places.get(number), "out": number in self.breaks.nodes}

    def show(self, places: Mapping[int, Place]) -> None:
        """Takes where vehicles are on the map, and the node that each comes to next. Nothing of it is kept."""
        self.places.update(places)
        self.publish("places", [[number, *place] for number, place in places.items()])

    def open_batch(self) -> Optional[int]:
        """The batch that is being solved, if so."""
        return None if self.state.sealing is None else self.state.sealing[0]

    def health(self) -> Dict[str, Any]:
        """Whether commands are taken, and the second of the book."""
        solving = None if self.solving_since is None else round(time.monotonic() - self.solving_since, 1)
        status, why = ("hangs", self.hang) if self.status == "ready" and self.hang else (self.status, self.why_in_full())
        return {"status": status, "why": why, "second": self.clock.now(), "speed": self.clock.speed,
                "open_batch": self.open_batch(), "solving_seconds": solving, "restarts": self.restarts,
                "batches": len(self.state.batches), "rides": len(self.state.rides)}

    def why_in_full(self) -> str:
        """Why no command is taken, and how far a start is."""
        far = self.past.progress() if self.past is not None else ""
        return f"{self.why}; {far}" if far else self.why

    def clock_event(self) -> str:
        """An event that only tells the second."""
        return event_text("clock", self.health())

    def snapshot(self) -> Dict[str, Any]:
        """All that a page shows: rides that aren't over and the last that are, vehicles, the last batches."""
        state = self.state
        ahead = [it for it in state.rides.values() if it.state not in ENDED]
        over = [it for it in list(state.rides.values())[-200:] if it.state in ENDED]
        batches = [state.batches[it] for it in sorted(state.batches)[-20:]]
        return {**self.health(), "delivered": self.tally["delivered"], "troubles": self.trouble_view(),
                "rides": [self.ride_view(it) for it in over + ahead],
                "vehicles": [self.vehicle_view(it) for it in self.numbers_of_fleet], "last_batches": batches}


def event_text(kind: str, value: object) -> str:
    """An event of the stream."""
    return f"event: {kind}\ndata: {json.dumps(value, separators=(',', ':'))}\n\n"
