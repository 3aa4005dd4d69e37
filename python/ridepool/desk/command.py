"""A dispatcher's desk: a page with a map and calls over HTTP, around a running `ridepool live`."""

from __future__ import annotations

import asyncio
import os
import pathlib
import signal
import socket
import sys
import tempfile
import time
from typing import TYPE_CHECKING, Any, Awaitable, Callable, Coroutine, Dict, Iterable, List, Mapping, Optional, Sequence, Set, Tuple

from ridepool import program
from ridepool.desk import log
from ridepool.inputs.tables import MOST_NUMBER, read_network, read_nodes, read_table, whole, FLEET
from ridepool.words import DESK_INSTALL, Fault, fail, need, number, run_tool, split_words

if TYPE_CHECKING:  # what these need may be missing until the desk is opened
    import uvicorn
    from starlette.types import ASGIApp

    from ridepool.desk.book import Book
    from ridepool.desk.calls.shared import Desk
    from ridepool.desk.dispatcher import Clock, Dispatcher
    from ridepool.desk.folder import Folder
    from ridepool.desk.tokens import Tokens
    from ridepool.desk.ways import Ways
    from ridepool.inputs.roads import Places
    from ridepool.sessions.state import Vehicle

USAGE = """use: %(prog)s demo [words]
     %(prog)s network=network.csv nodes=nodes.csv fleet=fleet.csv [day=FOLDER] [words]
     %(prog)s day=FOLDER [words]                     goes on with a day
     %(prog)s token role=ROLE [vehicle=N] [ride=N]   makes a token: dispatcher, driver, rider or reader
     %(prog)s token [withdraw=ID]                    lists the tokens, or withdraws one; all three take tokens=FILE
words: port=8000 host=127.0.0.1 name=HOSTNAME[,..] tokens=FILE token=FILE tiles=https://PLACE/{z}/{x}/{y}.png
       hook=https://PLACE/PATH secret=FILE
       every=30 silent=10 speed=1 far=500 drivers=1 riders=1 seed=1 program=FILE
       and the settings of live: wait delay trip penalty budget pairs workers proof dwell times"""
SHORT = "%(prog)s --help lists the words"
SETTINGS = ("wait", "delay", "trip", "penalty", "budget", "pairs", "workers", "proof", "dwell", "times")
INPUTS = ("network", "nodes", "fleet")
WORDS = SETTINGS + INPUTS + ("day", "port", "host", "name", "token", "tokens", "hook", "secret", "tiles", "every", "silent",
                             "speed", "far", "drivers", "riders", "seed", "program")
TOKEN_WORDS = ("tokens", "role", "vehicle", "ride", "withdraw")
FREE = ("workers", "times", "every")  # what may change from opening to opening: all else stands in the transcript
FIXED = (*(it for it in SETTINGS if it not in FREE), "speed")
STATUS_ENDED = 3
FAREWELL = 1.0  # real seconds in which callers still hear why the desk ends
MOST_LEAD = 900  # seconds that a position or a stop may lie ahead
ACCESS = "access.log"  # in the day's folder
Street = Tuple[int, int, int]
Clients = List[Coroutine[Any, Any, None]]  # what goes on by itself
Begin = Callable[[], Awaitable[Clients]]
LOOPBACK = ("127.0.0.1", "localhost", "::1")
DEMO = {"every": "30", "speed": "10", "drivers": "1", "riders": "1", "wait": "420", "delay": "600"}


def with_demo(plain: Sequence[str], values: Dict[str, str]) -> Dict[str, str]:
    """The words of the demo, where it is asked for."""
    if not plain:
        return values
    if plain != ["demo"] or any(it in values for it in INPUTS):
        raise Fault(SHORT)
    files = {name: str(program.town() / f"{name}.csv") for name in INPUTS}
    day = values.get("day") or tempfile.mkdtemp(prefix="ridepool-demo-")
    return {**DEMO, **values, **files, "day": day}


def description_of(values: Mapping[str, str]) -> Dict[str, Any]:
    """What makes a day what it is, as its folder keeps it. Its report has trees where nothing else is said: without them the
    day can't go on."""
    values = {"proof": "1", **values}
    return {
        "settings": [f"{key}={values[key]}" for key in SETTINGS if key in values],
        "speed": number(values, "speed", 1, 100, 1),
        "every": number(values, "every", 0, 100_000, 30),
        "began": time.time(),
    }


def day_of(values: Mapping[str, str]) -> Folder:
    """The folder of the day, begun where it isn't there."""
    from ridepool.desk.folder import Folder

    given = [it for it in INPUTS if it in values]
    if "day" not in values and len(given) < len(INPUTS):
        raise Fault(SHORT)
    folder = Folder(values.get("day") or time.strftime("day-%Y-%m-%d-%H%M%S"))
    if folder.description is None:
        if len(given) < len(INPUTS):
            raise Fault(f"{folder.path}: no day began there; give network=, nodes= and fleet=")
        folder.begin(values, description_of(values))
        log.say(f"a day begins; {', '.join(FREE)} may be others when it is opened again. All other settings are those of "
                "the whole day, since its report has one line of settings")
        if described(folder).get("proof") == "0":
            log.say("with proof=0 the report has no trees, so this day can't go on once the desk or its program has ended", log.WARNING)
        return folder
    hold_inputs(folder, given, values)
    if changed := folder.changed_inputs():
        raise Fault(f"{folder.input(changed[0])}: the file isn't that with which the day began")
    hold_settings(folder, values)
    return folder


def hold_settings(folder: Folder, values: Mapping[str, str]) -> None:
    """A day goes on with its own settings but for those that its transcript doesn't have: they are taken as given."""
    before = folder.about
    if "proof=1" not in before["settings"]:
        raise Fault(f"{folder.path}: the day there can't go on: its report has no trees, since it began without proof=1")
    now = {**before, **description_of({**described(folder), **values}), "began": before["began"]}
    if fixed(now) != fixed(before):
        raise Fault(f"{folder.path}: the day there has other settings: {' '.join(words_of(before))}. They stand in its "
                    f"transcript, with which the day goes on. {', '.join(FREE[:-1])} and {FREE[-1]} can be changed, no others")
    if now != before:
        folder.describe(now)


def fixed(description: Mapping[str, Any]) -> List[str]:
    """The words of a description that can't change."""
    return sorted(word for word in words_of(description) if word.split("=")[0] in FIXED)


def words_of(description: Mapping[str, Any]) -> List[str]:
    """The words that a description was made of."""
    return [*description["settings"], f"every={description['every']}", f"speed={description['speed']}"]


def described(folder: Folder) -> Dict[str, str]:
    """The same by key."""
    return dict(word.split("=", 1) for word in words_of(folder.about))


def hold_inputs(folder: Folder, given: Iterable[str], values: Mapping[str, str]) -> None:
    """A day goes on with its own inputs: those that are given again must be the same."""
    for name in given:
        if pathlib.Path(values[name]).read_bytes() != folder.input(name).read_bytes():
            raise Fault(f"{values[name]}: the day in {folder.path} has another {name}")


def fleet_of(path: pathlib.Path) -> List[Vehicle]:
    """The vehicles of a fleet, each where it begins."""
    from ridepool.sessions.state import Vehicle

    rows = ([whole(path, count, text) for text in row] for count, row in read_table(path, FLEET))
    return [Vehicle(vehicle, seats, node, second) for vehicle, seats, node, second in rows]


def map_of(folder: Folder, far: int) -> Tuple[Places, List[Street]]:
    """The places of the nodes, and the streets."""
    from ridepool.inputs.roads import Places

    places = Places(read_nodes(folder.input("nodes")), far)
    streets = read_network(folder.input("network"))
    missing = {node for start, end, _ in streets for node in (start, end)} - set(places.at)
    if missing:
        raise Fault(f"nodes: node {min(missing)} of the network isn't there")
    used = {node for start, end, _ in streets for node in (start, end)}
    places.keep(used)
    return places, streets


def clock_of(folder: Folder, book: Book) -> Clock:
    """The day's clock, which never goes back behind the transcript. One that runs at another speed than the world's
    goes on where the transcript ends."""
    from ridepool.desk.dispatcher import Clock

    began, speed = folder.about["began"], folder.about["speed"]
    report = book.state.lines.report
    assert report is not None
    wait = report.settings["wait"]
    if speed != 1 and book.state.lines.count:
        return Clock(time.time() - book.seconds.last(0, MOST_LEAD + wait) / speed, speed)
    least = book.seconds.last(time.time() - began, MOST_LEAD + wait)
    clock = Clock(began, speed, least)
    if clock.behind >= 1:
        log.say(f"this machine's clock is {clock.behind:.0f} s behind the day's last second; the day goes on from second "
                f"{least}", log.WARNING)
    return clock


def tokens_of(values: Mapping[str, str]) -> Optional[Tokens]:
    """The tokens that calls need; required where others than this machine can call."""
    from ridepool.desk.tokens import LEAST_LETTERS, Tokens

    if "token" not in values and "tokens" not in values:
        if is_open(values):
            raise Fault("host= needs tokens=FILE or token=FILE: whoever reaches the desk could send commands")
        return None
    if "token" not in values:
        return Tokens(None, pathlib.Path(values["tokens"]))
    token = pathlib.Path(values["token"]).read_text(encoding="utf-8").strip()
    if len(token) < LEAST_LETTERS or not token.isascii() or len(token.split()) != 1:
        raise Fault(f"{values['token']}: a token is one word of at least {LEAST_LETTERS} letters and digits")
    return Tokens(token, pathlib.Path(values["tokens"]) if "tokens" in values else None)


def is_open(values: Mapping[str, str]) -> bool:
    """Whether others than this machine can call."""
    return values.get("host", LOOPBACK[0]) not in LOOPBACK


def names_of(values: Mapping[str, str]) -> List[str]:
    """Further names under which the desk may be called."""
    names = [it for it in values.get("name", "").split(",") if it]
    if any("*" in it for it in names):
        raise Fault(f"name={values['name']}: each name has to stand there in full")
    return names


def hosts_of(host: str, port: int, names: Iterable[str]) -> Set[str]:
    """The names under which the desk may be called, with the port."""
    hosts = {*LOOPBACK, host, *names}
    if host in ("0.0.0.0", "::"):
        hosts |= {socket.gethostname(), socket.getfqdn()}
    named = {f"[{it}]" if ":" in it else it for it in hosts}
    return {f"{it}:{port}" for it in named} | (named if port in (80, 443) else set()) | set(names)


def trusted(hosts: Iterable[str]) -> List[str]:
    """The same without their ports, as Starlette cuts a call's host at its first colon. Of an address of IPv6 a bracket is
    left; a browser takes such an address from no server of names, so nobody can make it lead here."""
    return sorted({it.split(":")[0].lower() for it in hosts})


def bound(host: str, port: int) -> socket.socket:
    """A socket of the desk's address."""
    family = socket.AF_INET6 if ":" in host else socket.AF_INET
    # asyncio sends small answers at once where the socket says that it is TCP's.
    listener = socket.socket(family, socket.SOCK_STREAM, socket.IPPROTO_TCP)
    listener.setsockopt(socket.SOL_SOCKET, socket.SO_REUSEADDR, 1)
    try:
        listener.bind((host, port))
    except OSError as fault:
        raise Fault(f"{host} port {port}: {fault.strerror}") from None
    return listener


def tiles_of(values: Mapping[str, str]) -> Tuple[Optional[str], Optional[str]]:
    """The address of map tiles and the place that the page may load them from."""
    tiles = values.get("tiles")
    if tiles is None:
        return None, None
    scheme, _, rest = tiles.partition("://")
    place = rest.split("/")[0]
    if scheme not in ("http", "https") or not place or any(it in place for it in " ;,{}'\"") or "{z}" not in rest:
        raise Fault(f"tiles={tiles} is not an address such as https://tiles.example.org/{{z}}/{{x}}/{{y}}.png")
    return tiles, f"{scheme}://{place}"


def hold_transcript(folder: Folder) -> None:
    """A transcript that was lost is never taken for that of a new day."""
    if folder.has_lost_transcript():
        raise Fault(f"{folder.transcript_path}: the transcript is missing or empty, and rows.csv has {folder.count_rows()} rows of "
                    "this day. Put the transcript back: without it the day can't go on")


def dispatcher_of(values: Mapping[str, str], folder: Folder) -> Dispatcher:
    """The dispatcher, which hasn't begun yet."""
    from ridepool.desk.dispatcher import Clock, Dispatcher
    from ridepool.desk.trouble import Watch

    about = folder.about
    words = [f"network={folder.input('network')}", f"fleet={folder.input('fleet')}", *about["settings"]]
    watch = Watch(about["every"], 60 * number(values, "silent", 0, 1440, 10))
    return Dispatcher(values.get("program") or program.path(), words, folder, lambda: fleet_of(folder.input("fleet")),
                      Clock(about["began"], about["speed"]), watch)


async def open_day(dispatcher: Dispatcher, folder: Folder) -> None:
    """Starts the program with the day so far. A transcript that it refuses stays as it is."""
    from ridepool.desk.dispatcher import Unavailable

    size = folder.transcript_bytes()
    if size is not None:
        log.say(f"ridepool resume goes on with the {size} bytes of {folder.transcript_path}")
    try:
        await dispatcher.begin()
    except Unavailable as fault:
        raise Fault(f"the day in {folder.path} was left as it is: {fault}") from None
    assert dispatcher.past is not None
    dispatcher.clock = clock_of(folder, dispatcher.past.book)
    dispatcher.go_on()


async def serve(values: Mapping[str, str]) -> int:
    """Opens the desk, until it is told to end. Gives the status with which it ends."""
    host, port = values.get("host", LOOPBACK[0]), number(values, "port", 0, 65_535, 8000)
    from ridepool.desk.calls.shared import Desk
    from ridepool.desk.hook import hook_of
    from ridepool.desk.ways import Ways
    from ridepool.inputs.roads import Roads

    tokens, (tiles, tiles_place) = tokens_of(values), tiles_of(values)
    hook = hook_of(values.get("hook"), values.get("secret"))
    listener = bound(host, port)
    folder = day_of(values)
    try:
        hold_transcript(folder)
        places, streets = map_of(folder, number(values, "far", 1, 100_000, 500))
        dispatcher = dispatcher_of(values, folder)
        dispatcher.hook = hook
        desk = Desk(dispatcher, places, streets, Ways(Roads(streets)), {"needs_token": tokens is not None, "tiles": tiles})
        app = app_of(values, desk, tokens, tiles_place, listener)
        return await run_desk(dispatcher, app, listener, lambda: begun(values, folder, dispatcher, desk))
    except (Fault, OSError):
        folder.forget_unbegun()
        raise


async def begun(values: Mapping[str, str], folder: Folder, dispatcher: Dispatcher, desk: Desk) -> Clients:
    """Opens the day. Gives what goes on by itself from then on."""
    await open_day(dispatcher, folder)
    desk.page.update(page_of(values, dispatcher))
    return clients_of(values, folder, dispatcher, desk.places, desk.ways)


def app_of(values: Mapping[str, str], desk: Desk, tokens: Optional[Tokens], tiles_place: Optional[str],
           listener: socket.socket) -> ASGIApp:
    """The calls, with what stands before them."""
    from starlette.middleware.trustedhost import TrustedHostMiddleware

    from ridepool.desk.access import AccessLog
    from ridepool.desk.guard import Guard, Who
    from ridepool.desk.web import Opening, make_app

    # Where it has other names, a server may stand before it that others can call.
    reading = is_open(values) or "name" in values or "tokens" in values
    host, port = values.get("host", LOOPBACK[0]), listener.getsockname()[1]
    hosts = hosts_of(host, port, names_of(values))
    who = Who(tokens, reading, AccessLog(desk.dispatcher.folder.path / ACCESS))
    guard = Guard(Opening(make_app(desk), desk.dispatcher), hosts, who, tiles_place)
    return TrustedHostMiddleware(guard, trusted(hosts), www_redirect=False)


def page_of(values: Mapping[str, str], dispatcher: Dispatcher) -> Dict[str, Any]:
    """What the page has to know of the day."""
    from ridepool.desk.trouble import setting

    return {"drivers": number(values, "drivers", 0, 1, 0) == 1, "wait": setting(dispatcher.state, "wait"),
            "began": time.time() - dispatcher.clock.exact(), "speed": dispatcher.clock.speed, "zone": zone()}


def zone() -> str:
    """The name of this machine's time zone."""
    if os.environ.get("TZ"):
        return os.environ["TZ"].lstrip(":")
    return os.path.realpath("/etc/localtime").partition("/zoneinfo/")[2] or "UTC"


def clients_of(values: Mapping[str, str], folder: Folder, dispatcher: Dispatcher, places: Places,
               ways: Ways) -> Clients:
    """What goes on by itself: seals, and the demo's drivers and riders."""
    from ridepool.desk import demo

    clients = [dispatcher.keep_watch()]
    if dispatcher.hook is not None:
        clients.append(dispatcher.hook.run())
    if folder.about["every"]:
        clients.append(dispatcher.keep_sealing(folder.about["every"]))
    if number(values, "drivers", 0, 1, 0):
        dwell = int(described(folder).get("dwell", 0))
        riders, seed = number(values, "riders", 0, 1, 0), number(values, "seed", 0, MOST_NUMBER, 1)
        clients.append(demo.run(dispatcher, ways, places.at, dwell, seed, riders == 1))
    return clients


async def run_desk(dispatcher: Dispatcher, app: ASGIApp, listener: socket.socket, begin: Begin) -> int:
    """Serves the page and the calls, and begins the day meanwhile. Gives the status with which the desk ends."""
    import uvicorn

    from uvicorn.protocols.http.auto import AutoHTTPProtocol

    from ridepool.desk.connections import Connections, allow_files, limited

    allow_files()
    config = uvicorn.Config(app, log_level="error", access_log=False, lifespan="off", timeout_keep_alive=30, ws="none",
                            http=limited(AutoHTTPProtocol, Connections()))
    server = uvicorn.Server(config)
    going = asyncio.ensure_future(go_on_by_itself(dispatcher, server, listener, begin))
    dispatcher.watched(going)
    try:
        await ended(server, listener, dispatcher)
    finally:
        going.cancel()
        await asyncio.gather(going, return_exceptions=True)
        await dispatcher.end()
    return status_of(dispatcher)


async def go_on_by_itself(dispatcher: Dispatcher, server: uvicorn.Server, listener: socket.socket, begin: Begin) -> None:
    """Begins the day once the port answers, and then does what goes on by itself, until it is cancelled."""
    while not server.started:
        await asyncio.sleep(0.01)
    host, port = listener.getsockname()[:2]
    log.say(f"http://{host}:{port} answers; the dispatcher is starting")
    tasks = [dispatcher.spawn(it) for it in await begin()]
    log.say(f"http://{host}:{port} keeps its day in {dispatcher.folder.path}")
    try:
        await asyncio.Event().wait()
    finally:
        for task in tasks:
            task.cancel()
        await asyncio.gather(*tasks, return_exceptions=True)


def status_of(dispatcher: Dispatcher) -> int:
    """0 where the desk was told to end; else what ended it is said."""
    from ridepool.desk.dispatcher import Ended

    fault = dispatcher.failed.result() if dispatcher.failed.done() else None
    if isinstance(fault, Ended):
        log.say(f"the desk ends: {fault}", log.ERROR)
        return STATUS_ENDED
    if fault is not None:
        raise fault
    return 0


async def ended(server: uvicorn.Server, listener: socket.socket, dispatcher: Dispatcher) -> None:
    """Serves until a signal comes or something ends the desk. Listeners are let go first, since they would never end."""
    serving = asyncio.ensure_future(server.serve(sockets=[listener]))
    while not server.started and not serving.done():
        await asyncio.sleep(0.01)

    def stop() -> None:
        if server.should_exit and dispatcher.live is not None:  # a second signal doesn't wait for a batch that is being solved
            dispatcher.spawn(dispatcher.live.kill())
        dispatcher.release_listeners()
        server.force_exit = server.should_exit
        server.should_exit = True

    def fail(_: object) -> None:
        dispatcher.fail_waiting()
        asyncio.get_running_loop().call_later(FAREWELL, stop)

    dispatcher.failed.add_done_callback(fail)
    for which in (signal.SIGINT, signal.SIGTERM):
        asyncio.get_running_loop().add_signal_handler(which, stop)
    await serving


def open_desk(arguments: List[str]) -> None:
    """The tool."""
    if arguments[:1] == ["token"]:
        from ridepool.desk.tokens import token_tool

        plain, values = split_words(arguments[1:], TOKEN_WORDS, SHORT)
        return token_tool(values) if not plain else fail(SHORT)
    plain, values = split_words(arguments, WORDS, SHORT)
    values = with_demo(plain, values)
    need("fastapi", "uvicorn", install=DESK_INSTALL)
    if not os.path.exists("/usr/share/javascript/leaflet/leaflet.js"):
        raise Fault(f"there is no Leaflet for the map: {DESK_INSTALL}")
    sys.exit(asyncio.run(serve(values)))


def main() -> None:
    """The command."""
    run_tool(open_desk, USAGE)
