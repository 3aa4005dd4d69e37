"""Judges a printed report: whether it is one of the reports that a run of these inputs may print.

What the rules determine has to stand there letter by letter. Where they leave a choice (which lane comes next, which
order or plan of several, which tree), what was chosen has to be allowed, and everything after it has to follow.
"""

from book import Book
from day import Day, Reported
from rules import NEVER, Stop, best_order, rounded_up


class Wrong(Exception):
    """A report that no run prints, with the line and why."""


class Lines:
    def __init__(self, text):
        self.lines = text.split("\n")
        if self.lines.pop():
            raise Wrong("the last line has no end")
        self.at = 0

    def wrong(self, why):
        line = self.lines[self.at] if self.at < len(self.lines) else "the end"
        return Wrong(f"line {self.at + 1}, {line!r}: {why}")

    def look(self):
        """The words of the next line."""
        return self.lines[self.at].split(" ") if self.at < len(self.lines) else [""]

    def take(self, expected, what="it"):
        if self.at >= len(self.lines) or self.lines[self.at] != expected:
            raise self.wrong(f"{what} should be {expected!r}")
        self.at += 1

    def take_all(self, expected, word):
        """Takes exactly these lines, and no further one that begins with the word."""
        for line in expected:
            self.take(line, word)
        if self.look()[0] == word:
            raise self.wrong(f"there is no such {word}")

    def need(self, holds, why):
        if not holds:
            raise self.wrong(why)


class Ended(Exception):
    """What stands of a report ends here."""


class Beginning(Lines):
    """The lines of a text that may end anywhere, even within a line."""

    def __init__(self, text):
        self.lines = text.split("\n")
        self.begun = self.lines.pop()
        self.at = 0

    def look(self):
        if self.at == len(self.lines):
            raise Ended
        return super().look()

    def take(self, expected, what="it"):
        if self.at < len(self.lines):
            return super().take(expected, what)
        if not expected.startswith(self.begun):
            raise Wrong(f"the last line, {self.begun!r}, should begin {expected!r}")
        raise Ended

    def take_all(self, expected, word):
        for line in expected:
            self.take(line, word)
        if self.at < len(self.lines) and self.look()[0] == word:
            raise self.wrong(f"there is no such {word}")


def judge_beginning(run, text):
    """Raises Wrong where no report of the run begins with the text. Of an entry or a trip that is only begun nothing is
    said. Whether the whole report stands."""
    lines = Beginning(text)
    try:
        judge_lines(run, lines)
    except Ended:
        return False
    except (IndexError, KeyError, ValueError) as error:
        raise lines.wrong(f"it can't be read ({error!r})")
    if lines.begun:
        raise Wrong(f"{lines.begun!r} comes after the end")
    return True


def judge(run, text):
    """Raises Wrong where the report can't be that of the run, and gives the book that it leaves."""
    lines = Lines(text)
    try:
        return judge_lines(run, lines)
    except (IndexError, KeyError, ValueError) as error:
        raise lines.wrong(f"it can't be read ({error!r})")


def judge_lines(run, lines, closing=None):
    """With `closing` a batch's block is read by that, and by no rule."""
    closing, settings = closing or judge_close, run.settings
    nodes = {node for arc in run.arcs for node in arc[:2]}
    book = Book(nodes, run.fleet, settings.wait)
    named = "wait delay trip penalty budget pairs proof".split() + ["dwell"] * (settings.dwell != 0)
    lines.take("ridepool report 1")
    lines.take("settings " + " ".join(f"{key}={getattr(settings, key)}" for key in named))
    lines.take(f"network nodes={len(nodes)} arcs={len(run.arcs)}")
    lines.take(f"fleet vehicles={len(run.fleet)}")
    position, day = 0, Day(run, book) if run.is_day else None
    for number, lanes in run.rounds:
        lines.take(f"round {number}")
        position = judge_round(lines, book, day.driven(lanes) if day else lanes, position, run, day, closing)
    if day and run.rounds:
        lines.take(f"round {run.rounds[-1][0] + 1}")
        position = judge_round(lines, book, [day.last_lane()], position, run, day, closing)
    if day:
        lines.take(day.line())
    lines.take(f"done {position}")
    lines.need(lines.at == len(lines.lines), "nothing comes after the end")
    return book


def judge_round(lines, book, lanes, position, run, day, closing):
    """Each line is the next command of its lane; behind a seal that was answered with a batch, the close of that."""
    left = [list(lane) for lane in lanes]
    while any(left):
        words = lines.look()
        lines.need(len(words) > 1 and words[1].isdigit() and int(words[1]) < len(left), "no lane's entry")
        lane = int(words[1])
        lines.need(left[lane], f"lane {lane} has no command left")
        command = left[lane].pop(0)
        if isinstance(command, Reported):
            command = command.printed(lines)
        head = f"{position} {lane} {text_of(command)}"
        if command[0] == "close":
            lines.take(f"{head} closed")
            closing(lines, book, run, day)
        else:
            reply = book.step(command)
            lines.take(f"{head} {reply}")
            if reply.startswith("sealed"):
                left[lane].insert(0, ("close", book.sealed.batch))
            if day:
                day.note(lines, command, reply)
        position += 1
    return position


def judge_close(lines, book, run, day):
    batch = run.batch(book.sealed)
    if day:
        day.sealed(lines, batch)
    trips, moves = judge_block(lines, batch)
    book.close(batch.snapshot.batch, trips)
    if day:
        day.closed(trips, moves)


def text_of(command):
    word, *numbers = command
    if word == "submit" and numbers[-1] == 1:
        numbers.pop()
    return " ".join([word, *map(str, numbers)])


def judge_block(lines, batch):
    """The lines of a closed batch. Gives its trips, or None after an overflow, and its moves."""
    snapshot = batch.snapshot
    lines.take(f"batch {snapshot.batch}")
    lines.take_all([f"expired {it}" for it in snapshot.expired], "expired")
    if len(batch.rows) > batch.settings.pairs:
        lines.take("overflow")
        lines.take("end")
        return None, []
    lines.take_all([f"lapsed {it}" for it in batch.lapsed], "lapsed")
    for vehicle in snapshot.vehicles:
        if vehicle.id in batch.late:
            judge_late(lines, batch, vehicle)
    lines.take_all([f"rv {vehicle} {rider}" for vehicle, rider in batch.rider_vehicle()], "rv")
    lines.take_all([f"rr {a} {b}" for a, b in batch.rider_rider()], "rr")
    lines.take_all([" ".join(map(str, ["row", vehicle, cost, *names])) for vehicle, names, cost in batch.rows], "row")
    trips, plan = [], []
    for vehicle in snapshot.vehicles:
        if vehicle.id not in batch.late:
            stops, number = judge_trip(lines, batch, vehicle)
            trips.append((vehicle.id, stops))
            plan.append(number)
    moves = judge_plan(lines, batch, plan)
    lines.take("end")
    return trips, moves


def stops_in(lines, words):
    """The stops of a line's words."""
    stops = []
    for word in words:
        kind, _, rest = word.partition(":")
        rider, _, rest = rest.partition("@")
        node, _, second = rest.partition(":")
        lines.need(kind in ("pick", "drop") and (rider + node + second).isdigit(), f"{word!r} is no stop")
        stops.append(Stop(kind == "pick", int(rider), int(node), int(second)))
    return stops


def judge_order(lines, task, stops, drive, limits=True):
    """Whether the stops are an order of the task, at their places and seconds, within all limits. Gives its delay."""
    waiting, aboard = list(task.riders), list(task.aboard)
    place, leaves, delay = task.place, task.ready, 0
    for stop in stops:
        legs = waiting if stop.pick else aboard
        leg = next((it for it in legs if it.rider == stop.rider), None)
        lines.need(leg, f"{stop} isn't due in this order")
        legs.remove(leg)
        node = leg.origin if stop.pick else leg.destination
        lines.need(stop.node == node, f"{stop} should be at {node}")
        second = leaves + drive(place, node)
        lines.need(stop.second == second, f"{stop} should be at second {second}")
        if stop.pick:
            aboard.append(leg)
            lines.need(second <= leg.pickup_by, f"{stop} is too late")
            lines.need(sum(it.party for it in aboard) <= task.seats, f"{stop} finds no seat")
        else:
            lines.need(second <= leg.dropoff_by or not limits, f"{stop} is too late")
            delay += max(0, second - leg.ideal)
        place, leaves = node, second + task.dwell
    lines.need(not waiting and not aboard, "the order leaves someone out")
    return delay


def judge_late(lines, batch, vehicle):
    task = batch.task(vehicle, ())
    best = best_order(task, batch.drive, limits=False)
    words = lines.look()
    if best is None:
        return lines.take(f"late {vehicle.id} none")
    lines.need(words[:2] == ["late", str(vehicle.id)], f"vehicle {vehicle.id} is late")
    lines.need(words[2] == str(best[0]), f"its least delay is {best[0]}")
    delay = judge_order(lines, task, stops_in(lines, words[3:]), batch.drive, limits=False)
    lines.need(delay == best[0], f"the order's delay is {delay}")
    lines.at += 1


def judge_trip(lines, batch, vehicle):
    """A vehicle's trip: one of its rows, with an order of that delay. Gives the stops and the row's number."""
    words = lines.look()
    lines.need(words[:2] == ["trip", str(vehicle.id)], f"this should be the trip of vehicle {vehicle.id}")
    stops = stops_in(lines, words[3:])
    names = tuple(sorted(it.rider for it in stops if it.pick))
    number = batch.number_of.get((vehicle.id, names))
    lines.need(number is not None, "the trip is no row")
    cost = batch.rows[number][2]
    lines.need(words[2] == str(cost), f"the row's delay is {cost}")
    delay = judge_order(lines, batch.task(vehicle, [batch.legs[it] for it in names]), stops, batch.drive)
    lines.need(delay == cost, f"the order's delay is {delay}")
    lines.at += 1
    return stops, number


def judge_plan(lines, batch, plan):
    """The plan as a whole, who is left out, the moves, which it gives, the cost, the bound and the tree that shows it."""
    plans = batch.plans()
    lines.need(plans.is_lawful(plan), "the plan isn't lawful: a rider is in two trips, or a live rider in none")
    served = {name for number in plan for name in batch.rows[number][1]}
    left = [name for name in batch.legs if name not in served]
    lines.take_all([f"out {it}" for it in left], "out")
    idle = [it for it, number in zip(plans.of, plan) if not batch.rows[number][1] and not batch.aboard[it]]
    moves = judge_moves(lines, batch, idle, left)
    cost = plans.cost(plan)
    lines.take(f"cost {cost}", "the cost")
    lines.need(cost <= plans.cost(plans.held), "the plan costs more than the one that only keeps promises")
    greedy = plans.greedy()
    lines.need(not plans.is_lawful(greedy) or cost <= plans.cost(greedy), "the plan costs more than the greedy one")
    better = plans.better_row(plan)
    lines.need(better is None, f"the plan is better with row {better}")
    judge_bound(lines, batch.settings, plans, cost)
    return moves


def judge_moves(lines, batch, idle, left):
    """Idle vehicles go to riders who were left out: as many as can, and then in the least seconds."""
    at = {it.id: it.node for it in batch.snapshot.vehicles}
    pairs = [(it, name, batch.drive(at[it], batch.legs[name].origin)) for it in idle for name in left]
    pairs = [it for it in pairs if it[2] < NEVER]
    moves = []
    while lines.look()[0] == "move":
        move = tuple(map(int, lines.look()[1:]))
        lines.need(move in pairs, "the move is none of an idle vehicle to a rider who is left out, with its seconds")
        lines.need(not moves or move[0] > moves[-1][0], "moves stand by vehicle, one for each")
        lines.need(move[1] not in (it[1] for it in moves), "two vehicles move to one rider")
        moves.append(move)
        lines.at += 1
    most, least = batch.best_matching(pairs)
    lines.need(len(moves) == most, f"{most} moves can be made")
    lines.need(sum(it[2] for it in moves) == least, f"moves of {least} seconds in all can be made")
    return moves


def judge_bound(lines, settings, plans, cost):
    words = lines.look()
    lines.need(words[0] == "bound" and words[-1].lstrip("-").isdigit(), "here the bound should stand")
    bound = int(words[1])
    everything = {vehicle: list(numbers) for vehicle, numbers in plans.of.items()}
    least = plans.least_cost()
    lines.need(least is not None or settings.proof, "here the tree has to show the bound, and none is printed")
    lines.need(least is None or bound <= least, f"a lawful plan costs {least}, less than the bound")
    root = rounded_up(plans.leaf_value(everything, plans.first_fit(everything)))
    lines.need(bound >= root, f"the first-fit multipliers show {root}")
    lines.take(f"bound {bound}")
    words = lines.look()
    lines.need(words[0] == "nodes" and words[-1].isdigit(), "here the number of nodes should stand")
    nodes = int(words[1])
    lines.take(f"nodes {nodes}")
    lines.need(nodes <= settings.budget, "there are more nodes than the budget")
    lines.need(nodes % 2 == 1, "a tree whose branches have two subtrees has an odd number of nodes")
    choices = 1
    for numbers in everything.values():
        choices *= len(numbers)
    spent = nodes + 2 > settings.budget and settings.budget < 2 * choices
    lines.need(bound == cost or spent, "the bound is below the cost, and the budget isn't spent")
    if settings.proof:
        judge_tree(lines, plans, nodes, bound, everything)


def judge_tree(lines, plans, nodes, bound, everything):
    """The tree, node by node: whether it is sound, and shows this bound."""
    ceilings = [plans.cost(plan) for plan in (plans.held, plans.greedy()) if plans.is_lawful(plan)]
    waiting, values = [everything], []
    for _ in range(nodes):
        lines.need(waiting, "the tree has ended")
        usable = waiting.pop()
        word, *numbers = lines.look()
        lines.need(all(it.lstrip("-").isdigit() for it in numbers), "a node's words are numbers")
        numbers = list(map(int, numbers))
        if word == "branch":
            judge_branch(lines, plans, numbers, usable, bound, ceilings)
            vehicle, row = numbers
            waiting.append({**usable, vehicle: [it for it in usable[vehicle] if it != row]})
            waiting.append({**usable, vehicle: [row]})
        elif word == "leaf":
            lines.need(len(numbers) == len(plans.riders), "a leaf has a multiplier for each rider")
            value = plans.leaf_value(usable, numbers)
            least = plans.leaf_value(usable, plans.first_fit(usable))
            lines.need(value >= least, f"the leaf shows {value}, and the first-fit multipliers {least}")
            values.append(rounded_up(value))
        else:
            lines.need(word == "dead" and is_dead(plans, usable), "no node of the tree, or some plan may live here")
        lines.at += 1
    lines.need(not waiting, "the tree has further nodes")
    lines.need(values and min(values) == bound, f"the tree shows the bound {min(values, default='none')}")


def judge_branch(lines, plans, numbers, usable, bound, ceilings):
    lines.need(len(numbers) == 2, "a branch has a vehicle and a row")
    vehicle, row = numbers
    lines.need(row in usable.get(vehicle, ()) and len(usable[vehicle]) > 1, "the row isn't usable here, or the only one")
    shown = rounded_up(plans.leaf_value(usable, plans.first_fit(usable)))
    lines.need(shown <= bound and all(shown < it for it in ceilings), f"no branch is due where first fit shows {shown}")


def is_dead(plans, usable):
    """Whether no lawful plan is left: a rider is in the only row of two vehicles, or a live rider in no row."""
    sole = [name for numbers in usable.values() if len(numbers) == 1 for name in plans.rows[numbers[0]][1]]
    seen = {name for numbers in usable.values() for n in numbers for name in plans.rows[n][1]}
    return len(sole) > len({*sole}) or not plans.live <= seen
