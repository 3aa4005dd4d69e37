"""Frames beside the judge's own reading of the same reports."""

import io
import random

import numpy
import pandas
import pytest
import ridepool as rp
from draws import Draw, DrivenDay
from inputs import Run
from judge import judge_block, judge_lines, Lines as JudgesLines
from ridepool.report.lines import Lines
from rules import Batch

DRAWS = [(kind, seed) for kind in (Draw, DrivenDay) for seed in range(40)]


class Read:
    """What the judge reads of a report: the book that it leaves, the batches, and the stops that were made."""

    def __init__(self, run, text):
        self.batches, self.trips = [], []
        self.book = judge_lines(run, JudgesLines(text), self.closed)

    def closed(self, lines, book, run, day):
        batch = Batch(book.sealed, run.settings, run.drive)
        if day:
            day.sealed(lines, batch)
        trips, moves = judge_block(lines, batch)
        book.close(batch.snapshot.batch, trips)
        if day:
            day.closed(trips, moves)
        self.batches.append(batch)
        self.trips.append((trips, moves))


@pytest.fixture(scope="module", params=DRAWS, ids=lambda it: f"{it[0].__name__}-{it[1]}")
def read(request, tmp_path_factory):
    """A drawn report: the frames, and the judge's reading."""
    kind, seed = request.param
    draw, folder = kind(seed), tmp_path_factory.mktemp("drawn")
    for name, text in draw.files.items():
        (folder / name).write_text(text)
    run = Run(folder, draw.words)
    frames = {name: pandas.read_csv(io.StringIO(text)) for name, text in draw.files.items() if name != "script.csv"}
    net, fleet = rp.Network.from_frame(frames["network.csv"]), rp.Fleet.from_frame(frames["fleet.csv"])
    words = dict(word.split("=") for word in draw.words[1:])
    settings = rp.Settings(**{key: int(value) for key, value in words.items()
                              if key not in ("network", "fleet", "script", "times")})
    from ridepool.days.calls import called, town_files
    from ridepool.faults import Given

    files = {**town_files(net, fleet), "script": Given("script", draw.files["script.csv"])}
    text = called(draw.words[0], settings.words(), files, None)
    return rp.Day.from_bytes(text, net, fleet), Read(run, text.decode())


def whole(frame):
    """A frame's rows, None for what is missing."""
    return [tuple(None if pandas.isna(value) else value for value in row) for row in frame.itertuples(index=False)]


def test_riders(read):
    day, judged = read
    columns = ["rider", "persons", "origin", "destination", "request", "state"]
    expected = [(it.id, it.party, it.origin, it.destination, it.second, it.status) for it in judged.book.riders.values()]
    assert whole(day.riders[columns]) == expected
    holders = {it.id: it.vehicle for it in judged.book.riders.values() if it.status in ("promised", "aboard")}
    found = day.riders[day.riders["state"].isin(["promised", "aboard"])]
    assert dict(whole(found[["rider", "vehicle"]])) == holders


def test_edges_and_rows(read):
    day, judged = read
    for number, batch in enumerate(judged.batches, 1):
        if len(batch.rows) > batch.settings.pairs:
            assert day.batch(number).overflow and day.batch(number).rows.empty
            continue
        frames = day.batch(number)
        rows = [(row[0], row[1], row[2], *(it for it in row[3:] if it is not None)) for row in whole(frames.rows)]
        assert rows == [(vehicle, cost, len(names), *names) for vehicle, names, cost in batch.rows]
        assert whole(frames.rv) == list(batch.rider_vehicle()) and whole(frames.rr) == list(batch.rider_rider())
        assert frames.riders.tolist() == sorted(batch.legs)


def test_trips_and_moves(read):
    day, judged = read
    for number, (trips, moves) in enumerate(judged.trips, 1):
        if trips is None:
            continue
        frame = day.batch(number).trips
        late = {vehicle for vehicle in judged.batches[number - 1].late}
        found = [row[:-1] for row in whole(frame) if row[0] not in late]
        assert found == [(vehicle, order, "pick" if stop.pick else "drop", stop.rider, stop.node, stop.second)
                         for vehicle, stops in trips for order, stop in enumerate(stops, 1)]
        assert whole(day.batch(number).moves) == list(moves)


def test_stops_are_those_of_the_commands(read):
    day, judged = read
    persons = {it.id: it.party for it in judged.book.riders.values()}
    for vehicle, stops in day.stops.groupby("vehicle"):
        signs = stops["stop"].map({"pick": 1, "drop": -1})
        assert (stops["persons"] == stops["rider"].map(persons)).all()
        assert (stops["aboard"].astype(int) == (signs * stops["persons"].astype(int)).cumsum()).all()
        assert stops["second"].is_monotonic_increasing
    made = sum(it.status == "delivered" for it in judged.book.riders.values())
    assert (day.stops["stop"] == "drop").sum() == made


def test_waits_and_delays(read):
    day, judged = read
    for row in day.riders[day.riders["state"] == "delivered"].itertuples():
        direct = day.net.seconds(row.origin, row.destination)
        assert row.wait == row.pickup - row.request
        assert row.delay == max(0, row.dropoff - row.request - (direct or 0))


def test_why_out(read):
    day, judged = read
    reached = {rider for number in range(1, len(judged.batches) + 1) for rider in day.batch(number).rv["rider"]}
    for row in day.riders.itertuples():
        why = None if pandas.isna(row.why_out) else row.why_out
        if row.state in ("aboard", "delivered", "promised"):
            assert why is None
        elif row.state == "cancelled":
            assert why == "cancelled"
        elif why == "no vehicle in time":
            assert row.rider not in reached
        elif why == "worth more elsewhere":
            assert row.rider in reached or not pandas.isna(row.promised)
        elif why == "overflow":
            assert any(len(batch.rows) > batch.settings.pairs for batch in judged.batches)
        else:
            assert why in (None, "expired")


def test_trees(day):
    text = day.text.split("\nbatch ")
    for number in range(1, len(day.report.batches) + 1):
        lines = [line.split(" ") for line in text[number].split("\nend\n")[0].split("\n")]
        nodes = [line for line in lines if line[0] in ("branch", "leaf", "dead")]
        frames = day.batch(number)
        assert frames.tree["kind"].tolist() == [line[0] for line in nodes]
        assert whole(frames.tree[["vehicle", "row"]]) == [
            (int(line[1]), int(line[2])) if line[0] == "branch" else (None, None) for line in nodes]
        values = [int(it) / 1024 for line in nodes if line[0] == "leaf" for it in line[1:]]
        assert frames.multipliers["multiplier"].tolist() == values
        assert frames.nodes == len(nodes)
        assert sorted(frames.multipliers["rider"].unique()) == frames.riders.tolist()


def test_parents_of_a_tree():
    from ridepool.report.batch_frames import parents

    kinds = ["branch", "branch", "leaf", "dead", "branch", "leaf", "leaf"]
    assert parents(kinds).tolist() == [-1, 0, 1, 1, 0, 4, 4]


def test_batches_add_up(day):
    frame = day.batches
    assert frame["rows"].tolist() == [len(day.batch(number).rows) for number in frame["batch"]]
    assert frame["rv"].tolist() == [len(day.batch(number).rv) for number in frame["batch"]]
    assert frame["rr"].tolist() == [len(day.batch(number).rr) for number in frame["batch"]]
    assert (frame["gap"] == frame["cost"] - frame["bound"]).all()
    assert day.text.count("\nbatch ") == len(frame)


def test_replies_are_the_reports_lines(day):
    lines = [line for line in day.text.split("\n") if line[:1].isdigit()]
    frame = day.replies
    assert [f"{row.position} {row.lane} {row.command}" for row in frame.itertuples()] == [
        " ".join(line.split(" ")[:3]) for line in lines]
    assert all(line.endswith(f" {reply}") for line, reply in zip(lines, frame["reply"]))


def test_measures_are_the_days_totals(day):
    totals, measures = day.report.day, day.measures()
    assert measures["served"] == totals["picked"] and day.riders["wait"].max() == totals["worst-wait"]
    assert day.riders["delay"].max() == totals["worst-delay"]
    assert measures["driven_seconds"] == day.vehicles["driven"].sum()
    assert measures["empty_seconds"] == day.vehicles["empty"].sum()


def test_the_driven_script_is_confirmed(town, day):
    report = rp.run(town[0], town[1], day.script, rp.Settings(proof=True))
    assert rp.audit(town[0], town[1], day.script, report) == (len(day.replies), len(day.batches))
    wrong = report.text.replace("\ncost 250\n", "\ncost 251\n", 1)
    with pytest.raises(rp.AuditFailed) as failed:
        rp.audit(town[0], town[1], day.script, wrong)
    assert failed.value.point == 4 and wrong.split("\n")[failed.value.line - 1] == "batch 1"


@pytest.mark.parametrize("spoil", [
    lambda text: text[:-5], lambda text: text[len(text) // 2:], lambda text: text.replace("accepted", "ccepted 1 2", 1),
    lambda text: text + "x\n", lambda text: text.replace("\nend\n", "\n", 1), lambda text: "", lambda text: "load seed=1\n"])
def test_what_is_no_report_is_refused(town, day, spoil):
    with pytest.raises(rp.RefusedInput):
        rp.Day.from_bytes(spoil(day.text).encode(), town[0], town[1]).replies.reply.str.startswith("accepted").all() \
            or pytest.fail("taken")


def test_a_row_that_is_none_is_refused_when_it_is_asked_for(town, day):
    text = day.text.replace("\nrow 1 0\n", "\nrow 1 x\n", 1)
    spoiled = rp.Day.from_bytes(text.encode(), town[0], town[1])
    with pytest.raises(rp.RefusedInput):
        for number in spoiled.batches["batch"]:
            spoiled.batch(number).rows


def test_many_rows(town, day):
    """A batch of a million row lines more than the day has: each is there, in its place."""
    draw, count = numpy.random.default_rng(1), 1_000_000
    numbers = draw.integers(0, 10**9, (count, 5))
    sizes = draw.integers(0, 4, count)
    lines = "".join(f"row {' '.join(map(str, row[:2 + size]))}\n" for row, size in zip(numbers.tolist(), sizes.tolist()))
    head, _, rest = day.text.partition("\nrow ")
    block = day.text[:day.text.index("\nrow ")].count("\nbatch ")
    large = rp.Day.from_bytes(f"{head}\n{lines}row {rest}".encode(), town[0], town[1])
    rows = large.batch(block).rows
    assert len(rows) == count + len(day.batch(block).rows) == large.batches["rows"][block - 1]
    assert (rows["vehicle"][:count].to_numpy() == numbers[:, 0]).all() and (rows["cost"][:count] == numbers[:, 1]).all()
    assert (rows["size"][:count].to_numpy() == sizes).all()
    third = rows["rider3"][:count]
    assert (third.isna().to_numpy() == (sizes < 3)).all()
    assert (third[sizes == 3].to_numpy(dtype=int) == numbers[sizes == 3, 4]).all()
    pandas.testing.assert_frame_equal(large.riders, day.riders)


def test_a_run_sheet(town, day):
    sheet = day.run_sheet(3).splitlines()
    stops = day.stops[day.stops["vehicle"] == 3]
    assert sheet[0] == f"Vehicle 3, {len(stops)} stops" and len(sheet) == len(stops) + 1
    assert sheet[1] == "  1  00:05:23  pick up   rider 12 (1 person)  at node 65 (167)  aboard then: 1"
    with pytest.raises(rp.RefusedInput):
        day.run_sheet(3, zone="Europe/Zurich")
    with pytest.raises(rp.RefusedInput):
        day.run_sheet(99)


def test_a_run_sheet_in_a_zone(line):
    moments = pandas.to_datetime(["2015-01-15T00:00:00Z"])
    asked = pandas.DataFrame({"from": [2], "to": [4], "time": moments})
    day = rp.drive(*line, rp.Requests.from_frame(asked, every=10))
    assert day.run_sheet(1, "Europe/Zurich").splitlines()[1].startswith("  1  2015-01-15 01:01:10  pick up ")


def test_figures(town, day):
    pytest.importorskip("matplotlib", reason="there is no matplotlib")
    assert "Batch 4" in day.draw(batch=4)._suptitle.get_text()
    assert day.draw().axes and day.draw(service=True).axes


def test_a_report_is_saved_and_read(town, day, tmp_path):
    day.save(tmp_path / "day.report")
    again = rp.Day.from_file(tmp_path / "day.report", town[0], town[1])
    pandas.testing.assert_frame_equal(again.riders, day.riders)


def test_lines_are_found_in_any_order(day):
    lines = Lines(numpy.frombuffer(day.text.encode(), dtype=numpy.uint8), "report")
    text = day.text.split("\n")
    for at in random.Random(1).sample(range(len(lines)), 50):
        assert lines.line(at) == text[at]
