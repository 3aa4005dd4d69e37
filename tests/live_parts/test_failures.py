"""Tests of `live` that is killed, and of reads, writes and requests of memory that fail."""

from faults import Plan
from inputs import Run
from judge import Wrong, judge_beginning
from live_parts.given import HEADERS, NOTICED, ONE_BY_ONE

MEMORY_CALLS = 60  # requests of memory that fail, one in each call


def test_killed_between_rows(live, folder):
    """Killed while it waits for a row: what stands begins a report of the rows sent."""
    for count in range(len(ONE_BY_ONE) + 1):
        client = live()
        client.send(HEADERS[0] + "\n")
        for row in ONE_BY_ONE[:count]:
            client.ask(row)
        client.kill()
        (folder / "accepted.csv").write_text("\n".join([HEADERS[0], *ONE_BY_ONE[:count], ""]))
        named = ["network=network.csv", "fleet=fleet.csv", "script=accepted.csv"]
        try:
            assert not judge_beginning(Run(folder, ["run", *named]), client.out.decode()), "a whole report stands"
        except Wrong as wrong:
            raise AssertionError(f"the judge refuses the beginning: {wrong}")


def test_failing_calls(folder, shim):
    """Each read of the script and each write of the report fails once, and each of some requests of memory: status 7, 8 or
    9. What stands begins the report, and the notices are those of the blocks that stand whole."""
    told = folder / "told"
    (folder / "script.csv").write_text("\n".join([HEADERS[0], *NOTICED, ""]))
    words = ["live", "network=network.csv", "fleet=fleet.csv", "script=script.csv", "notices=told"]
    most = {"script": 5, "output": 7}
    plan = Plan(most)
    whole = shim.run(folder, words, plan)
    notices = told.read_text()
    assert whole.returncode == 0, f"status {whole.returncode}, {whole.stderr!r}"
    assert "batch 1 " in notices and "batch 2 " in notices, f"other notices: {notices!r}"
    step = max(1, plan.calls["memory"] // MEMORY_CALLS)
    for kind, status, line, calls in [
        ("script", 7, "script: read failed", range(1, plan.calls["script"] + 1)),
        ("output", 8, "report: write failed", range(1, plan.calls["output"] + 1)),
        ("memory", 9, "out of memory", range(1, plan.calls["memory"] + 1, step)),
    ]:
        for call in calls:
            told.unlink(missing_ok=True)
            ran = shim.run(folder, words, Plan(most, {kind: call}))
            said = ran.returncode, ran.stderr.decode()
            assert said == (status, f"ridepool: {line}\n") or kind == "memory" and said[0] in (0, 9), f"{said} where call {call} on {kind} fails"
            if said[0] == 0:
                continue
            assert whole.stdout.startswith(ran.stdout) and whole.stdout != ran.stdout, f"another beginning where call {call} on {kind} fails"
            blocks = ran.stdout.decode().split("\n")[:-1].count("end")
            wanted = "".join(line for line in notices.splitlines(True) if int(line.split(" ")[1]) <= blocks)
            had = told.read_text() if told.exists() else ""
            assert had == wanted, f"{had!r} was told behind {blocks} blocks where call {call} on {kind} fails"
