"""Places that can't be read or written, and files of notices that must not be written."""

import os
import subprocess
from threading import Thread

from failing_parts.shared import DROPPED, FILES, LOAD, POOLED, WORDS, Left, run_in, start, table
from inputs import Run
from judge import Wrong, judge
from refusals import refusal

FULL, WITHOUT_OUTPUT = "/dev/full", "ridepool: report: write failed\n"
TAKEN = "ridepool: notices: the file is an input or standard output: not written\n"
NO_ROUND = {**POOLED, "script": table("script")}


def as_nobody():
    """Who has no rights to a file without permissions: root has."""
    return {"user": 65534, "group": 65534, "extra_groups": []} if os.geteuid() == 0 else {}


def full_device(words):
    """Standard output is a device that is full."""

    def run(program, folder):
        with open(FULL, "wb") as output:
            left = run_in(folder, lambda it: start(program, it, words, stdout=output), POOLED)
        left.need((left.status, left.error) == (8, WITHOUT_OUTPUT), "status 8 should come")
        left.need(not left.notices, "nobody should be told anything")

    return run


def closed_pipe(program, folder):
    """Standard output is a pipe that nobody reads."""
    reading, writing = os.pipe()
    os.close(reading)
    with open(writing, "wb") as output:
        left = run_in(folder, lambda it: start(program, it, [*WORDS, "notices=notices"], stdout=output), POOLED)
    left.need((left.status, left.error) == (8, WITHOUT_OUTPUT), "status 8 should come")
    left.need(not left.notices, "nobody should be told anything")


def closed_after_a_line(program, folder):
    """As `| head -1`."""
    with subprocess.Popen([program, "load", "rounds=50"], stdout=subprocess.PIPE, stderr=subprocess.PIPE, text=True) as going:
        line = going.stdout.readline()
        going.stdout.close()
        error = going.stderr.read()
        status = going.wait(timeout=60)
    if (line, status, error) != ("load seed=1 side=20 vehicles=100 riders=150 rounds=50\n", 8, WITHOUT_OUTPUT):
        raise Wrong(f"status {status}, {line!r}, {error!r}")


def closed_place(place, words):
    """Runs the program with standard output or error closed, and a file of notices that must not take its place."""

    def run(program, folder):
        line = ["sh", "-c", f'exec "$0" "$@" {place}>&-', program, *words, "notices=notices"]
        left = run_in(folder, lambda it: subprocess.run(line, cwd=it, capture_output=True, timeout=60), POOLED)
        return left

    return run


def closed_output(program, folder):
    left = closed_place(1, WORDS)(program, folder)
    left.need((left.status, left.error) == (8, WITHOUT_OUTPUT), "status 8 should come")
    left.need(not left.notices, f"in the file of notices stands {left.notices!r}")


def closed_error(program, folder):
    words = ["run", "network=fleet.csv", *WORDS[2:]]
    left = closed_place(2, words)(program, folder)
    left.is_refused(3, "")


def no_file(key, name, status, line):
    """A folder or a missing file for a key."""

    def run(program, folder):
        words = [word for word in WORDS if not word.startswith(f"{key}=")]
        left = run_in(folder, lambda it: start(program, it, [*words, f"{key}={name}"]), POOLED)
        if status:
            left.is_refused(status, line)
        else:
            left.need((left.status, left.error) == (0, line), "the report should go on")
            judge(Run(folder, WORDS), left.output)

    return run


def forbidden(key, prepare_folder, line):
    """A file that whoever runs the program may not read or write."""

    def run(program, folder):
        # Another program makes the copy: a thread that forks while it is open for writing would keep it busy.
        mine = folder / "program"
        subprocess.run(["cp", program, mine], check=True)
        folder.chmod(0o755)
        words = [word for word in WORDS if not word.startswith(f"{key}=")] + [f"{key}=closed/file"]
        (folder / "closed").mkdir()

        def call(it):
            prepare_folder(it / "closed")
            return start(mine, it, words, **as_nobody())

        left = run_in(folder, call, POOLED)
        (folder / "closed").chmod(0o755)
        if key == "notices":
            left.need((left.status, left.error) == (0, line), "the report should go on")
            judge(Run(folder, WORDS), left.output)
            left.need(not list((folder / "closed").iterdir()), "nothing should be written")
        else:
            left.is_refused(7, line)

    return run


def unreadable(folder):
    """Puts a script there that may not be read."""
    (folder / "file").write_text(POOLED["script"])
    (folder / "file").chmod(0)


def ended_early(program, folder):
    """A script that comes through a pipe whose writer ends within a line."""
    os.mkfifo(folder / "pipe")
    words = [*WORDS[:3], "script=pipe"]
    for name in FILES[:2]:
        (folder / f"{name}.csv").write_text(POOLED[name])
    cut = POOLED["script"][:-10]
    # Whoever opens the pipe to write waits until the program opens it to read.
    Thread(target=(folder / "pipe").write_text, args=(cut,), daemon=True).start()
    left = Left(subprocess.run([program, *words], cwd=folder, capture_output=True, timeout=60), folder)
    left.is_refused(*refusal({**POOLED, "script": cut}))


def taken(prepare, key):
    """Notices to a path that leads to an input: no byte of it changes, and the report goes on."""

    def run(program, folder):
        path = prepare(folder, f"{key}.csv")
        left = run_in(folder, lambda it: start(program, it, [*WORDS, f"notices={path}"]), POOLED)
        left.need((left.status, left.error) == (0, TAKEN), "the report should go on")
        judge(Run(folder, WORDS), left.output)
        for name, text in POOLED.items():
            left.need((folder / f"{name}.csv").read_text() == text, f"the {name} should be as it was")

    return run


def same(folder, name):
    return name


def linked(folder, name):
    (folder / "link").symlink_to(name)
    return "link"


def hard_linked(folder, name):
    (folder / name).touch()
    os.link(folder / name, folder / "link")
    return "link"


def notices_as_output(program, folder):
    """The report and the notices on one file: the report alone stands there."""
    with open(folder / "report", "wb") as output:
        left = run_in(folder, lambda it: start(program, it, [*WORDS, "notices=report"], stdout=output), POOLED)
    left.need((left.status, left.error) == (0, TAKEN), "the report should go on")
    judge(Run(folder, WORDS), (folder / "report").read_text())


def old_notices(words, inputs, status, is_kept):
    """A file of notices that was there is emptied where the run begins to write, and left where it is refused."""

    def run(program, folder):
        (folder / "notices").write_text("old\n")
        left = run_in(folder, lambda it: start(program, it, [*words, "notices=notices"]), inputs)
        left.need(left.status == status, f"status {status} should come")
        left.need((left.notices == "old\n") == is_kept, f"in the file of notices stands {left.notices!r}")

    return run


def unopened(program, folder):
    """Faulty words open no file: a pipe that nobody writes to would keep them waiting."""
    os.mkfifo(folder / "pipe")
    for words in (["load", "network=pipe"], ["run", "network=pipe", "fleet=pipe"], ["audit", "report=pipe", "wait=x"]):
        ran = subprocess.run([program, *words], cwd=folder, capture_output=True, timeout=10)
        if ran.returncode != 2:
            raise Wrong(f"status {ran.returncode} comes of {words}, and 2 should")


def unopened_script(program, folder):
    """A pipe of the script is opened after network and fleet are judged: a refused one leaves it closed."""
    os.mkfifo(folder / "pipe")
    (folder / "network.csv").write_text(POOLED["network"])
    (folder / "fleet.csv").write_text(POOLED["fleet"])
    for names, status in ((("fleet", "fleet"), 3), (("network", "network"), 4)):
        words = ["run", *(f"{key}={name}.csv" for key, name in zip(FILES, names)), "script=pipe"]
        ran = subprocess.run([program, *words], cwd=folder, capture_output=True, timeout=10)
        if ran.returncode != status or ran.stdout:
            raise Wrong(f"status {ran.returncode} comes of {words}, and {status} should")


PLACES = {
    **{f"notices to the {name}": taken(same, name) for name in FILES},
    "notices to a link to the script": taken(linked, "script"),
    "notices to another name of the network": taken(hard_linked, "network"),
    "notices to standard output": notices_as_output,
    "old notices of a run": old_notices(WORDS, POOLED, 0, False),
    "old notices of a run without a round": old_notices(WORDS, NO_ROUND, 0, False),
    "old notices of a refused script": old_notices(WORDS, {**POOLED, "script": "x\n"}, 5, True),
    "old notices of faulty words": old_notices([*WORDS, "wait=x"], POOLED, 2, True),
    "faulty words": unopened,
    "a pipe for the script of a refused network or fleet": unopened_script,
    "a run's report to a full device": full_device([*WORDS, "notices=notices"]),
    "a summary to a full device": full_device(LOAD),
    "the help to a full device": full_device(["--help"]),
    "the version to a full device": full_device(["--version"]),
    "a closed pipe": closed_pipe,
    "a pipe that is closed after a line": closed_after_a_line,
    "standard output is closed": closed_output,
    "standard error is closed": closed_error,
    **{f"a folder for the {name}": no_file(name, ".", 7, f"ridepool: {name}: read failed\n") for name in FILES},
    **{f"no file for the {name}": no_file(name, "none", 7, f"ridepool: {name}: read failed\n") for name in FILES},
    "a folder for the notices": no_file("notices", ".", 0, DROPPED),
    "notices in a folder that isn't there": no_file("notices", "none/file", 0, DROPPED),
    "notices in a read-only folder": forbidden("notices", lambda it: it.chmod(0o555), DROPPED),
    "a script that may not be read": forbidden("script", unreadable, "ridepool: script: read failed\n"),
    "a script that ends early": ended_early,
}


def refused_places(part, program):
    """Each place is tried once."""
    part.try_all((name, lambda folder, run=run: run(program, folder) or 1) for name, run in PLACES.items())
