"""Draws a printed report of ridepool: a day of its vehicles, the service of its batches, or one batch's map; or
the figures of a study or of compared policies."""

from typing import Any, List, Mapping, Sequence, Tuple

from ridepool.report.reader import read_report
from ridepool.study.plan import SETTINGS
from ridepool.inputs.tables import MOST_NUMBER
from ridepool.words import Fault, need, number, run_tool, split_words

USAGE = ("use: %(prog)s REPORT day|service|batch=N [nodes=nodes.csv|made=1] [network=network.csv] "
         "[fleet=fleet.csv] [dark=1] OUT.svg|png|pdf, or %(prog)s cells.csv study [SETTING=VALUE ..] [dark=1] "
         "OUT.svg|png|pdf, or %(prog)s policies.csv policies [dark=1] OUT.svg|png|pdf")
PICTURES = ("day", "service", "study", "policies")
WORDS = ("batch", "nodes", "network", "fleet", "made", "dark")


def which_picture(plain: Sequence[str], values: Mapping[str, str]) -> Tuple[str, List[str]]:
    """The picture that the words ask for, and the words that are left: the report and the picture's file."""
    asked = [word for word in plain if word in PICTURES] + ["batch"] * ("batch" in values)
    files = [word for word in plain if word not in PICTURES]
    if len(asked) != 1 or len(files) != 2:
        raise Fault(USAGE)
    return asked[0], files


def picture_of(kind: str, path: str, values: Mapping[str, str]) -> Any:
    """The picture."""
    if kind == "study":
        from ridepool.draw import study

        return study.draw(path, values)
    if kind == "policies":
        from ridepool.draw import policies

        return policies.draw(path)
    report = read_report(path)
    if kind == "day":
        from ridepool.draw import day

        return day.draw(report)
    from ridepool.draw import ground

    if kind == "service":
        from ridepool.draw import service

        return service.draw(report, ground.streets_of(report, values))
    from ridepool.draw import batch_map

    batch = number(values, "batch", 1, MOST_NUMBER, 1)
    return batch_map.draw(report, batch, ground.Ground.of(report, values))


def convert(arguments: List[str]) -> None:
    """The tool."""
    plain, values = split_words(arguments, (*WORDS, *SETTINGS, "split"), USAGE)
    kind, (path, out) = which_picture(plain, values)
    need("matplotlib", "scipy")
    from ridepool.draw import style

    style.check_ending(out)
    picture = picture_of(kind, path, values)
    if number(values, "dark", 0, 1, 0):
        style.darken(picture)
    style.write(picture, out)


def main() -> None:
    """The command."""
    run_tool(convert, USAGE)
