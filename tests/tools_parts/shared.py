"""What the tests of the tools share: where files lie, calls of tools, looks into pictures."""

import contextlib
import importlib
import io
import pathlib
import sys
import xml.etree.ElementTree

TOP = pathlib.Path(__file__).resolve().parent.parent.parent
TOOLS, DATA, EXPECTED = TOP / "tools", TOP / "tests" / "tools", TOP / "tests" / "tools" / "expected"
CASES = TOP / "tests" / "cases"
LINE, TOWN, PICTURES = TOP / "examples" / "line", TOP / "examples" / "town", TOP / "docs" / "pictures"
SVG = "{http://www.w3.org/2000/svg}"
MODULES = {
    "from_sumo": "ridepool.inputs.from_sumo",
    "from_trips": "ridepool.inputs.from_trips",
    "made_city": "ridepool.inputs.made_city",
    "script_of": "ridepool.report.script_of",
    "draw": "ridepool.draw.command",
    "study": "ridepool.study.command",
}


def call(tool, *arguments):
    """Calls a tool with words. Gives its status, standard output and standard error."""
    module = importlib.import_module(MODULES[tool])
    out, errors = io.StringIO(), io.StringIO()
    argv, sys.argv = sys.argv, [f"{tool}.py", *map(str, arguments)]
    try:
        with contextlib.redirect_stdout(out), contextlib.redirect_stderr(errors):
            module.main()
        status = 0
    except SystemExit as end:
        status = end.code
    finally:
        sys.argv = argv
    return status, out.getvalue(), errors.getvalue()


def works(tool, *arguments):
    """Calls a tool that must have status 0 and no errors. Gives its standard output."""
    status, out, errors = call(tool, *arguments)
    assert (status, errors) == (0, ""), (tool, arguments, status, errors)
    return out


def refuses(text, tool, *arguments):
    """Calls a tool that must have status 2 and this text in its one line on standard error."""
    status, out, errors = call(tool, *arguments)
    assert status == 2 and errors.count("\n") == 1 and text in errors, (tool, arguments, status, errors)


def same(path, expected):
    """Two files must have the same text."""
    assert path.read_text() == (EXPECTED / expected).read_text(), f"{path} differs from {expected}"


class Svg:
    """A picture that a test looks into."""

    def __init__(self, path):
        self.bytes = path.read_bytes()
        self.root = xml.etree.ElementTree.fromstring(self.bytes)

    def size(self):
        """Width and height in inches."""
        return tuple(float(self.root.get(side).removesuffix("pt")) / 72 for side in ("width", "height"))

    def texts(self):
        """All texts in the picture."""
        return [text.text for text in self.root.iter(f"{SVG}text")]

    def group(self, name):
        """The groups of a name."""
        return [group for group in self.root.iter(f"{SVG}g") if group.get("id") == name]

    def marks(self, name):
        """How many marks the groups of a name have; few simple ones are written without <use>."""
        return sum(1 for group in self.group(name) for _ in group.iter(f"{SVG}use")) or self.lines(name)

    def lines(self, name):
        """How many lines or areas the groups of a name have."""
        return sum(1 for group in self.group(name) for _ in group.findall(f"{SVG}path"))

    def has(self, *texts):
        """All of these must be texts of the picture."""
        missing = [text for text in texts if text not in self.texts()]
        assert not missing, f"no text {missing} among {self.texts()}"


def drawn(folder, *arguments, name="picture.svg"):
    """The picture that these words give."""
    path = folder / name
    works("draw", *arguments, path)
    return Svg(path)


def made_report(folder, vehicles, batches=20):
    """The paths of a made day's report and network."""
    from tools_parts import made_day

    report, network = folder / f"made-{vehicles}.report", folder / "made-network.csv"
    report.write_text("\n".join(made_day.Day(vehicles, batches, 1).report()) + "\n")
    network.write_text("\n".join(made_day.network()) + "\n")
    return report, network


def rows_without_overlap(svg, least=0.14):
    """Texts at the left side must be `least` inches apart; gives how many there are."""
    ticks = [text for group in svg.group("matplotlib.axis_2") for text in group.iter(f"{SVG}text")]
    heights = sorted(float(text.get("y")) / 72 for text in ticks if text.text.isdigit())
    assert all(low - high >= least for high, low in zip(heights, heights[1:])), heights
    return len(heights)
