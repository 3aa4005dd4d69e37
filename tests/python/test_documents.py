"""The documents' examples, and the notebooks."""

import doctest
import importlib.util
import os
import pathlib
import re

import pytest

TOP = pathlib.Path(__file__).resolve().parent.parent.parent
DOCUMENTS = [TOP / "README.md", *sorted((TOP / "docs" / "python").glob("*.md"))]
NOTEBOOKS = sorted((TOP / "examples" / "notebooks").glob("*.ipynb"))
BLOCK = re.compile(r"^```pycon\n(.*?)^```$", re.M | re.S)


def tried(text, name):
    """How many examples of a document were tried, and how many gave something else."""
    examples = "\n".join(BLOCK.findall(text))
    test = doctest.DocTestParser().get_doctest(examples, {}, name, name, 0)
    found = doctest.DocTestRunner().run(test)
    return found.attempted, found.failed


@pytest.mark.parametrize("path", DOCUMENTS, ids=lambda path: path.stem)
def test_examples_of_documents(path, monkeypatch):
    monkeypatch.chdir(TOP)
    attempted, failed = tried(path.read_text(), path.name)
    assert failed == 0
    assert attempted or "pycon" not in path.read_text()


def test_a_wrong_example_is_noticed():
    assert tried("```pycon\n>>> 1 + 1\n3\n```\n", "wrong")[1] == 1


def test_each_frames_columns_are_documented(day):
    text = (TOP / "docs" / "python" / "columns.md").read_text()
    batch = day.batch(4)
    frames = [day.riders, day.stops, day.vehicles, day.batches, day.replies, day.moves, batch.rv, batch.rr, batch.rows,
              batch.trips, batch.moves, batch.tree, batch.multipliers]
    columns = {column for frame in frames for column in frame.columns} | set(day.measures())
    assert [column for column in columns if f"`{column}`" not in text and not re.fullmatch("rider[2-5]", column)] == []


@pytest.mark.parametrize("path", NOTEBOOKS, ids=lambda path: path.stem)
def test_notebooks(path, monkeypatch):
    for module in ("nbclient", "nbformat", "ipykernel", "matplotlib"):
        if importlib.util.find_spec(module) is None:
            pytest.skip(f"there is no {module}")
    import nbclient
    import nbformat

    monkeypatch.setenv("PYTHONPATH", str(TOP / "python"))
    book = nbformat.read(path, as_version=4)
    assert all(not cell.get("outputs") for cell in book.cells), "the notebook is kept without what it printed"
    nbclient.NotebookClient(book, timeout=600, resources={"metadata": {"path": str(path.parent)}}).execute()
    assert any(cell.get("outputs") for cell in book.cells)
    assert os.environ["RIDEPOOL_PROGRAM"]
