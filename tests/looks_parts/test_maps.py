"""Tests of tools/maps.py on a small crate."""

from pathlib import Path

from looks_parts.shared import tool

MAPS = tool("maps")
HEAD, map_of = MAPS.HEAD, MAPS.map_of

ANSWERS = """use Rattle.std.proofs.Common.{arith}
use Rattle.lower.proofs.Common.{Even}
use Rattle.lower.proofs.number.HalfLemmas.{half, twice}
use Rattle.upper.proofs.OtherLemmas.{other}
use Rattle.lower.proofs.number.halve.Goals as goal

pub returns-in-Ok-clause-even : goal.returns-in-Ok-clause-even
returns-in-Ok-clause-even c = half c.args (other c.ensures)

pub returns-in-Err-clause-small : goal.returns-in-Err-clause-small
returns-in-Err-clause-small c = omega (arith, c.ensures)

pub loop-preserved : goal.loop-preserved
loop-preserved c = (twice c.half, half)
"""


def lower(folder: Path, answers: str) -> Path:
    """A crate with these answers for one function."""
    path = Path(folder, "lower", "proofs", "number", "halve", "Answers.antt")
    path.parent.mkdir(parents=True)
    path.write_text(answers)
    return Path(folder, "lower")


def test_a_row_for_each_clause(folder: Path) -> None:
    """Lemmas of the crate are named, by their file, and neither those of others nor what Common passes on."""
    rows = map_of(lower(folder, ANSWERS)).removeprefix(HEAD).splitlines()
    assert rows == [
        "| `number::halve` | `even` | `number/HalfLemmas` |",
        "| `number::halve` | its one clause, or a step | `number/HalfLemmas` |",
    ], rows


def test_no_lemma_no_map(folder: Path) -> None:
    """A crate whose answers cite no lemmas of its own has no map."""
    text = "use Rattle.lower.proofs.number.halve.Goals as goal\n\npub returns : goal.returns\nreturns c = search rules\n"
    assert map_of(lower(folder, text)) == ""
