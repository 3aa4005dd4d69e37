"""Tests of tools/trail.py on small crates."""

from pathlib import Path

from looks_parts.shared import tool
from trails.chapters import in_order

TRAIL = tool("trail")
Trail, faults_of_types, faults_of_way = TRAIL.Trail, TRAIL.faults_of_types, TRAIL.faults_of_way

LOWER = {
    "src/lib.rt": """
ghost use Rattle.lower.specs.Even.{IsEven};
mod number;
pub use number::{Kind, Number};
/// A law.
pub fn two_is_even()
    ensures even { IsEven 2 }
{
}
""",
    "src/number.rt": """
ghost use Rattle.lower.specs.Even.{IsEven};
ghost use Rattle.lower.specs.work.Kept.{IsKept};

/// A number that is even. It stays so.
pub struct Number {
    value: u64,
    ghost even: { IsEven value },
}

impl Model for Number {
    ghost Value = { ℕ };

    ghost view = { λ n. n.value };

    ghost invariant = { λ n. IsKept n.value };
}

/// What a number is.
pub enum Kind {
    Small,
    Large { by: Distance },
}

/// How far it is.
pub struct Distance(u64);
""",
    "specs/Even.antt": """
-- twice a number
abbrev pub twice : ℕ → ℕ
twice n = n + n

abbrev pub thrice : ℕ → ℕ
thrice n = n + n + n

-- a number is even
abbrev pub IsEven : ℕ → Type 0
IsEven n = (half : ℕ) × (n ≡ twice half)
""",
    "specs/work/Kept.antt": """
-- how it is kept
abbrev pub IsKept : ℕ → Type 0
IsKept n = n ≤ 7
""",
}
UPPER = {
    "src/lib.rt": "pub mod run;\n",
    "src/run.rt": """
ghost use Rattle.upper.specs.Run.{IsRun};
ghost use Rattle.upper.specs.work.Steps.{taken};
use lower::Kind;

/// A run.
pub struct Run {
    /// How many steps.
    pub taken: u64,
}

/// Runs.
pub fn run(kind: &Kind) -> Run
    ensures taken { IsRun kind.now result.taken }
{
    Run { taken: 1 }
}
""",
    "specs/Run.antt": """
use Rattle.lower.specs.Even.{thrice}
use Rattle.lower.specs.declared.number.Kind.{Kind}
use Rattle.lower.specs.declared.number.Kind.TheVariants.{Small}

-- a run of so many steps
abbrev pub IsRun : Kind → ℕ → Type 0
IsRun kind steps = (kind ≡ Small) × (steps ≡ thrice 1)
""",
    "specs/work/Steps.antt": """
-- the steps
abbrev pub taken : ℕ → ℕ
taken n = n
""",
}


def trail_of(folder, lower=LOWER, upper=UPPER):
    """The trail of two crates."""
    for crate, files in (("lower", lower), ("upper", upper)):
        for name, text in files.items():
            path = Path(folder, "crates", crate, name)
            path.parent.mkdir(parents=True, exist_ok=True)
            path.write_text(text)
    return Trail(Path(folder, "crates"))


def names_of(pieces):
    return sorted(piece.name for piece in pieces)


def faults_of(trail):
    return [fault for fault in faults_of_way(trail) if not fault.startswith("tools/")]


def test_what_is_on_the_way(folder):
    """A function of a root file, a ghost member and a variant's type lead to definitions; a field's name does not."""
    trail = trail_of(folder)
    assert names_of(trail.roots[("lower", "two_is_even")]) == ["IsEven"]
    assert names_of(trail.roots[("lower", "Number")]) == ["IsEven"]
    assert names_of(trail.roots[("upper", "run")]) == ["IsRun"]
    assert names_of(trail.every) == ["Distance", "IsEven", "IsRun", "Kind", "thrice", "twice"]
    assert {key: names_of(pieces) for key, pieces in trail.kept.items()} == {("lower", "Number"): ["IsKept"]}


def test_comments_of_their_own(folder):
    """A definition without a comment has none, also below one that has; a type has its first sentence."""
    trail = trail_of(folder)
    said = {piece.name: piece.comment for piece in trail.every}
    assert said["twice"] == "twice a number" and said["thrice"] == "" and said["Kind"] == "what a number is", said
    assert faults_of(trail) == ["lower/specs/Even: thrice has no line of comment"]


def test_work_on_the_way(folder):
    """What a public ghost member rests on may not be work."""
    lower = {**LOWER, "src/number.rt": LOWER["src/number.rt"].replace("ghost even: { IsEven value }", "pub ghost even: { IsKept value }")}
    assert "lower/specs/work/Kept: IsKept is work, and Number rests on it" in faults_of(trail_of(folder, lower))


def test_one_name_for_two(folder):
    """A type on the way has a name of its own."""
    text = UPPER["specs/Run.antt"].replace("thrice 1)", "thrice (Distance 1))")
    upper = {**UPPER, "specs/Run.antt": text + "\n-- another\nabbrev pub Distance : ℕ → ℕ\nDistance n = n\n"}
    assert "Distance stands for several definitions: lower/src/number, upper/specs/Run" in faults_of(trail_of(folder, upper=upper))


def test_one_name_for_two_types(folder):
    """A type that two crates offer, or that is named as a definition, has a name of its own; one that no crate offers is free."""
    text = UPPER["src/run.rt"]
    upper = {**UPPER, "src/run.rt": text + "\n/// Another number.\npub struct Number(u64);\n/// How far.\nstruct Distance(u64);\n"}
    assert faults_of_types(trail_of(folder, upper=upper)) == ["Number is a type of several places: lower/src/number, upper/src/run"]


def test_a_type_named_as_a_definition(folder):
    """A type that is offered isn't named as a definition on a way."""
    upper = {**UPPER, "src/run.rt": UPPER["src/run.rt"] + "\n/// Another.\npub struct IsEven(u64);\n"}
    assert faults_of_types(trail_of(folder, upper=upper)) == ["IsEven is a type of several places: lower/specs/Even, upper/src/run"]


def test_order_of_reading(folder):
    """A file stands behind those that it uses, and a ring of them ends."""
    uses = {"stop_orders/specs/Order": {"stop_orders/specs/Visit"}, "stop_orders/specs/Visit": {"stop_orders/specs/Task"},
            "stop_orders/specs/Task": {"stop_orders/specs/Visit", "elsewhere"}}
    assert in_order(uses) == [f"stop_orders/specs/{name}" for name in ("Task", "Visit", "Order")]
