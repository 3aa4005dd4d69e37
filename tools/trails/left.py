"""What the trail finds and what can't be mended by itself, since every crate above would have to be proved anew.

An entry that is no longer needed is a fault, so that this file only shrinks.
"""

# faults, each with its reason
FAULTS: dict[str, str] = {}

# sentences of definitions that have no comment of their own, or share one
SENTENCES: dict[tuple[str, str], str] = {}
