"""Lists in pages: so many at a time, from where the last page ended."""

from __future__ import annotations

from typing import Any, Callable, Dict, List, NamedTuple, Optional, Sequence, Tuple
from urllib.parse import urlencode

MOST, MOST_LOOKED_AT = 1000, 20_000


class Page(NamedTuple):
    """What a page has, and the cursor of the next one; None where the list ends."""

    items: List[Any]
    next: Optional[int]


def page_of(keys: Sequence[int], taken: Callable[[int], bool], limit: int, cursor: int) -> Page:
    """The first keys from a place in their order on that are taken. No more are looked at than takes some milliseconds,
    so that a page may have fewer than `limit`, or none, and a next one all the same."""
    found: List[int] = []
    end = min(len(keys), cursor + MOST_LOOKED_AT)
    for at in range(cursor, end):
        if taken(keys[at]):
            found.append(keys[at])
            if len(found) == limit:
                end = at + 1
                break
    return Page(found, end if end < len(keys) else None)


def link_to(path: str, words: Dict[str, Any], following: Optional[int]) -> List[Tuple[str, str]]:
    """The header that leads to the next page."""
    if following is None:
        return []
    query = urlencode({key: it for key, it in {**words, "cursor": following}.items() if it is not None})
    return [("link", f'<{path}?{query}>; rel="next"'), ("next-cursor", str(following))]
