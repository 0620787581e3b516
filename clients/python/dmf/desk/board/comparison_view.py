"""Two scenarios beside each other, as the page shows them: the rows that differ, and a picture."""

from __future__ import annotations

from ...quantity import moved, plain_text
from ..pictures.layout import NoPicture, Places
from ..project.comparison import BOTTLENECK, Comparison, Known, Standing, compare, known_arcs
from ..project.scenarios import project_of
from ..workspace import Desk
from .difference_picture import DifferencePicture
from .responses import Json, WrongForm

MOST_DIFFERENCES, MOST_LISTED = 500, 300


class Comparisons:
    """The comparison that a page asked for last, which is kept until the next change."""

    def __init__(self, desk: Desk, places: Places) -> None:
        self._desk = desk
        self._picture = DifferencePicture(desk, places)
        self._kept: tuple[tuple[int, str, str], Comparison] | None = None

    def of(self, one: str, two: str) -> Comparison:
        """Return the comparison of two scenarios; `base` is the network of the table."""
        desk = self._desk
        project = project_of(desk)
        key = desk.turn, one, two
        if not self._kept or self._kept[0] != key:
            found = compare(project, one, two)
            # If the session has ended meanwhile, the turn is another one.
            self._kept = (desk.turn, one, two), found
        return self._kept[1]

    def view(self, one: str, two: str, first: int, count: int) -> Json:
        """Return a comparison, with `count` of the arcs that differ from the one at `first` on."""
        if count > MOST_DIFFERENCES:
            raise WrongForm(f"expected at most {MOST_DIFFERENCES} rows")
        found = self.of(one, two)
        numbers = dict(known_arcs(self._desk))
        rows = [
            {
                "arc": it.arc,
                "number": numbers.get(it.known, 0),
                "node": self._node(it.known),
                "kind": it.kind,
                "first": it.first.told(BOTTLENECK),
                "second": it.second.told(BOTTLENECK),
            }
            for it in found.arcs[first : first + count]
        ]
        same = found.first.limit == found.second.limit
        told = {
            "moved": moved(found.first.value, found.second.value),
            "same_limit": same,
            "total": len(found.arcs),
        }
        return {
            "first": _standing(found.first),
            "second": _standing(found.second),
            **told,
            "rows": rows,
        }

    def _node(self, known: Known) -> int:
        """Return the place whose role an arc is, if it is one; else 0."""
        role = self._desk.network.role(known) if isinstance(known, int) else None
        return role.node if role else 0

    def picture(self, one: str, two: str) -> Json:
        """Return the picture of a comparison, and why it lacks arcs or cannot be drawn."""
        found = self.of(one, two)
        try:
            svg, reason = self._picture.of(found)
        except NoPicture as fault:
            svg, reason = "", str(fault)
        return {"svg": svg, "reason": reason}

    def file(self, one: str, two: str) -> bytes:
        """Return the picture as a file. Raise `NoPicture`."""
        return self._picture.of(self.of(one, two), to_take=True)[0].encode()


def _standing(it: Standing) -> Json:
    return {
        "name": it.name,
        "value": plain_text(it.value),
        "limit": list(it.limit[:MOST_LISTED]),
        "limit_count": len(it.limit),
    }
