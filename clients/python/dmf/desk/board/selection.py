"""Which arcs the table of a board shows: those that a filter leaves, and in which order."""

from __future__ import annotations

import re
from collections.abc import Callable, Iterable
from typing import Any

from ...quantity import magnitude, plain_text
from ...session.base import Part
from ...text.spelling import folded
from ..pictures.looks import Beginning
from ..steps import DeskFault
from ..workspace import Desk
from ..worth import left_without
from .filters import Filters
from .responses import Json, WrongForm
from .views import arc_views, with_worth

MOST_ROWS, MOST_FOUND = 500, 20
_DIGITS = re.compile("([0-9]+)")


def natural(text: str) -> list[tuple[int, int, str]]:
    """Return what a name is sorted by: its letters without case and accents, and its numbers by
    their size."""
    return [
        (0, int(part), "") if part.isdigit() else (1, 0, part)
        for part in _DIGITS.split(folded(text))
        if part
    ]


class ArcList:
    """The arcs of a desk as the table of the page shows them. The last filter and order are
    remembered for the next part of the same table."""

    def __init__(self, desk: Desk, beginning: Beginning) -> None:
        self._desk = desk
        self._beginning = beginning
        self._filters = Filters(desk, beginning, self._label)
        self._labels: dict[int, str] = {}
        self._kept: tuple[tuple[int, str, str, bool], list[int]] | None = None

    def view(self, text: str, order: str, first: int, count: int) -> Json:
        """Return `count` rows of the table from the one at `first` on, the number of all rows, and
        how the filter is understood, or why it has no meaning."""
        if count > MOST_ROWS:
            raise WrongForm(f"expected at most {MOST_ROWS} rows")
        try:
            reading, numbers, fault = (
                " and ".join(self._filters.read(text)[1]),
                self.numbers(text, order),
                "",
            )
        except DeskFault as why:
            reading, numbers, fault = "", [], str(why)
        shown = numbers[first : first + count]
        rows = [
            {**arc, "change": self._change(arc["number"])}
            for arc in with_worth(self._desk, arc_views(self._desk, shown))
        ]
        return {
            "total": len(numbers),
            "first": first,
            "rows": rows,
            "reading": reading,
            "fault": fault,
        }

    def numbers(self, text: str, order: str) -> list[int]:
        """Return all arcs that a filter shows, in an order: that of the file, or by a column, `-`
        before which turns it round. Raise a `DeskFault` if the filter has no meaning."""
        # What an arc is worth becomes known later than the state.
        is_known = Part.ARC in self._desk.state.answers.worth
        key = self._desk.turn, text, order, is_known
        if not self._kept or self._kept[0] != key:
            conditions, _ = self._filters.read(text)
            found = [
                number
                for number in self._desk.network.pictured()
                if all(is_so(number) for is_so in conditions)
            ]
            if order:
                found.sort(key=self._column(order.removeprefix("-")), reverse=order.startswith("-"))
            self._kept = key, found
        return self._kept[1]

    def found(self, text: str) -> Json:
        """Return the first places and arcs whose names contain a text, without regard to case and
        accents, and whether there are more. Those that begin with it come first."""
        network = self._desk.network
        sought, names = folded(text), network.names
        places = [
            (folded(label), {"label": label, "node": node}) for label, node in names.places.items()
        ]
        arcs = [
            (self._label(number), {"label": names.arc(number), "number": number})
            for number in network.pictured()
        ]
        found_places, found_arcs = (_best(sought, named) for named in (places, arcs))
        found = [*found_places[:MOST_FOUND], *found_arcs[:MOST_FOUND]]
        return {"found": found, "more": len(found) < len(found_places) + len(found_arcs)}

    def _column(self, column: str) -> Callable[[int], Any]:
        """Return what arcs are sorted by."""
        network, flows = self._desk.network, self._desk.flows()
        names, lines = network.names, network.lines
        columns: dict[str, Callable[[int], Any]] = {
            "name": lambda number: natural(names.short(number)),
            "from": lambda number: natural(names.node(lines[number - 1].tail)),
            "to": lambda number: natural(names.node(lines[number - 1].head)),
            "flow": lambda number: magnitude(flows[number - 1]),
            "capacity": lambda number: network.pipes.pipe(number).room(flows[number - 1]),
            "use": self._use,
            "lost": self._lost,
            "change": lambda number: (not (text := self._change(number)), natural(text)),
        }
        if column not in columns:
            raise WrongForm(f"the column must be one of {', '.join(columns)}")
        return columns[column]

    def _use(self, number: int) -> float:
        """Return which part of a pipe's capacity is used; less than nothing if it is closed."""
        network, flows = self._desk.network, self._desk.flows()
        pipe = network.pipes.pipe(number)
        if pipe.is_closed:
            return -1.0
        flow = network.measure.quantity(flows[number - 1])
        room = pipe.room(flow)
        return float(magnitude(flow)) / float(room) if room else 0.0

    def _change(self, number: int) -> str:
        """Return in words what was changed at an arc, or nothing if that is as at the beginning."""
        if self._desk.network.pipes.pipe(number).is_closed:
            return "closed"
        capacities = self._beginning.capacities(number, self._desk.flow(number))
        if capacities is None:
            return "new"
        before, now = capacities
        return "" if before == now else f"was {plain_text(before)}"

    def _lost(self, number: int) -> int:
        """Return what is lost without an arc: nothing while that is not known."""
        worth = self._desk.state.answers.worth.get(Part.ARC)
        return worth.value - left_without(self._desk, worth, number) if worth else 0

    def _label(self, number: int) -> str:
        """Return what an arc is found by."""
        if number not in self._labels:
            self._labels[number] = folded(self._desk.network.names.arc(number))
        return self._labels[number]


def _best(sought: str, named: Iterable[tuple[str, Json]]) -> list[Json]:
    """Return what has a text in its name; first what is called so, and what begins with it."""
    found = [
        (label != sought, not label.startswith(sought), one)
        for label, one in named
        if sought in label
    ]
    return [one for *_, one in sorted(found, key=lambda it: it[:2])]
