"""Write the tools' answers as JSON, an object a line; docs/events.schema.json is the schema.

Each amount has the number as the table shows it, and the whole number that stands for it in the
program: `{"told": "47.3", "raw": 473}`.
"""

from __future__ import annotations

import json
from collections.abc import Callable, Iterator, Mapping, Sequence
from decimal import Decimal
from typing import Any, Protocol

from ..quantity import Measure, Quantity, magnitude, plain_text
from .both_ways import TiedArcs
from .lexical import display
from .problem_text import ArcRecord
from .session_replies import ChangedReply, CutReply, Event, FlowReply, PrintedReply, SolutionReply
from .table_comments import Role, TableRoles, role_words
from .transcript import TranscriptReader

Json = dict[str, Any]


def event_line(event: str, said: Json) -> str:
    """Return an event as a line of JSON."""
    return json.dumps({"event": event, **said}) + "\n"


def event_number(amount: Quantity, measure: Measure) -> Json:
    """Return an amount as the table shows it and as the program has it. It is below 0 if it flows
    the other way."""
    raw = measure.whole(magnitude(amount))
    return {"told": plain_text(amount), "raw": -raw if amount < 0 else raw}


def ends(role: Role | None, tail: int, head: int, node: Callable[[int], str]) -> Json:
    """Return the ends of an arc. An arc that the table does not have gets its role instead, since a
    reader of the table does not know its nodes."""
    if role:
        return {"from": None, "to": None, "role": {"kind": role.kind, "place": node(role.node)}}
    return {"from": node(tail), "to": node(head), "role": None}


class NameSource(Protocol):
    """How the nodes and arcs of a problem are shown."""

    arcs: dict[int, str]
    measure: Measure
    folding: TableRoles
    ties: TiedArcs

    def node(self, number: int) -> str:
        ...

    def cut(self, cut: CutReply, arcs: list[ArcRecord]) -> tuple[list[int], list[int]]:
        ...


class JsonWriter:
    """Writes each event of the program's answer as a line of JSON."""

    def __init__(self, names: NameSource, follower: TranscriptReader) -> None:
        self.names = names
        self.follower = follower

    def tell(self, event: Event) -> Iterator[str]:
        """Yield the line for an event, without its line feed."""
        kind, said = self._said(event)
        yield event_line(kind, said)[:-1]

    def _said(self, event: Event) -> tuple[str, Json]:
        measure = self.names.measure
        scale = {"unit": measure.told_unit, "scale": plain_text(measure.divisor)}
        if isinstance(event, SolutionReply):
            flows = dict(zip(event.numbers, event.flows)) if self.names.ties else {}
            arcs = [
                {**self._arc(number, arc, flow), **self._both_ways(number, flows)}
                for number, arc, flow in zip(event.numbers, event.arcs, event.flows)
            ]
            return "solution", {
                "value": self._number(event.value),
                **scale,
                "arcs": arcs if event.is_told else None,
            }
        if isinstance(event, FlowReply):
            role = self.names.folding.role(event.tail, event.head)
            return "flows", {
                **ends(role, event.tail, event.head, self.names.node),
                "flow": self._number(event.flow),
                **scale,
            }
        if isinstance(event, CutReply):
            side, numbers = self.names.cut(event, self.follower.timeline.arcs)
            told = [*map(self.names.node, self.names.folding.places(side))]
            arcs = [
                {**self._arc(it, self.follower.timeline.arcs[it - 1]), **self._both_ways(it)}
                for it in numbers
            ]
            return "cut", {
                "capacity": self._number(event.capacity),
                **scale,
                "side": told,
                "arcs": None if event.arcs is None else arcs,
            }
        if isinstance(event, PrintedReply):
            return "problem", {"lines": [line.decode(errors="replace") for line in event.lines]}
        value = self._number(event.value) if isinstance(event, ChangedReply) else None
        return "reply", {
            "text": display(event.line.decode(errors="replace")),
            "value": value,
            **scale,
        }

    def _number(self, whole: int) -> Json:
        return {"told": self.names.measure.text(whole), "raw": whole}

    def _arc(self, at: int, arc: ArcRecord, flow: int | None = None) -> Json:
        role = self.names.folding.role(arc.tail, arc.head)
        is_numbered = self.follower.is_numbered
        name = (
            role_words(role, self.names.node)
            if role
            else self.names.arcs.get(at, "")
            if is_numbered
            else ""
        )
        return {
            "number": at if is_numbered else None,
            "name": name,
            **ends(role, arc.tail, arc.head, self.names.node),
            "capacity": self._number(arc.capacity),
            "flow": None if flow is None else self._number(flow),
            "unlimited": bool(role and role.is_unlimited),
        }

    def _both_ways(self, number: int, flows: Mapping[int, int] | None = None) -> Json:
        """Return what is said of the pipe that leads both ways of which an arc is one way: its two
        arcs, its capacity the way of each, and its net flow, below 0 if that goes back; nothing of
        another arc."""
        pair = self.names.ties.pair(number) if self.follower.is_numbered else None
        if not pair:
            return {}
        first, second = pair
        arcs = self.follower.timeline.arcs
        net = None if flows is None else flows.get(first, 0) - flows.get(second, 0)
        said = {
            "arcs": [first, second],
            "capacity": self._number(arcs[first - 1].capacity),
            "capacity_back": self._number(arcs[second - 1].capacity),
            "flow": None if net is None else self._number(net),
        }
        return {"both_ways": said}


def case_line(row: Sequence[str], measure: Measure) -> str:
    """Return a row of a sweep as a line: its number, its commands, the name of its first arc, the
    value, the difference, and why it was refused."""

    def amount(cell: str) -> Json | None:
        if not cell:
            return None
        told = cell.replace(measure.sign, ".") if measure.sign else cell
        raw = measure.whole(abs(Decimal(told)))
        return {"told": told, "raw": -raw if told.startswith("-") else raw}

    at, commands, name, value, difference, refused = row
    return event_line(
        "case",
        {
            "case": int(at),
            "commands": commands,
            "name": name,
            "value": amount(value),
            "difference": amount(difference),
            "refused": refused,
            "unit": measure.told_unit,
            "scale": plain_text(measure.divisor),
        },
    )
