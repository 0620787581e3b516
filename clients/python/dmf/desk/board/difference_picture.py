"""The picture of two scenarios, in which each arc is coloured by how the second one differs."""

from __future__ import annotations

import os
import time
from collections.abc import Iterable
from dataclasses import dataclass
from typing import NamedTuple
from xml.etree import ElementTree

from ...quantity import EXACT, Quantity, moved, plain_text
from ...text.lexical import display
from ...text.table_comments import AT_PLACE
from ..export import MOST_DRAWN
from ..pictures.arrows import SVG, turn_arrow
from ..pictures.layout import Places
from ..pictures.picture import Picture
from ..pictures.shapes import DrawnArc, DrawnNode, Shape
from ..pictures.svg import marked, written
from ..project.comparison import (
    BOTTLENECK,
    OPEN,
    ArcDifference,
    ArcState,
    Comparison,
    Known,
    known_arcs,
)
from ..subject_words import Words
from ..workspace import Desk

MORE, LESS, SAME = "#0b5394", "#a84300", "#767676"
STYLE = f"""
text {{ font-family: Helvetica, Arial, sans-serif; }}
.same path, .same polygon {{ stroke: {SAME}; }}
.same polygon {{ fill: {SAME}; }}
.more path, .more polygon, .come path, .come polygon {{ stroke: {MORE}; }}
.more polygon, .come polygon, .arc.more text, .arc.come text, text.more, text.come {{
  fill: {MORE};
}}
.less path, .less polygon, .gone path, .gone polygon {{ stroke: {LESS}; }}
.less polygon, .gone polygon, .arc.less text, .arc.gone text, text.less, text.gone {{
  fill: {LESS};
}}
.more path, .less path, .else path {{ stroke-width: 2.5; }}
.come path {{ stroke-width: 4; }}
.gone path {{ stroke-width: 2.5; stroke-dasharray: 5 3; }}
.arc text {{ paint-order: stroke; stroke: #ffffff; stroke-width: 3; }}
"""


class _Found(NamedTuple):
    """An arc of either scenario: its number in the picture, its ends, its name, the key by which it
    is known, and how it differs, if it does."""

    number: int
    tail: int
    head: int
    name: str
    known: Known
    differs: ArcDifference | None


@dataclass(frozen=True)
class _Drawn:
    """The content of a picture of a comparison: the arcs; the roles that differ, by their places;
    and the numbers of all arcs and of those that differ."""

    arcs: list[_Found]
    roles: dict[int, list[_Found]]
    count: int
    differing: int
    words: Words

    @property
    def reason(self) -> str:
        """Return why not all arcs are drawn, if so."""
        shown = len(self.arcs)
        if shown == self.count:
            return ""
        some = (
            f"those of the {self.differing} that differ {self.words.differ_most}"
            if self.differing > shown
            else "those that differ, and others beside them"
        )
        return f"{shown} of {self.count} {self.words.noun}s are drawn: {some}"


class DifferencePicture(Picture):
    """The pictures of comparisons, with the places where the other pictures of a desk have them."""

    def __init__(self, desk: Desk, places: Places) -> None:
        super().__init__(desk)
        # Places have other sizes here, so arcs are routed again.
        self.places = Places()
        self._others = places
        # The nodes of the places that were made in either scenario, by their names.
        self._made: dict[str, int] = {}

    def of(self, found: Comparison, *, to_take: bool = False) -> tuple[str, str]:
        """Return the picture of a comparison, and why it lacks arcs, if it does. Raise
        `NoPicture`."""
        others = self._others
        self.places.spots, self.places.moved = others.spots, others.moved
        self.places.called, self.places.apart = others.called, others.apart
        drawn = self._drawn(found)
        root = self.laid_out(self._shape_between(drawn))
        groups = {group.get("id") or "": group for group in root.iter(f"{{{SVG}}}g")}
        for name, group in groups.items():
            kind, _, digits = name.partition("-")
            for title in group.findall(f"{{{SVG}}}title"):
                group.remove(title)
            if kind == "node":
                _fill_place(
                    group,
                    self._node_label(int(digits)),
                    drawn.roles.get(int(digits), []),
                )
            # The page has another picture, with these names.
            group.set("id", f"two-{name}")
        present = dict(known_arcs(self._desk))
        pipes = self._desk.network.pipes
        for arc in drawn.arcs:
            if isinstance(arc.known, int) and pipes.is_two_way(arc.known):
                # Where what does not differ flows is not known here.
                turn_arrow(
                    groups[f"arc-{arc.number}"], arc.differs.second.flow if arc.differs else 0
                )
            _fill_arc(groups[f"arc-{arc.number}"], arc, self._label(arc), present.get(arc.known, 0))
        return (
            written(root, STYLE, self._below(found, drawn)) if to_take else written(root),
            drawn.reason,
        )

    def _below(self, found: Comparison, drawn: _Drawn) -> list[str]:
        """Return the lines below a picture that is saved."""
        one, two, unit = found.first, found.second, found.measure.told_unit
        values = f"{plain_text(one.value)} and {plain_text(two.value)} {unit}".rstrip()
        names = f"scenarios {display(one.name)} and {display(two.name)}"
        said = (
            f"{display(os.path.basename(self._desk.network.subject.path))}, {names}: {values}, "
            f"{moved(one.value, two.value)}"
        )
        return [
            said,
            time.strftime("%Y-%m-%d"),
            self._desk.network.words.difference_caption,
            *[drawn.reason] * bool(drawn.reason),
        ]

    def _drawn(self, found: Comparison) -> _Drawn:
        desk = self._desk
        network = desk.network
        self._take_made((*(it.known for it in found.arcs), *found.alike))
        differing: list[_Found] = []
        roles: dict[int, list[_Found]] = {}
        for it in found.arcs:
            arc = self._found(it.known, it, len(differing))
            role = network.role(it.known) if isinstance(it.known, int) else None
            if role:
                roles.setdefault(role.node, []).append(arc)
            else:
                differing.append(arc)
        alike = [
            known for known in found.alike if isinstance(known, tuple) or not network.role(known)
        ]
        most = (
            sorted(differing, key=_by, reverse=True)[:MOST_DRAWN]
            if len(differing) > MOST_DRAWN
            else differing
        )
        others = (self._found(known, None, len(differing) + at) for at, known in enumerate(alike))
        if len(differing) + len(alike) > MOST_DRAWN:
            nodes = {node for arc in most for node in (arc.tail, arc.head)} | set(roles)
            others = (arc for arc in others if arc.tail in nodes or arc.head in nodes)
        arcs = [*most, *(arc for _, arc in zip(range(MOST_DRAWN - len(most)), others))]
        return _Drawn(
            sorted(arcs, key=lambda arc: arc.number),
            roles,
            len(differing) + len(alike),
            len(differing),
            self._desk.network.words,
        )

    def _take_made(self, every: Iterable[Known]) -> None:
        """Take the places that were made in the scenarios of these arcs: those of the present one
        by their nodes, and the others by the ones after them."""
        names = self._desk.network.names
        self._made = {name: node for node, name in names.made.items()}
        for known in every:
            for end in known[:2] if isinstance(known, tuple) else ():
                if isinstance(end, str):
                    self._made.setdefault(end, names.given_count + len(self._made) + 1)
        self.places.call({node: name for name, node in self._made.items()})

    def _node_label(self, node: int) -> str:
        """Return the name of a place of either scenario."""
        names = self._desk.network.names
        return self.places.called[node] if node > names.given_count else names.node(node)

    def _found(self, known: Known, differs: ArcDifference | None, at: int) -> _Found:
        desk, place = self._desk, self._desk.network.folding.place
        network = desk.network
        if isinstance(known, int):
            line = network.lines[known - 1]
            return _Found(
                known,
                place(line.tail),
                place(line.head),
                network.names.arc_name(known),
                known,
                differs,
            )
        tail, head = (place(self._made[it] if isinstance(it, str) else it) for it in known[:2])
        return _Found(
            network.first_count + 1 + at,
            tail,
            head,
            known[2],
            known,
            differs,
        )

    def _shape_between(self, drawn: _Drawn) -> Shape:
        desk = self._desk
        network = desk.network
        nodes = {node for arc in drawn.arcs for node in (arc.tail, arc.head)} | set(drawn.roles)
        if len(drawn.arcs) == drawn.count:
            nodes |= {*network.sources, *network.sinks}

        def roles(node: int) -> tuple[tuple[int, str, str], ...]:
            return tuple(
                (arc.number, self._role_words(arc), _amounts(arc.differs))
                for arc in drawn.roles.get(node, ())
            )

        return Shape(
            tuple(
                DrawnArc(
                    arc.number,
                    arc.tail,
                    arc.head,
                    arc.name if arc.differs else "",
                    _amounts(arc.differs),
                )
                for arc in drawn.arcs
            ),
            tuple(
                DrawnNode(node, self._node_label(node), roles(node), True, False)
                for node in sorted(nodes)
            ),
        )

    def _role_words(self, arc: _Found) -> str:
        role = self._desk.network.role(arc.number)
        return AT_PLACE[role.kind] if role else ""

    def _label(self, arc: _Found) -> str:
        return arc.differs.arc if arc.differs else arc.name


def _by(arc: _Found) -> Quantity:
    """Return by how much the flow on an arc differs."""
    return (
        abs(EXACT.subtract(arc.differs.second.flow, arc.differs.first.flow)) if arc.differs else 0
    )


def _amounts(differs: ArcDifference | None) -> str:
    """Return what an arc was, and what it is, in short: `30 → 45`; with its capacity, and whether
    it is one of the limit, where these differ."""
    if differs is None:
        return ""
    one, two = differs.first, differs.second
    has_capacity, has_limit = (
        one.capacity != two.capacity,
        differs.kind == "else" and one.is_limit != two.is_limit,
    )

    def told(it: ArcState) -> str:
        if it.state != OPEN:
            return it.state
        if it.amounts:
            return it.amounts
        capacity = "" if it.is_unlimited or not has_capacity else f"/{plain_text(it.capacity)}"
        return plain_text(it.flow) + capacity + f", {BOTTLENECK}" * (has_limit and it.is_limit)

    return f"{told(one)} → {told(two)}"


def _fill_arc(group: ElementTree.Element, arc: _Found, label: str, number: int) -> None:
    """Fill into an arc of a layout what it is in both scenarios and, if it exists in the present
    one, its number there."""
    differs = arc.differs
    if number:
        group.set("data-arc", str(number))
    if differs is None:
        marked(group, ["arc", "same"], label)
        return
    group.findall(f"{{{SVG}}}text")[-1].text = _amounts(differs)
    marked(
        group,
        ["arc", differs.kind],
        f"{label}: {differs.first.told(BOTTLENECK)}, then {differs.second.told(BOTTLENECK)}",
    )


def _fill_place(group: ElementTree.Element, name: str, roles: Iterable[_Found]) -> None:
    label = name
    for text, arc in zip(group.findall(f"{{{SVG}}}text")[1:], roles):
        if arc.differs:
            text.set("class", arc.differs.kind)
            first, second = arc.differs.first, arc.differs.second
            label += f", {first.told(BOTTLENECK)}, then {second.told(BOTTLENECK)}"
    marked(group, ["node"], label)
