"""Write a network, its flow and its cut as a text for Graphviz, and let Graphviz draw it."""

from __future__ import annotations

import errno
from collections import Counter, defaultdict
from collections.abc import Callable, Collection, Iterable, Iterator, Mapping, Sequence
from dataclasses import dataclass, field
from functools import cached_property

from .. import running
from ..quantity import Quantity, plain_text
from .lexical import display
from .problem_text import ArcRecord, Problem
from .table_comments import AT_PLACE, TableRoles

# Where an arrow points if nothing flows, and if it is not known which way.
NOWHERE, THERE_AND_BACK = "none", "both"
FULL, UNUSED, CUT, SIDE = "2.5", "#8f8f8f", "#c62828", "#d3e4f5"


@dataclass
class Drawing:
    """The contents of a picture: the arcs with their present capacities, the flow on each arc if it
    is known, the nodes on the source side of the cut (empty if there is no cut), the nodes that are
    shut, and notes.

    Capacities and flows are the problem's whole numbers, or quantities if `has_quantities` is true.
    Arcs that the problem's table does not have are drawn as labels of the places that they belong
    to.
    """

    problem: Problem
    arcs: Sequence[ArcRecord]
    flows: Sequence[Quantity | None]
    side: set[int]
    shut: set[int] = field(default_factory=set)
    notes: list[str] = field(default_factory=list)
    has_quantities: bool = False
    # The places of the sources and sinks that had no limit in the table and were given one.
    limited: Collection[int] = ()
    # Of pipes that lead both ways: the positions of the arcs that are not drawn, since their other
    # way is; where an arrow points, if not from tail to head; and what a label says of both ways.
    left_out: Collection[int] = ()
    pointing: Mapping[int, str] = field(default_factory=dict)
    both_ways: Mapping[int, str] = field(default_factory=dict)

    def __post_init__(self) -> None:
        opened = (arc[:3] for arc in self.arcs if not arc.is_closed)
        self.side = self.folding.told_side(self.side, opened, self.limited)

    @cached_property
    def folding(self) -> TableRoles:
        return TableRoles(self.problem.described)

    @cached_property
    def drawn(self) -> list[int]:
        """The positions of the arcs that are drawn as arcs."""
        every = [place for place in range(len(self.arcs)) if place not in self.left_out]
        return (
            [place for place in every if not self.folding.role(*self.arcs[place][:2])]
            if self.folding.has_roles
            else every
        )

    @cached_property
    def roles(self) -> dict[int, list[int]]:
        """The positions of the arcs that stand for what a place gives, takes or lets through, by
        the node of the place."""
        found: dict[int, list[int]] = defaultdict(list)
        for place, arc in enumerate(self.arcs) if self.folding.has_roles else ():
            if role := self.folding.role(*arc[:2]):
                found[role.node].append(place)
        return found

    @cached_property
    def unlimited(self) -> set[int]:
        """The positions of the arcs that stand for unlimited sources or sinks."""
        roles = (
            (place, self.folding.role(*self.arcs[place][:2]))
            for places in self.roles.values()
            for place in places
        )
        return {
            place
            for place, role in roles
            if role and role.is_unlimited and role.node not in self.limited
        }

    def ends(self, place: int) -> tuple[int, int]:
        """Return the nodes between which an arc is drawn."""
        arc = self.arcs[place]
        return self.folding.place(arc.tail), self.folding.place(arc.head)

    def is_cut(self, arc: ArcRecord) -> bool:
        return arc.tail in self.side and arc.head not in self.side and not arc.is_closed

    def terminals(self) -> set[int]:
        """Return the nodes of the sources and the sinks."""
        return {*self.folding.ends(self.problem.source), *self.folding.ends(self.problem.sink)}

    def nodes(self) -> list[int]:
        """Return all nodes that a whole picture shows."""
        return self.folding.places(range(1, self.problem.node_count + 1))

    def amount(self, place: int, before: str = "") -> str:
        """Return an arc's flow and capacity as in `14.7/20`, or only its capacity if the flow is
        not known."""
        arc, flow = self.arcs[place], self.flows[place]
        if arc.is_closed:
            return "closed"
        if flow is not None and place in self.unlimited:
            return self._text(flow)
        return (
            f"{before}{self._text(arc.capacity)}"
            if flow is None
            else f"{self._text(flow)}/{self._text(arc.capacity)}"
        )

    def _text(self, number: Quantity) -> str:
        return (
            plain_text(number)
            if self.has_quantities
            else self.problem.described.measure.text(int(number))
        )


def nearest(drawing: Drawing, most: int) -> list[int]:
    """Return the positions of at most `most` arcs: the arcs of the cut, then those that are the
    fewest steps away from them."""
    at_node: dict[int, list[int]] = defaultdict(list)
    for place in drawing.drawn:
        for node in drawing.ends(place):
            at_node[node].append(place)
    chosen = [place for place in drawing.drawn if drawing.is_cut(drawing.arcs[place])]
    # If the cut passes through a place, the arcs at that place are nearest. If the cut has no arcs,
    # those at the sources and sinks are.
    at_places = {
        node
        for node, roles in drawing.roles.items()
        if any(drawing.is_cut(drawing.arcs[place]) for place in roles)
    }
    if at_places or not chosen:
        beside = {place for node in at_places or drawing.terminals() for place in at_node[node]}
        chosen += sorted(beside.difference(chosen))
    return spread(chosen, most, drawing.ends, lambda node: at_node[node])


def spread(
    first: Iterable[int],
    most: int,
    ends: Callable[[int], tuple[int, int]],
    at_node: Callable[[int], Iterable[int]],
) -> list[int]:
    """Return the first arcs and then those that are the fewest steps away, at most `most`, in
    ascending order."""
    chosen = list(first)
    known = set(chosen)
    for arc in chosen:
        if len(chosen) >= most:
            break
        for node in ends(arc):
            new = [other for other in at_node(node) if other not in known]
            known.update(new)
            chosen += new
    return sorted(chosen[:most])


def quoted(*parts: str) -> str:
    """Return a label with these lines, in quotes. Entities, backslashes and quotation marks are
    escaped, since Graphviz would interpret them."""
    shown = (
        display(part).replace("\\", "\\\\").replace('"', '\\"').replace("&", "&amp;")
        for part in parts
    )
    # In a label, a line feed is written as a backslash and an n.
    return '"' + "\\n".join(shown) + '"'


def drawn_line(what: str, looks: dict[str, str]) -> str:
    return f"  {what} [" + ", ".join(f"{name}={value}" for name, value in looks.items()) + "]"


def node_line(drawing: Drawing, node: int, is_whole: bool) -> str:
    is_shut = node in drawing.shut
    roles = [] if is_shut else drawing.roles.get(node, [])
    told = [
        f"{AT_PLACE[kind]} {amount}"
        for kind, amount in map(lambda place: _role_of(drawing, place), roles)
    ]
    looks = {
        "label": quoted(drawing.problem.node_names.get(node, str(node)), *told, *["shut"] * is_shut)
    }
    if node in drawing.terminals():
        looks["peripheries"] = "2"
    styles = ["filled"] * (node in drawing.side) + ["dashed"] * (not is_whole)
    if styles:
        looks["style"] = quoted(",".join(styles))
    if node in drawing.side:
        looks["fillcolor"] = quoted(SIDE)
    is_cut = any(drawing.is_cut(drawing.arcs[place]) for place in roles)
    color = UNUSED if is_shut else CUT if is_cut else None
    if color:
        looks["color"] = looks["fontcolor"] = quoted(color)
    return drawn_line(str(node), looks)


def _role_of(drawing: Drawing, place: int) -> tuple[str, str]:
    """Return the kind of the role that an arc stands for, and its amount."""
    role = drawing.folding.role(*drawing.arcs[place][:2])
    assert role
    return role.kind, drawing.amount(place, "at most ")


def arc_line(drawing: Drawing, place: int) -> str:
    arc, flow = drawing.arcs[place], drawing.flows[place]
    shown = drawing.amount(place)
    name = drawing.problem.arc_names.get(place + 1)
    lines = [name, shown, drawing.both_ways.get(place)]
    looks = {"label": quoted(*(it for it in lines if it is not None))}
    if arc.is_closed:
        looks["style"] = quoted("dashed")
    elif flow and flow == arc.capacity:
        looks["penwidth"] = FULL
    color = CUT if drawing.is_cut(arc) else UNUSED if flow == 0 or arc.is_closed else None
    if color:
        looks["color"] = looks["fontcolor"] = quoted(color)
    if place in drawing.pointing:
        looks["dir"] = drawing.pointing[place]
    tail, head = drawing.ends(place)
    return drawn_line(f"{tail} -> {head}", looks)


def picture(drawing: Drawing, most: int) -> Iterator[str]:
    """Yield the lines of the text for Graphviz. If there are more than `most` arcs, only those
    nearest the cut are drawn."""
    arcs = drawing.drawn
    is_whole = len(arcs) <= most
    places: Sequence[int] = arcs if is_whole else nearest(drawing, most)
    drawn = Counter(node for place in places for node in drawing.ends(place))
    all_of = Counter(node for place in arcs for node in drawing.ends(place))
    yield "digraph dmf {\n  rankdir=LR"
    yield '  node [fontname="Helvetica"]\n  edge [fontname="Helvetica", fontsize=11]'
    legend = drawing.problem.described.measure.legend
    notes = [legend] * bool(legend)
    notes += [f"{len(places)} of {len(arcs)} arcs: those nearest the cut"] * (
        not is_whole
    ) + drawing.notes
    if notes:
        yield f"  label={quoted(*notes)}"
    nodes: Iterable[int] = drawn
    if is_whole:
        nodes = (
            drawing.nodes()
            if drawing.problem.node_count <= most
            else {*drawn, *drawing.terminals()}
        )
    for node in sorted(nodes):
        yield node_line(drawing, node, drawn[node] == all_of[node])
    for place in places:
        yield arc_line(drawing, place)
    yield "}"


def graphviz(text: bytes, engine: str, *words: str, patience: int = 20) -> bytes:
    """Return what a Graphviz engine makes of a text, called with these words.

    Raises FileNotFoundError if Graphviz is not installed, OSError if it does not start, and
    RuntimeError if it fails or takes more than `patience` seconds.
    """
    # Imported here, since a text for Graphviz needs neither.
    import shutil
    import subprocess

    program = shutil.which(engine)
    if not program:
        raise FileNotFoundError(
            errno.ENOENT, "a picture needs Graphviz, which is not installed", engine
        )
    pipe = subprocess.PIPE
    with subprocess.Popen(
        [program, *words], stdin=pipe, stdout=pipe, stderr=pipe, start_new_session=True
    ) as process:
        running.note(process)
        try:
            drawn, said = process.communicate(text, timeout=patience)
        except subprocess.TimeoutExpired:
            process.kill()
            raise RuntimeError(f"Graphviz did not finish in {patience} seconds") from None
        except BaseException:
            process.kill()
            raise
        finally:
            running.forget(process)
    if process.returncode:
        told = said.decode(errors="replace").strip().splitlines()
        raise RuntimeError(
            f"Graphviz did not draw it: {told[-1] if told else f'status {process.returncode}'}"
        )
    return drawn
