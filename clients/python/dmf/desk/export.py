"""Texts of a desk to take along: its plan as a table, its problem, and its picture for Graphviz."""

from __future__ import annotations

import os
import time
from dataclasses import dataclass
from pathlib import Path
from typing import cast

from ..quantity import magnitude
from ..tables.other_columns import Extra
from ..tables.table_writer import Told, WriterRow, plan_text
from ..text.both_ways import of_pairs
from ..text.drawing import NOWHERE, Drawing, graphviz, picture
from ..text.lexical import ARC, NODE, display
from ..text.problem_text import ArcRecord, Problem, carrying
from ..text.spelling import written
from ..text.table_comments import renumbered, table_comments
from .pipes import TwoWayPipe, told_beside
from .steps import DeskArc, DeskFault
from .workspace import Desk

MOST_DRAWN = 300
# The most time that Graphviz may take, in seconds.
PATIENCE = 60
DRAWN = {".svg": "svg", ".png": "png", ".pdf": "pdf"}
# The title of the column that says of which plan a table is.
SAID = "said of the plan"


def said_of(desk: Desk) -> list[str]:
    """Return what is said of a plan that is taken along: of which network it is, its value, its
    scenario, and the day."""
    network = desk.network
    source, sink = map(network.names.terminal, (network.source, network.sink))
    most = f"{'at most ' * desk.is_greatest}{network.told(desk.value)} from {source} to {sink}"
    said = f"{display(os.path.basename(network.subject.path))}: {most}"
    scenario = f"scenario {display(desk.state.scenario)}, " * bool(desk.state.scenario)
    return [said, f"{scenario}{time.strftime('%Y-%m-%d')}"]


@dataclass(frozen=True)
class _SaidColumns(Extra):
    """The other columns of a table, and one more that says, in the row of this arc, which plan it
    is."""

    text: str = ""
    row: int = 0

    def of(self, number: int) -> list[str]:
        return [*super().of(number), self.text * (number == self.row)]


def _columns(desk: Desk, row: int) -> Extra:
    """Return the other columns of a plan's table. That of a project has one more, which replaces
    the one of an older plan."""
    extra = desk.network.subject.extra
    if not desk.state.scenario:
        return extra
    kept = [at for at, title in enumerate(extra.titles) if title != SAID]
    titles = [*(extra.titles[at] for at in kept), SAID]
    return _SaidColumns(
        titles, [extra.columns[at] for at in kept], extra.ways, "; ".join(said_of(desk)), row
    )


def table(desk: Desk) -> str:
    """Return the open arcs as the table that `dmf-names --csv` writes; that of a project says in
    one more column of which plan it is. If the flow is not greatest, the column of the cut is
    empty."""
    network = desk.network
    crossing = desk.limit().arcs if desk.is_greatest else None
    flows = map(network.measure.quantity, desk.arc_flows())
    arcs = [
        WriterRow(
            number,
            line.tail,
            line.head,
            line.capacity,
            flow,
            None if crossing is None else number in crossing,
        )
        for (number, line), flow in zip(enumerate(network.lines, 1), flows)
        if not line.is_closed
    ]
    ends = network.source, network.sink
    names = network.names
    first = next((arc.number for arc in arcs if not network.role(arc.number)), 0)
    extra = _columns(desk, row_of(desk, first) if first else 0)
    told = Told(
        network.folding,
        names.node,
        names.arc_name,
        ends,
        extra,
        lambda number: row_of(desk, number),
        network.limited(),
        tuple(network.pipes.pairs(arc.number for arc in arcs)),
    )
    return plan_text(arcs, told, network.measure, raw_names=network.subject.raw_names)


def row_of(desk: Desk, number: int) -> int:
    """Return the number that an arc had before it was opened again, by which its row has other
    columns."""
    return desk.network.line(number).first or number


def problem(desk: Desk) -> str:
    """Return the problem of the open arcs, with what comments say of its table and its columns and
    the names of places and arcs; what cannot be written of a name is escaped. It needs no session,
    so that it can be had where that has ended."""
    network = desk.network
    names = network.names
    opened = {number: line for number, line in enumerate(network.lines, 1) if not line.is_closed}
    labels = ((number, names.given_node(number)) for number in range(1, names.node_count + 1))
    nodes = "".join(
        f"c node {number} {written(NODE, number, label)}\n"
        for number, label in labels
        if label != str(number)
    )
    keys = ((place, names.given_arc(number)) for place, number in enumerate(opened, 1))
    arcs = "".join(
        f"c arc {place} {written(ARC, place, key)}\n" for place, key in keys if key.strip(" \t")
    )
    head = f"p max {names.node_count} {len(opened)}\nn {network.source} s\nn {network.sink} t\n"
    whole = network.measure.whole
    lines = "".join(
        f"a {line.tail} {line.head} {whole(line.capacity)}\n" for line in opened.values()
    )
    said = renumbered(
        network.subject.described,
        ((line.tail, line.head) for line in opened.values()),
        of_pairs(network.pipes.pairs(opened)),
        network.limited(),
    )
    columns = network.subject.extra.comments(row_of(desk, number) for number in opened)
    plan = "".join(f"c plan {line}\n" for line in said_of(desk)) if desk.state.scenario else ""
    return table_comments(said) + plan + nodes + arcs + columns + head + lines


def drawing(desk: Desk) -> Drawing:
    """Return what a picture of the desk shows. An arc that was opened again is drawn once, and so
    is a pipe that leads both ways, the way that it flows."""
    network = desk.network
    there = [number for number, line in enumerate(network.lines, 1) if not line.is_replaced]
    numbers = network.pipes.numbers(there)
    pipes = network.pipes.of(numbers)
    amounts = desk.flows_on(numbers)
    names = network.names
    labels = {number: names.node(number) for number in range(1, names.node_count + 1)}
    arc_names = {
        place: names.arc_name(number)
        for place, number in enumerate(numbers, 1)
        if names.arc_name(number)
    }
    drawn = Problem(
        len(labels),
        network.source,
        network.sink,
        [],
        labels,
        arc_names,
        network.subject.described,
    )
    flows = [None if pipe.is_closed else magnitude(flow) for pipe, flow in zip(pipes, amounts)]
    side = desk.side() if desk.is_greatest else set()
    lines = arcs_of([pipe.way(flow) for pipe, flow in zip(pipes, amounts)])
    notes = [*said_of(desk), network.words.caption] if desk.state.scenario else []
    return Drawing(
        drawn,
        lines,
        flows,
        side,
        set(network.shut_nodes),
        notes,
        has_quantities=True,
        limited=network.limited(),
        pointing={
            place: NOWHERE
            for place, (pipe, flow) in enumerate(zip(pipes, amounts))
            if isinstance(pipe, TwoWayPipe) and not flow
        },
        both_ways={
            place: told
            for place, (pipe, flow) in enumerate(zip(pipes, amounts))
            if (told := told_beside(pipe, flow, network.told_ends(pipe)))
        },
    )


def arcs_of(lines: list[DeskArc]) -> list[ArcRecord]:
    """Return lines as arcs of a drawing: a line has all that a drawing reads of an arc."""
    return cast(list[ArcRecord], lines)


def picture_text(desk: Desk) -> str:
    """Return the text of the picture that `dmf-dot` draws."""
    return "".join(f"{line}\n" for line in picture(drawing(desk), MOST_DRAWN))


def taken(desk: Desk, data: bytes) -> bytes:
    """Return a picture or a page of a desk to take along, which carries the problem."""
    return carrying(data, problem(desk))


def drawn(desk: Desk, path: str, engine: str = "dot", *words: str) -> bytes:
    """Return the picture of a desk, as the end of a file's name says, by an engine of Graphviz with
    these words. Raise a `DeskFault`."""
    text = picture_text(desk)
    kind = DRAWN.get(Path(path).suffix)
    if kind is None:
        return text.encode()
    try:
        return graphviz(text.encode(), engine, f"-T{kind}", *words, patience=PATIENCE)
    except FileNotFoundError:
        raise DeskFault(
            "Graphviz, which draws it, is not installed; its program is called dot. A FILE.dot can "
            "be had"
        ) from None
    except RuntimeError as error:
        raise DeskFault(str(error)) from None
