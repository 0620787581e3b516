"""Pipes that lead both ways in a problem and its answers, each as a desk has it: as one pipe."""

from __future__ import annotations

from collections.abc import Sequence
from dataclasses import replace

from ..desk.pipes import TwoWayPipe, told_beside
from ..desk.steps import DeskArc
from ..quantity import Measure
from ..text.both_ways import TiedArcs
from ..text.drawing import NOWHERE, THERE_AND_BACK, Drawing
from ..text.problem_text import ArcRecord


def pipe_of(pair: tuple[int, int], arcs: Sequence[ArcRecord], measure: Measure) -> TwoWayPipe:
    """Return the pipe of two of these arcs, which are given by their numbers."""
    there, back = (
        DeskArc(it.tail, it.head, measure.quantity(it.capacity), it.is_closed)
        for it in (arcs[number - 1] for number in pair)
    )
    return TwoWayPipe(there, back)


def draw_pipes(drawing: Drawing, ties: TiedArcs) -> None:
    """Draw two tied arcs as one pipe: as the arc of the way that it flows, with the net flow. If
    nothing flows, that is the way that crosses the cut, or else the first."""
    problem, arcs, flows = drawing.problem, drawing.arcs, [*drawing.flows]
    names, left_out = dict(problem.arc_names), set()
    pointing, both_ways = {}, {}
    for first, second in ties.pairs():
        pipe = pipe_of((first, second), arcs, problem.described.measure)
        known = [flow for flow in (flows[first - 1], flows[second - 1]) if flow is not None]
        net = (flows[first - 1] or 0) - (flows[second - 1] or 0)
        shown, other = first, second
        if pipe.way(net) is pipe.back or not net and drawing.is_cut(arcs[second - 1]):
            pipe, net, shown, other = TwoWayPipe(pipe.back, pipe.there), -net, second, first
        left_out.add(other - 1)
        names[shown] = names.get(first, "")
        flows[shown - 1] = net if known else None
        if known or pipe.is_closed:
            pointing.update({shown - 1: NOWHERE} if not net else {})
        elif not pipe.is_partly_closed:
            pointing[shown - 1] = THERE_AND_BACK
        if told := told_beside(pipe, net, _ends(drawing, pipe)):
            both_ways[shown - 1] = told
    named = {number: name for number, name in names.items() if name}
    drawing.problem = replace(problem, arc_names=named)
    drawing.flows, drawing.left_out = flows, left_out
    drawing.pointing, drawing.both_ways = pointing, both_ways


def _ends(drawing: Drawing, pipe: TwoWayPipe) -> tuple[str, str]:
    """Return the names of the places at the ends of a pipe."""
    tail, head = map(drawing.folding.place, (pipe.tail, pipe.head))
    names = drawing.problem.node_names
    return names.get(tail, str(tail)), names.get(head, str(head))
