"""What a board tells of a place in JSON: the place as it is, and which place a text names."""

from __future__ import annotations

from ...quantity import Quantity, magnitude, plain_text
from ...session.base import Part
from ...text.spelling import cleaned, nearest
from ..steps import DeskFault, Place, UnknownPlace
from ..workspace import Desk
from ..worth import left_without_place
from .responses import Json
from .views import NOT_KNOWN, arc_views, told_worth

# How many pipes at a place are listed each way.
MOST_THERE = 100


def _place_worth(desk: Desk, place: Place) -> Json:
    """Return what is left without a place, and what is lost, which are empty while that is not
    known."""
    worth = desk.state.answers.worth.get(Part.NODE)
    if worth is None:
        return NOT_KNOWN
    return told_worth(desk, worth, left_without_place(desk, worth, place))


def place_view(desk: Desk, node: int) -> Json:
    """Return a place as it is. Raise a `DeskFault` if no place has this number."""
    network = desk.network
    place = network.names.place_of(node)
    entering, leaving = _through(desk, place)
    return {
        "node": node,
        "name": network.names.node(node),
        "in": plain_text(sum(entering.values())),
        "out": plain_text(sum(leaving.values())),
        "entering": arc_views(desk, _widest(entering)),
        "leaving": arc_views(desk, _widest(leaving)),
        "more": [max(0, len(it) - MOST_THERE) for it in (entering, leaving)],
        "roles": _role_views(desk, place),
        "is_source": place.entry in network.sources,
        "is_sink": place.entry in network.sinks,
        "shut": bool(network.shut_nodes & set(place)),
        "open": bool(entering or leaving),
        "side": node in desk.side(),
        **_place_worth(desk, place),
    }


def _role_views(desk: Desk, place: Place) -> list[Json]:
    """Return what a place gives, takes or lets through as arcs, each with which of these it is."""
    kinds = dict(desk.network.roles().get(place.entry, ()))
    return [{**arc, "kind": kinds[arc["number"]]} for arc in arc_views(desk, [*kinds])]


def _widest(flows: dict[int, Quantity]) -> list[int]:
    """Return the pipes that carry most, the first ones of the table if several carry as much."""
    return sorted(flows, key=lambda number: (-flows[number], number))[:MOST_THERE]


def _through(desk: Desk, place: Place) -> tuple[dict[int, Quantity], dict[int, Quantity]]:
    """Return the open pipes that lead into a place and out of it, each with what it brings or
    takes. One that leads both ways is told once, where it flows."""
    network = desk.network
    lines, pipes = network.lines, network.pipes
    entering: dict[int, Quantity] = {}
    leaving: dict[int, Quantity] = {}
    there = [
        number
        for number in network.opened_pipes()
        if any(
            lines[arc - 1].head == place.entry or lines[arc - 1].tail == place.exit
            for arc in pipes.arcs(number)
        )
    ]
    for number, flow in zip(there, desk.flows_on(there)):
        way = pipes.pipe(number).way(flow)
        if way.head == place.entry:
            entering[number] = magnitude(flow)
        if way.tail == place.exit:
            leaving[number] = magnitude(flow)
    return entering, leaving


def end_view(desk: Desk, text: str) -> Json:
    """Return the place that a text names as the end of a new arc: its node, or 0 if there is none.
    Then also the names that are similar, and why no place can be made of this name, if that is
    so."""
    names = desk.network.names
    names.is_any_case = True
    node, near, why = 0, list[str](), ""
    try:
        node = names.place(text).entry
    except UnknownPlace:
        near = nearest(cleaned(text), names.places)
        try:
            names.new_name(text)
        except DeskFault as fault:
            why = str(fault)
    except DeskFault as fault:
        why = str(fault)
    return {"node": node, "near": near, "why": why}
