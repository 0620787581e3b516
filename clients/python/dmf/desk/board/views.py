"""What a board tells in JSON: the state of the desk, the scenarios of a project, and a choice of
many arcs."""

from __future__ import annotations

import os
from collections.abc import Sequence
from decimal import Decimal

from ...quantity import EXACT, Quantity, magnitude, moved, plain_text
from ...session.base import Part, ValuesWithout
from ...text.spelling import cleaned
from ...text.table_comments import DEMAND
from ..analysis import cheapest, priced, prices
from ..demands import demand_sentence, limited_amounts, total
from ..expressions import amount, successors
from ..pipes import TwoWayPipe, other_way, way_sign
from ..project.scenarios import Scenarios
from ..seconds import MOST_SECONDS, best_seconds
from ..steps import Second
from ..workspace import Desk
from ..worth import MOST_PAIRS, left_without, losses, worst, worst_pairs, worst_places
from .responses import Json, whole


def many_view(desk: Desk, numbers: list[int]) -> Json:
    """Return which of these pipes exist, open and closed, and the sums of the flows and the
    capacities of the open ones. One that was opened again has its new number."""
    network = desk.network
    now = successors(desk)
    found = dict.fromkeys(now.get(number, number) for number in numbers)
    there = network.pipes.numbers(
        number
        for number in found
        if 0 < number <= len(network.lines) and not network.lines[number - 1].is_replaced
    )
    pipes = {number: network.pipes.pipe(number) for number in there}
    opened = [number for number, pipe in pipes.items() if not pipe.is_closed]
    flow: Quantity = 0
    capacity: Quantity = 0
    for number, flowing in zip(opened, desk.flows_on(opened)):
        flow = EXACT.add(flow, magnitude(flowing))
        capacity = EXACT.add(capacity, pipes[number].room(flowing))
    return {
        "open": opened,
        "closed": [number for number, pipe in pipes.items() if pipe.is_closed],
        "flow": plain_text(flow),
        "capacity": plain_text(capacity),
    }


def kept_view(desk: Desk, offer: str) -> Json:
    """Return the file that the steps are written to and the scenario in it; why they are not
    written, if this desk is read-only; how many steps the scenario began with, which it does not
    undo; and the file that is offered for a project, if there is none."""
    project = Scenarios.of(desk)
    if project is None:
        return {
            "kept_in": "",
            "scenario": "",
            "why_not": "",
            "floor": 0,
            "offer": os.path.basename(offer),
        }
    scenario, kept_in = project.scenario, os.path.basename(project.file.path)
    return {
        "kept_in": kept_in,
        "scenario": scenario.name,
        "why_not": project.file.why_not,
        "floor": scenario.inherited,
        "offer": "",
    }


def scenarios_view(desk: Desk) -> Json:
    """Return the scenarios, each with its value as it was kept, and the value of the table's
    network."""
    project = Scenarios.of(desk)
    if project is None:
        return {"base": "", "scenarios": []}
    base = desk.steps[0].value
    found = [
        {
            "name": it.name,
            "from": it.begun_from,
            "note": it.note,
            "steps": it.at,
            "undone": len(it.steps) - it.at,
            "value": project.kept_value(it),
            "by": moved(base, Decimal(project.kept_value(it))),
            "left_out": [step.text for step in it.left_out],
        }
        for it in project.project.scenarios
    ]
    return {"base": plain_text(base), "scenarios": found}


MOST_LISTED, MOST_SIDE = 300, 30


def words_view(desk: Desk) -> Json:
    """Return the words that a page has for this network, in which no step changes anything. What
    is in the bottleneck, `crosses`, leaves in braces what differs from state to state."""
    network = desk.network
    words = network.words
    noun, unit = network.subject.noun or "connection", network.measure.told_unit
    ends = network.sources, network.sinks
    filled = {
        "source": network.told_source,
        "sink": network.told_sink,
        "arc": noun,
        "unit": f" {unit}" if unit else "",
        "measure": unit or "time",
    }
    return {
        **{name: text.format(**filled) for name, text in words.page._asdict().items()},
        "tasks": words.page.tasks(*(list(map(network.names.node, it)) for it in ends)),
        "arc": noun,
        "severed": words.severed.format(**filled),
        "crosses": words.crosses,
        "crosses_one": words.crosses_one,
        "demand_titles": words.demand_titles,
        "shades": words.shades,
    }


def state_view(desk: Desk, words: Json, offer: str = "") -> Json:
    """Return what the page shows beside the picture and the table, in these words. `offer` is in
    which file a project can be made."""
    network = desk.network
    names = network.names
    limit, steps, value = desk.limit(), desk.steps, desk.value
    cut, side = list(limit.arcs), names.side(limit.side)
    return {
        "title": network.subject.path,
        "unit": network.measure.told_unit,
        "notes": list(network.subject.notes),
        "source": network.told_source,
        "sink": network.told_sink,
        "value": plain_text(value),
        "words": words,
        "arcs": len(network.pictured()),
        # After an undo, the numbers after these are given to other arcs.
        "given": network.first_count,
        "places": len(names.places),
        **kept_view(desk, offer),
        "flows_follow": desk.flows_follow,
        "at": desk.at - 1,
        "by": moved(steps[0].value, value),
        "steps": [{"text": it.text, "value": it.told_value, "by": it.by} for it in steps],
        "limit": arc_views(desk, cut[:MOST_LISTED]),
        "limit_count": len(cut),
        "side": side[:MOST_SIDE],
        "side_count": len(side),
        **(
            demands_view(desk)
            if network.folding.has_roles and not desk.flows_follow
            else NO_DEMANDS
        ),
        "names": list(names.places)[:MOST_LISTED],
    }


# What is told of demands if there are none, or they are not known yet.
NO_DEMANDS: Json = {"demands": "", "asked": "", "short": [], "short_count": 0}


def demands_view(desk: Desk) -> Json:
    """Return whether all demands are met, or which are short, in a sentence; how much all places
    ask for; and those that are short, the largest shortage first. All is empty if no place asks for
    a limited amount."""
    found = limited_amounts(desk, DEMAND)
    short = {node: it for node, it in found.items() if it.short > 0}
    largest_first = sorted(short.items(), key=lambda it: -it[1].short)
    return {
        "demands": demand_sentence(desk, found),
        "asked": plain_text(total(it.limit for it in found.values())) if found else "",
        "short": [
            {
                "node": node,
                "name": desk.network.names.node(node),
                "flow": plain_text(it.flow),
                "limit": plain_text(it.limit),
                "missing": plain_text(it.short),
            }
            for node, it in largest_first[:MOST_LISTED]
        ],
        "short_count": len(short),
    }


def arc_view(desk: Desk, number: int) -> Json:
    """Return the pipe that an arc is of, with what a second one beside it gains, which is empty
    while that is not known. Raise a `DeskFault` if no arc has this number."""
    network = desk.network
    network.line(number)
    pipe = network.pipes.number(number)
    gain = (desk.state.answers.gains or {}).get(pipe)
    won = "" if gain is None else plain_text(network.measure.quantity(gain))
    return {**with_worth(desk, arc_views(desk, [pipe]))[0], "won": won}


def arc_views(desk: Desk, numbers: Sequence[int]) -> list[Json]:
    """Return these pipes as they are. Of one that leads both ways they have the capacity for the
    way that it flows, which `way` is the sign of, what it can carry the other way if that is
    something else, and its capacities there and back if both ways are open."""
    network, cut = desk.network, desk.cut_arcs()
    names_of, flows = network.names.arc_names, desk.flows_on(numbers)
    found = []
    for number, pipe, flow in zip(numbers, network.pipes.of(numbers), flows):
        names = names_of(number)
        capacity, looks = pipe.capacity, {"way": "", "other_way": "", "there": "", "back": ""}
        if isinstance(pipe, TwoWayPipe):
            capacity, other = pipe.room(flow), other_way(pipe, flow, (names.tail, names.head))
            looks.update(way=way_sign(pipe, flow), other_way=other)
            if not pipe.is_partly_closed:
                ways = plain_text(pipe.there.capacity), plain_text(pipe.back.capacity)
                looks["there"], looks["back"] = ways
        found.append(
            {
                "number": number,
                "node": names.role.node if names.role else 0,
                "name": names.name,
                "label": names.label,
                "short": names.short,
                "tail_node": names.tail_node,
                "head_node": names.head_node,
                "tail": names.tail,
                "head": names.head,
                "flow": plain_text(-flow if flow < 0 else flow),
                "capacity": plain_text(capacity),
                **looks,
                "closed": pipe.is_closed,
                "replaced": pipe.is_replaced,
                "unlimited": pipe.is_unlimited,
                "full": flow != 0 and flow in (capacity, -capacity),
                "limit": number in cut,
            }
        )
    return found


def with_worth(desk: Desk, arcs: list[Json]) -> list[Json]:
    """Return what is told of arcs, with what is left without each and what is lost, which are empty
    while that is not known."""
    worth = desk.state.answers.worth.get(Part.ARC)
    if worth is None:
        return [{**arc, **NOT_KNOWN} for arc in arcs]
    left = [left_without(desk, worth, arc["number"]) for arc in arcs]
    return [{**arc, **told_worth(desk, worth, it)} for arc, it in zip(arcs, left)]


def told_worth(desk: Desk, worth: ValuesWithout, left: int) -> Json:
    """Return what is left without an arc or a place, and what is lost."""
    quantity = desk.network.measure.quantity
    return {
        "without": plain_text(quantity(left)),
        "lost": plain_text(quantity(worth.value - left)),
    }


# How many arcs and places are listed as the worst to lose, and the losses of how many are told.
MOST_WORST, MOST_LOSSES = 10, 5_000
# What is told of an arc or a place while it is not known what is left without it.
NOT_KNOWN = {"without": "", "lost": ""}


def worth_view(desk: Desk) -> Json:
    """Return the arcs and the places that are worst to lose, how many more of each cost something,
    the worst pairs, the arcs that are best to have twice, the loss of each arc of the table by its
    number: of many, those of the worst; and the last number of an arc. Nothing is known if the
    search failed, or the network is too large."""
    if not desk.state.answers.knows_worth:
        nothing: Json = {"worst": [], "more": 0}
        unknown: Json = {"places": nothing, "seconds": None, "pairs": None, "losses": {}, "last": 0}
        return {"is_known": False, **nothing, **unknown}
    found, more = worst(desk, MOST_LOSSES)
    pictured = [] if more else desk.network.pictured()
    told = losses(desk, pictured) if len(found) <= len(pictured) <= MOST_LOSSES else found
    return {
        "is_known": True,
        "worst": with_worth(desk, arc_views(desk, [it.number for it in found[:MOST_WORST]])),
        "more": more + max(0, len(found) - MOST_WORST),
        "places": _worst_places(desk),
        "seconds": _best_seconds(desk),
        "pairs": _worst_pairs(desk),
        "losses": {it.number: plain_text(it.loss) for it in told},
        "last": len(desk.network.lines),
    }


def _worst_places(desk: Desk) -> Json:
    """Return the places that are worst to lose, and how many more cost something."""
    found, more = worst_places(desk, MOST_WORST)
    told = [
        {
            "node": it.number,
            "name": desk.network.names.node(it.number),
            "without": plain_text(it.left),
            "lost": plain_text(it.loss),
        }
        for it in found
    ]
    return {"worst": told, "more": more}


def _worst_pairs(desk: Desk) -> list[Json] | None:
    """Return the pairs of arcs that cost most to lose together, or None if they are not known: they
    are still being found, the search failed, or the network is too large."""
    if MOST_PAIRS not in desk.state.answers.pairs:
        return None
    return [
        {
            "arcs": arc_views(desk, it.numbers),
            "without": plain_text(it.left),
            "lost": plain_text(it.loss),
        }
        for it in worst_pairs(desk, MOST_PAIRS)
    ]


def _best_seconds(desk: Desk) -> Json | None:
    """Return the arcs beside which a second one gains most, and how many more gain something; None
    if that is not known."""
    found = best_seconds(desk, MOST_SECONDS)
    if found is None:
        return None
    best, more = found
    arcs = arc_views(desk, [it.number for it in best])
    return {
        "best": [
            {**arc, "doubled": plain_text(it.doubled), "gain": plain_text(it.gain)}
            for arc, it in zip(arcs, best)
        ],
        "more": more,
    }


def costs_view(desk: Desk, column: str, to: str, second: str) -> Json:
    """Return what each unit more costs at each arc of the limit, or a second arc beside it, by a
    column of the table, and a cheap way to a greater value, found greedily. `second` is 1 for
    second arcs. Raise a `DeskFault` if no column can be the cost."""
    is_second = bool(whole(second, "second"))
    given = prices(desk, cleaned(column), is_second=is_second)
    way = cheapest(desk, given, amount(to, desk.network.measure) if to.strip() else None)
    costs = priced(desk, given)
    limit = [
        {**arc, "price": "" if price is None else plain_text(price)}
        for arc, price in zip(arc_views(desk, [*costs]), costs.values())
    ]
    bought = [
        {
            "wider": [{**arc_view(desk, number), "by": plain_text(by)} for number, by in it.wider],
            "cost": plain_text(it.cost),
            "total": plain_text(it.total),
            "value": plain_text(it.value),
        }
        for it in way.bought
    ]
    return {
        "title": given.title,
        "second": is_second,
        "limit": limit[:MOST_LISTED],
        "limit_count": len(limit),
        "way": bought,
        "end": way.end,
    }


# The number of digits of a session's largest number.
DIGITS = 20


def second_view(desk: Desk, second: Second) -> Json:
    """Return the greatest value if an arc has a second one beside it, or nothing if that is too
    large; what it brings, or nothing if it brings none; and the same in digits of one length, which
    sorts as texts do."""
    doubled = second.doubled
    won: Quantity = 0 if doubled is None else EXACT.subtract(doubled, desk.value)
    network = desk.network
    return {
        "number": second.arc,
        "short": network.names.short(second.arc),
        "doubled": "" if doubled is None else plain_text(doubled),
        "won": plain_text(won) if won else "",
        "gain": f"{network.measure.whole(won):0{DIGITS}d}",
    }
