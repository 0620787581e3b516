"""The source and the sink of a network whose tables name none: the one place that can be meant, or
a question."""

from __future__ import annotations

from ..errors import TableFault
from ..text.lexical import display
from ..text.spelling import MOST_TOLD, quoted_name
from .arcs_and_places import Term
from .lone_ends import ends_alone
from .problem_builder import KINDS, NetworkTables
from .titles import DEMAND, SUPPLY


def complete(plan: NetworkTables) -> list[str]:
    """Add the source or the sink if the plan has none and just one place can be meant, and says so.
    Raises a `TableFault` otherwise."""
    notes = []
    for kind, way in (SUPPLY, "leads to"), (DEMAND, "leads away from"):
        if not plan.of_kind(kind):
            place = _only_place(plan, kind, way)
            plan.terms.append(Term(kind, place, None))
            notes.append(
                f"the {KINDS[kind]} is {quoted_name(place)}, the one place that nothing {way}"
            )
    return notes


def _only_place(plan: NetworkTables, kind: str, way: str) -> str:
    """Return the only place that arcs leave and none enters, or the other way round. Raises a
    `TableFault` if there is not exactly one."""
    table = plan.arcs
    # Of two ways, each place is left and entered.
    alone = ([], []) if plan.both_ways else ends_alone(table.tails, table.heads)
    names = list(table.places)
    found = [names[number - 1] for number in alone[0 if kind == SUPPLY else 1]]
    taken = {term.place for kind in KINDS for term in plan.of_kind(kind)}
    if len(found) == 1 and found[0] not in taken:
        return found[0]
    where = "does it flow from" if kind == SUPPLY else "does it flow to"
    choice = found or names
    listed = ", ".join(map(quoted_name, choice[:MOST_TOLD])) + (
        ", .." if len(choice) > MOST_TOLD else ""
    )
    why = (
        f"Nothing {way} any of these: {listed}"
        if found
        else f"Each place has something that {way} it; the places are {listed}"
    )
    many = ", as often as there are such places" if len(found) > 1 else ""
    fault = TableFault(f'where {where}? {why}; say --{KINDS[kind]} "{display(choice[0])}"{many}')
    fault.option, fault.answers = KINDS[kind], [
        (place, "") for place in choice if place not in taken
    ]
    raise fault
