"""What the sources of a table offer and its sinks ask for, and how much of it the present flow
carries."""

from __future__ import annotations

from collections.abc import Iterable, Mapping
from typing import NamedTuple

from ..quantity import EXACT, Quantity, plain_text
from ..text.table_comments import listed
from .workspace import Desk

MOST_NAMED = 5


class LimitedAmount(NamedTuple):
    """What flows at a source or a sink, and the most that it gives or takes."""

    flow: Quantity
    limit: Quantity

    @property
    def short(self) -> Quantity:
        """Return what is missing."""
        return EXACT.subtract(self.limit, self.flow)

    @property
    def text(self) -> str:
        return f"{plain_text(self.flow)} of {plain_text(self.limit)}"


def limited_amounts(desk: Desk, kind: str) -> dict[int, LimitedAmount]:
    """Return the amounts at the sources (`SUPPLY`) or sinks (`DEMAND`) that have a limit, by the
    nodes of their places. A place that is shut still asks for what it asked for."""
    network = desk.network
    numbers = {
        node: number
        for node, roles in network.roles().items()
        for number, role in roles
        if role == kind and not network.lines[number - 1].is_unlimited
    }
    limits = (line.capacity for line in network.lines.of([*numbers.values()]))
    flows = desk.flows_on([*numbers.values()])
    return {node: LimitedAmount(*it) for node, *it in zip(numbers, flows, limits)}


def total(amounts: Iterable[Quantity]) -> Quantity:
    found: Quantity = 0
    for it in amounts:
        found = EXACT.add(found, it)
    return found


def demand_sentence(desk: Desk, demands: Mapping[int, LimitedAmount]) -> str:
    """Return whether all demands are met, or which are short: at most five of them by name."""
    network = desk.network
    short = {node: it for node, it in demands.items() if it.short > 0}
    if not short:
        return network.words.met if demands else ""
    missing = total(it.short for it in short.values())
    names = (f"{network.names.node(node)} ({it.text})" for node, it in short.items())
    return f"short by {network.told(missing)}: {listed(names, MOST_NAMED)}"
