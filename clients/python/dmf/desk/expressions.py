"""What a planner types at the desk: amounts, also relative to the present one, as in `+10 %`, and
conditions, as in `flow > 5`."""

from __future__ import annotations

import operator
import re
from collections.abc import Callable

from ..quantity import (
    EXACT,
    Measure,
    Quantity,
    QuantityFault,
    magnitude,
    number_in,
    plain_text,
    readings,
)
from ..text.spelling import folded, quoted_name
from .steps import DeskFault
from .workspace import Desk

_CHANGE = re.compile(r"([+\-\u2212]?)\s*(.*?)\s*(%?)", re.DOTALL)


def is_amount(text: str) -> bool:
    """Return True if a text can be an amount, or a change of one."""
    change = _CHANGE.fullmatch(text)
    return change is not None and bool(readings(change[2]))


def amount(text: str, measure: Measure, present: Quantity | None = None) -> Quantity:
    """Return the amount that a text means: `47,3`, `12 l/s`. If there is a present one, `+10 %`,
    `-5` and `+2,5` change it. Raise a `DeskFault`, also if the text can be read in two ways."""
    wanted = text.strip()
    if not wanted:
        raise DeskFault("expected a number")
    plain = (
        wanted.removesuffix(measure.unit).rstrip()
        if measure.unit and wanted != measure.unit
        else wanted
    )
    change = _CHANGE.fullmatch(plain)
    try:
        by = number_in(change[2] if change else plain, measure.sign)
        if not change or not change[1] + change[3]:
            return by
        if not change[1]:
            raise QuantityFault("is a share: write it with + or - before it, or the whole amount")
        if present is None:
            raise QuantityFault("changes an amount, and there is none yet")
        by = EXACT.multiply(by, present).scaleb(-2, EXACT) if change[3] else by
        after = EXACT.add(present, by) if change[1] == "+" else EXACT.subtract(present, by)
        if after < 0:
            raise QuantityFault(
                f"changes {plain_text(present)} to {plain_text(after)}, which is below 0"
            )
        return after
    except QuantityFault as fault:
        raise DeskFault(f"{quoted_name(wanted)} {fault}") from None


def capacities(desk: Desk, number: int, text: str, back: str = "") -> dict[int, Quantity]:
    """Return the capacities that a text gives the open arcs of a pipe. One that leads both ways
    gets it each way, or the other one back if there are two; and a change is one of what it has
    that way. Raise a `DeskFault`."""
    network = desk.network
    arcs = network.both_arcs(number) if back else network.open_arcs(number)
    return {
        arc: amount(wanted, network.measure, network.lines[arc - 1].capacity)
        for arc, wanted in zip(arcs, (text, back or text))
    }


COMPARED: dict[str, Callable[[Quantity, Quantity], bool]] = {
    "<": operator.lt,
    "<=": operator.le,
    "=": operator.eq,
    ">=": operator.ge,
    ">": operator.gt,
    # As some write them.
    "=<": operator.le,
    "≤": operator.le,
    "=>": operator.ge,
    "≥": operator.ge,
}
Condition = Callable[[int], bool]


def condition(desk: Desk, words: list[str]) -> Condition | None:
    """Return a predicate on pipes: `full`, `limit`, `name ~ TEXT` (in any case; also of `from` and
    `to`, each of which is either end of one that leads both ways), or `capacity < NUMBER` (also of
    `flow`, and with `<=`, `=`, `>=`, `>`). Return None if the words are not a condition. Raise a
    `DeskFault` if it cannot be decided."""
    network = desk.network
    pipe, quantity = network.pipes.pipe, network.measure.quantity
    if words == ["full"]:
        flows = desk.flows()
        return lambda number: pipe(number).is_full(quantity(flows[number - 1]))
    if words == ["limit"]:
        if not desk.is_greatest:
            raise DeskFault(desk.network.words.limit_not_known)
        return desk.cut_arcs().__contains__
    if len(words) < 3:
        return None
    what, sign, text = words[0], words[1], " ".join(words[2:])
    names: dict[str, Callable[[int], list[str]]] = {
        "name": lambda number: [network.names.arc_name(number)],
        "from": network.tails,
        "to": network.heads,
    }
    if what in names and sign == "~":
        sought = folded(text)
        return lambda number: any(sought in folded(name) for name in names[what](number))
    if what not in ("capacity", "flow") or sign not in COMPARED:
        return None
    is_so, bound = COMPARED[sign], amount(text, network.measure)
    if what == "capacity" and not network.pipes.are_two_way:
        return lambda number: is_so(pipe(number).capacity, bound)
    flows = desk.flows()
    if what == "capacity":
        # As it is shown: the way that it flows.
        return lambda number: is_so(pipe(number).room(flows[number - 1]), bound)
    return lambda number: is_so(magnitude(quantity(flows[number - 1])), bound)


def successors(desk: Desk) -> dict[int, int]:
    """Return the arcs that were closed and opened again, with what they are now."""
    network = desk.network
    added = enumerate(network.lines[network.first_count :], network.first_count + 1)
    again = [(number, line.first) for number, line in added if line.first]
    last = {first: number for number, first in again}
    return {**last, **{number: last[first] for number, first in again if last[first] != number}}
