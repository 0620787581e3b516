"""What a request does to the desk: changes of one arc or of many, and of scenarios."""

from __future__ import annotations

from collections.abc import Callable
from typing import NamedTuple

from ...quantity import Quantity
from ...text.spelling import cleaned
from ...text.table_comments import listed
from ..expressions import amount, capacities
from ..project.scenarios import project_of
from ..steps import DeskFault, MakePlace, Place
from ..workspace import Desk
from .responses import Fields, Json

MOST_NAMED = 3


def _told(desk: Desk, numbers: list[int]) -> str:
    """Return the words of a step on several arcs, which are empty for one. Raise a `DeskFault` if
    there are no arcs, or one does not exist."""
    if not numbers:
        raise DeskFault(f"no {desk.network.words.noun} is chosen")
    for number in numbers:
        desk.network.line(number)
    if len(numbers) == 1:
        return ""
    noun, names = desk.network.words.noun, desk.network.names
    return f"{len(numbers)} {noun}s ({listed(map(names.short, numbers), MOST_NAMED)})"


def _cap_all(desk: Desk, content: Json) -> None:
    """Give each of some arcs a capacity, in one step."""
    numbers, text = content["arcs"], content["capacity"]
    told = _told(desk, numbers)
    wanted = {arc: it for number in numbers for arc, it in _capacities(desk, number, text).items()}
    desk.cap_each(wanted, f"{told}: {' '.join(text.split())}" if told else "")


def _capacities(desk: Desk, number: int, text: str) -> dict[int, Quantity]:
    """Return the capacities that a text gives a pipe. Raise a `DeskFault` that names it."""
    desk.network.open_arcs(number)
    try:
        return capacities(desk, number, text)
    except DeskFault as fault:
        raise DeskFault(f"{desk.network.names.short(number)}: {fault}") from None


def _cap(desk: Desk, content: Json) -> None:
    desk.cap_each(capacities(desk, content["arc"], content["capacity"]))


def _cap_ways(desk: Desk, content: Json) -> None:
    number, back = content["arc"], content["back"]
    if not back.strip():
        raise DeskFault("expected a number for each way")
    desk.cap_each(capacities(desk, number, content["capacity"], back))


def _add(desk: Desk, content: Json, head: Place | MakePlace) -> None:
    """Add an arc to a place, or to one that is made."""
    network = desk.network
    capacity = amount(content["capacity"], network.measure)
    tail = network.names.place_of(content["tail"])
    desk.add(tail, head, capacity, " ".join(content["name"].split()))


class BoardAct(NamedTuple):
    """An act that a page can ask for: the fields that it gives beside the turn, and the function
    that carries it out, which raises a `DeskFault` if the desk refuses."""

    fields: Fields
    make: Callable[[Desk, Json], object]


ARC: Fields = {"arc": int}
ARCS: Fields = {"arcs": list}
NODE: Fields = {"node": int}
NAME: Fields = {"name": str}
CAPACITY: Fields = {"capacity": str}
NEW_ARC: Fields = {"tail": int, "head": str, **CAPACITY, **NAME}
ACTS = {
    "close": BoardAct(ARC, lambda desk, it: desk.close(it["arc"])),
    "open": BoardAct(ARC, lambda desk, it: desk.open(it["arc"])),
    "double": BoardAct(ARC, lambda desk, it: desk.double(it["arc"])),
    "cap": BoardAct({**ARC, **CAPACITY}, _cap),
    "cap-ways": BoardAct({**ARC, **CAPACITY, "back": str}, _cap_ways),
    "shut": BoardAct(NODE, lambda desk, it: desk.shut(desk.network.names.place_of(it["node"]))),
    "open-place": BoardAct(
        NODE, lambda desk, it: desk.open_place(desk.network.names.place_of(it["node"]))
    ),
    "add": BoardAct(NEW_ARC, lambda desk, it: _add(desk, it, desk.network.names.place(it["head"]))),
    "add-new": BoardAct(NEW_ARC, lambda desk, it: _add(desk, it, MakePlace(it["head"]))),
    "close-all": BoardAct(
        ARCS, lambda desk, it: desk.close(*it["arcs"], words=_told(desk, it["arcs"]))
    ),
    "open-all": BoardAct(
        ARCS, lambda desk, it: desk.open(*it["arcs"], words=_told(desk, it["arcs"]))
    ),
    "double-all": BoardAct(
        ARCS, lambda desk, it: desk.double(*it["arcs"], words=_told(desk, it["arcs"]))
    ),
    "cap-all": BoardAct({**ARCS, **CAPACITY}, _cap_all),
    # The first step is the solve that the board begins with.
    "go": BoardAct({"step": int}, lambda desk, it: desk.go_to(it["step"] + 1)),
    "again": BoardAct({}, lambda desk, it: desk.begin_again()),
}
SCENARIO_ACTS = {
    "scenario-go": BoardAct(NAME, lambda desk, it: project_of(desk).go(it["name"])),
    "scenario-new": BoardAct(
        {**NAME, "from": str},
        lambda desk, it: project_of(desk).new(cleaned(it["name"]), it["from"]),
    ),
    "scenario-copy": BoardAct(NAME, lambda desk, it: project_of(desk).copy(cleaned(it["name"]))),
    "scenario-name": BoardAct(NAME, lambda desk, it: project_of(desk).rename(cleaned(it["name"]))),
    "scenario-delete": BoardAct(NAME, lambda desk, it: project_of(desk).delete(it["name"])),
    "scenario-note": BoardAct(
        {"text": str}, lambda desk, it: project_of(desk).note(it["text"].strip())
    ),
}
