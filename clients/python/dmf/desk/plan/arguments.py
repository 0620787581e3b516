"""The meaning of the words of a dmf-plan line on a desk: arcs, amounts, and arcs chosen by a
condition."""

from __future__ import annotations

import contextlib
from collections.abc import Callable, Iterator
from functools import partial
from itertools import groupby
from typing import NamedTuple, Union

from ...quantity import Quantity
from ...text.spelling import cleaned, nearest, quoted_name
from ..expressions import Condition, amount, capacities, condition, is_amount
from ..steps import Close, DeskFault, MakePlace, Place, Shut, UnknownPlace
from ..workspace import Desk
from .context import Confirm
from .grammar import AND, COMMANDS, NEW, is_number, one_name

WHERE, BACK, THE_PLACE = "where", "back", "place"
HINT = f"`{NEW}` before its name makes a new place"
CONDITIONS = (
    "name ~ TEXT, from ~ TEXT, to ~ TEXT, capacity < NUMBER, flow >= NUMBER, full, limit; with "
    '"and" between two'
)


def last_closed(desk: Desk) -> Callable[[], object]:
    """Open the arc or the place that was closed or shut last, and still is."""
    network = desk.network
    for step in reversed(desk.steps[: desk.at]):
        for change in reversed(step.changes):
            if isinstance(change, Shut) and change.node in network.shut_nodes:
                return partial(desk.open_place, network.names.place_of(change.node))
            if (
                isinstance(change, Close)
                and network.lines[change.arc - 1].is_closed
                and not network.lines[change.arc - 1].is_replaced
            ):
                return partial(desk.open, network.pipes.number(change.arc))
    raise DeskFault("nothing is closed")


class Capped(NamedTuple):
    """What the words of `cap` mean: a pipe, an amount, and the amount back, which may be empty."""

    number: int
    text: str
    back: str = ""


def capped(desk: Desk, words: list[str]) -> Capped:
    """Return what the words of `cap` mean, if they can mean one thing only."""
    network = desk.network
    if len(words) < 2 or words[-1] == BACK:
        raise DeskFault(f"usage: {COMMANDS['cap'].form}")
    plain = _amounts_ending(desk, words)
    meanings = [
        (at, text, " ".join(words[end + 1 :]))
        for end, word in enumerate(words)
        if word == BACK and (end + 1 in plain or not plain)
        for at, text in _amounts_ending(desk, words[:end]).items()
    ]
    meanings += [(at, text, "") for at, text in plain.items()]
    found = []
    for at, text, back in meanings:
        with contextlib.suppress(DeskFault):
            found.append(Capped(network.the_arc(" ".join(words[:at])), text, back))
    if len(found) > 1:
        raise DeskFault("this can mean several things; put the name in quotes")
    # Else the fault of the likeliest meaning, in which the amount is as long as can be, or one
    # word.
    at, text, back = next(iter(meanings), (len(words) - 1, words[-1], ""))
    return found[0] if found else Capped(network.the_arc(" ".join(words[:at])), text, back)


def _amounts_ending(desk: Desk, words: list[str]) -> dict[int, str]:
    """Return the amounts that the last words may be, by where they begin. One may be several words:
    1 200, +10 %, 12 l/s."""
    unit = desk.network.measure.unit
    texts = {at: " ".join(words[at:]) for at in range(1, len(words))}
    return {at: text for at, text in texts.items() if is_amount(text.removesuffix(unit).strip())}


End = Union[Place, MakePlace]


class NewArc(NamedTuple):
    """What the words of `add` mean: the ends, the capacity and the name, which may be empty. An end
    that is a text is not the name of a place."""

    tail: End | str
    head: End | str
    capacity: str
    name: str

    @property
    def unknown(self) -> list[str]:
        """Return the ends that are not places."""
        return [end for end in self[:2] if isinstance(end, str)]


def new_arc(
    desk: Desk, words: list[str], confirm: Confirm | None = None
) -> tuple[End, End, Quantity, str]:
    """Return the ends, the capacity and the name that the words of `add` mean, if they can mean one
    thing only. `confirm` asks whether a place that does not exist is to be made."""
    if "->" in words[1:] and not any(map(is_number, words[: words.index("->")])):
        # In the words by which arcs are listed.
        words = [*words[: words.index("->")], *words[words.index("->") + 1 :]]
    every = list(_new_arcs(desk, words))
    found = [it for it in every if not it.unknown]
    if not found and confirm:
        found = [it for it in every if len(it.unknown) == 1]
    if len(found) > 1:
        raise DeskFault("this can mean several things; put the names in quotes, and the number")
    if not found and len(words) < 3:
        raise DeskFault(f"usage: {COMMANDS['add'].form}")
    meant = found[0] if found else _likeliest(desk, words)
    if not confirm:
        _refuse_unknown(desk, meant.unknown)
    try:
        capacity = amount(meant.capacity, desk.network.measure)
    except DeskFault:
        _refuse_unknown(desk, meant.unknown, confirm)
        raise
    if confirm and meant.unknown and not confirm(_question(desk, meant.unknown)):
        _refuse_unknown(desk, meant.unknown, confirm)
    tail, head = (MakePlace(end) if isinstance(end, str) else end for end in meant[:2])
    return tail, head, capacity, meant.name


def _new_arcs(desk: Desk, words: list[str]) -> Iterator[NewArc]:
    """Yield all that the words of `add` can mean."""
    for at in range(2, len(words)):
        if not is_number(words[at]):
            continue
        for middle in range(1, at):
            tail, head = _end(desk, words[:middle]), _end(desk, words[middle:at])
            # An amount may be several words, as 1 200.
            for end in _ends_of_amount(desk, words, at):
                if tail and head:
                    yield NewArc(tail, head, " ".join(words[at:end]), " ".join(words[end:]))


def _end(desk: Desk, words: list[str]) -> End | str:
    """Return the end of an arc that these words name, or the name if no place has it, or nothing if
    they cannot be one name."""
    names = desk.network.names
    is_new = words[0] == NEW
    name = " ".join(words[is_new:])
    if NEW in words[1:] or not name:
        return ""
    if is_new:
        return MakePlace(name)
    try:
        return names.place(name)
    except DeskFault:
        return cleaned(name)


def _likeliest(desk: Desk, words: list[str]) -> NewArc:
    """Return the likeliest meaning of words that have none, in which each name is one word."""
    ends: list[End | str] = []
    while len(ends) < 2 and words:
        size = 1 + (words[0] == NEW)
        ends.append(_end(desk, words[:size]))
        words = words[size:]
    if len(ends) < 2 or not words or "" in ends:
        raise DeskFault(f"usage: {COMMANDS['add'].form}")
    return NewArc(ends[0], ends[1], words[0], " ".join(words[1:]))


def _refuse_unknown(desk: Desk, unknown: list[str], confirm: Confirm | None = None) -> None:
    """Raise a `DeskFault` if there are such names. One who cannot be asked learns how to make a
    place."""
    for name in unknown:
        try:
            desk.network.names.place(name)
        except UnknownPlace as fault:
            hint = "" if confirm else f"{'' if str(fault).endswith('?') else ';'} {HINT}"
            raise DeskFault(f"{fault}{hint}") from None


def _question(desk: Desk, unknown: list[str]) -> str:
    """Return the question whether places of these names are to be made. Raise a `DeskFault` if they
    cannot be."""
    made = [desk.network.names.new_name(name) for name in unknown]
    told = " and no place called ".join(map(quoted_name, made))
    near = dict.fromkeys(it for name in made for it in nearest(name, desk.network.names.places))
    but = f", but there is {' and '.join(map(quoted_name, near))}" if near else ""
    again = " and ".join(map(quoted_name, made)) if near else "it" if len(made) == 1 else "them"
    return f"There is no place called {told}{but}. Make {again}? [y/n] "


def _ends_of_amount(desk: Desk, words: list[str], at: int) -> list[int]:
    """Return the numbers of words after which an amount may end that begins at word `at`. Its unit
    is part of it."""
    unit = desk.network.measure.unit.split()
    ends = [end for end in range(at + 1, len(words) + 1) if is_amount(" ".join(words[at:end]))]
    return [
        end + len(unit) if unit and words[end : end + len(unit)] == unit else end for end in ends
    ]


def arcs_named(desk: Desk, words: list[str]) -> list[int]:
    """Return the pipes that the words of `flow` mean: those of a name, those at a place, or all;
    none that was opened again as another one."""
    network = desk.network
    name = " ".join(words)
    numbers = _every(desk)
    if words and network.names.is_place(name):
        numbers = _at(desk, name)
    elif words:
        numbers = network.names.arcs(name)
    return [number for number in numbers if not network.line(number).is_replaced]


def arcs_of_name(desk: Desk, name: str) -> list[int]:
    """Return the open pipes that a name means. Raise a `DeskFault` if all are closed."""
    network = desk.network
    opened = [it for it in network.names.arcs(name) if not network.pipe(it).is_closed]
    return opened or [network.the_arc(name)]


def place_named(desk: Desk, words: list[str]) -> Place | None:
    """Return the place that the words of `worth` name, or None if they name arcs. Raise a
    `DeskFault` if they can name both."""
    names, name, rest = desk.network.names, one_name(words, "worth"), " ".join(words[1:])
    arcs, is_place = names.arcs_or_none(name), names.has_place(name)
    if words[0] == THE_PLACE and rest:
        if not arcs and not is_place:
            return names.place(rest)
        if names.has_place(rest):
            raise DeskFault("this can mean several things; put the name in quotes")
    if is_place and arcs:
        raise DeskFault(
            f"{quoted_name(name)} is a place, and also {names.list(arcs)}; `worth {THE_PLACE} "
            f"{name}` is about the place, `worth #{arcs[0]}` about that arc"
        )
    if arcs:
        return None
    try:
        return names.place(name)
    except UnknownPlace:
        # The fault says what the name may have been meant to be.
        if nearest(name, names.places) and not nearest(name, names.spoken()):
            raise
        return None


def two_arcs_named(desk: Desk, words: list[str]) -> tuple[int, int] | None:
    """Return the two open pipes that the words of `worth` name with an `and` between them, or None
    if they are one name. Raise a `DeskFault` if they can be several things, or mean no two pipes.
    """
    network = desk.network
    splits = [
        (" ".join(words[:at]), " ".join(words[at + 1 :]))
        for at, word in enumerate(words)
        if word == AND and 0 < at < len(words) - 1
    ]
    if not splits:
        return None
    named = [it for it in splits if all(map(network.names.arcs_or_none, it))]
    is_one_name = _is_one_name(desk, words)
    if len(named) + is_one_name > 1:
        raise DeskFault(
            f"this can mean several things; put a name with `{AND}` in quotes, or choose arcs by "
            "their numbers"
        )
    if is_one_name:
        return None
    # Else the fault of a name that no arc has.
    first, second = map(network.the_arc, (named or splits)[0])
    if first == second:
        raise DeskFault(f"both names mean {network.names.list([first])}")
    return first, second


def _is_one_name(desk: Desk, words: list[str]) -> bool:
    """Return True if the words of `worth` are the name of one arc or place."""
    names = desk.network.names
    ways = [words, words[1:]] if words[0] == THE_PLACE else [words]
    texts = [" ".join(it) for it in ways]
    return bool(names.arcs_or_none(texts[0])) or any(map(names.has_place, texts))


def arcs_to_try(desk: Desk, words: list[str]) -> list[int]:
    """Return the open pipes that the words of `what-if each` mean: those of the limit, those at a
    place, or all."""
    network = desk.network
    rest = [word for word in words[1:] if word not in ("of", "the")]
    if len(words) >= 3 and words[1] == "at":
        wanted = _at(desk, " ".join(words[2:]))
    elif words and words[1:] and rest in (["cut"], ["limit"]):
        wanted = list(desk.cut_arcs()) if desk.is_greatest else []
    elif len(words) == 1 or rest == ["all"]:
        wanted = _every(desk)
    else:
        raise DeskFault(f"usage: {COMMANDS['what-if'].form}")
    return [number for number in wanted if not network.pipe(number).is_closed]


def _every(desk: Desk) -> list[int]:
    """Return all pipes, with those that stand for what places give, take or let through."""
    network = desk.network
    return network.pipes.numbers(range(1, len(network.lines) + 1))


def _at(desk: Desk, name: str) -> list[int]:
    """Return the pipes at a place."""
    network = desk.network
    place = network.names.place(name)
    return network.pipes.numbers(
        number
        for number, line in enumerate(network.lines, 1)
        if {line.tail, line.head} & set(place)
    )


def arcs_listed(desk: Desk, words: list[str]) -> list[int]:
    """Return the pipes of the table that the words of `pipes` mean: all, or the open ones of which
    conditions are so."""
    if words and words[0] != WHERE:
        raise DeskFault(f"usage: {COMMANDS['pipes'].form}")
    return arcs_where(desk, words[1:]) if words else desk.network.pictured()


def arcs_from(desk: Desk, words: list[str]) -> list[int]:
    """Return the pipes of the table that lead away from a place."""
    network = desk.network
    place, lines = network.names.place(one_name(words, "from")), network.lines
    return [
        number
        for number in network.pictured()
        if any(lines[arc - 1].tail == place.exit for arc in network.pipes.arcs(number))
    ]


def arcs_where(desk: Desk, words: list[str], *, are_closed: bool = False) -> list[int]:
    """Return the open pipes, or the closed ones, that meet conditions. Raise a `DeskFault` if there
    are none."""
    network = desk.network
    conditions = [
        _condition(desk, list(part)) for is_and, part in groupby(words, AND.__eq__) if not is_and
    ]
    if not conditions or words[0] == AND or words[-1] == AND:
        raise DeskFault(f"expected after `where`: {CONDITIONS}")
    numbers = [
        number for number in network.pictured() if network.pipe(number).is_closed == are_closed
    ]
    found = [number for number in numbers if all(is_so(number) for is_so in conditions)]
    if not found:
        kind = f"{'closed' if are_closed else 'open'} {network.words.noun}s"
        raise DeskFault(f"none of the {len(numbers)} {kind} meets the conditions")
    return found


def _condition(desk: Desk, words: list[str]) -> Condition:
    """Return a predicate on arcs. Raise a `DeskFault` if the words are not a condition."""
    found = condition(desk, words)
    if not found:
        raise DeskFault(
            f"{quoted_name(' '.join(words))} is not a condition; expected: {CONDITIONS}"
        )
    return found


def capped_where(desk: Desk, words: list[str]) -> tuple[dict[int, Quantity], str]:
    """Return the new capacities of the arcs that meet conditions, and the words of that step. The
    amount is the last word, or the last two."""
    size = 2 if words[-1] == "%" or not is_amount(words[-1]) else 1
    text, conditions = " ".join(words[-size:]), words[1:-size]
    numbers = arcs_where(desk, conditions)
    wanted = {arc: it for number in numbers for arc, it in capacities(desk, number, text).items()}
    return wanted, f"{arcs_told(desk, numbers, words[:-size])}: {text}"


def arcs_told(desk: Desk, numbers: list[int], words: list[str]) -> str:
    """Return the words of a step on the arcs that meet conditions."""
    return f"{len(numbers)} {desk.network.words.noun}{'s' * (len(numbers) != 1)} {' '.join(words)}"
