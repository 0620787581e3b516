"""What each arc is worth, and what a greater value costs.

What is lost without an arc is one answer for all of them, and so is what a second one beside it
brings. A cheap way to a greater value is found greedily,
by what a column of the table says each unit more costs at an arc, or a second arc beside it. It
goes from limit to limit: it widens the cheapest arc of the present one, and where the value does
not grow for another limit behind it, the cheapest arc of that too. Each value on it is a greatest
one, but a cheaper way may exist: least-cost flows and exact budgets are the business of other
solvers."""

from __future__ import annotations

from collections.abc import Iterable, Iterator, Mapping
from dataclasses import dataclass
from decimal import Decimal

from ..quantity import EXACT, Quantity, QuantityFault, magnitude, number_in, plain_text
from ..tables.titles import title_of
from ..text.spelling import quoted_name
from .seconds import seconds_of
from .steps import DeskFault, Trial
from .workspace import Desk
from .worth import losses


def trials_of(desk: Desk, numbers: Iterable[int]) -> Iterator[Trial]:
    """Return what these pipes mean for the value: the greatest one if each alone is closed, and if
    each alone has a second one beside it. Raise a `DeskFault` unless the flow is greatest and the
    pipes are open."""
    wanted = list(numbers)
    seconds = seconds_of(desk, wanted)
    found = losses(desk, wanted)
    return (Trial(it.number, it.left, second.doubled) for it, second in zip(found, seconds))


TITLES = set("cost costs kosten cout coste price preis".split())
# The most purchases on a way.
MOST_BOUGHT = 100


@dataclass(frozen=True)
class Prices:
    """The prices in the column with this title, by the numbers of the table's arcs: of one more
    unit on the arc or, if `is_second`, of a second arc beside it."""

    title: str
    of: Mapping[int, Decimal]
    is_second: bool = False


@dataclass(frozen=True)
class Bought:
    """One purchase: by how much each arc is widened, what that costs, the money spent so far, and
    the greatest value then."""

    wider: tuple[tuple[int, Quantity], ...]
    cost: Decimal
    total: Decimal
    value: Quantity


@dataclass
class Way:
    """A way to a greater value, and why it ends there."""

    bought: list[Bought]
    end: str = ""


def prices(desk: Desk, column: str = "", *, is_second: bool = False) -> Prices:
    """Return the prices in a column of the table, by its title; without one that of the only column
    called cost, or alike. Raise a `DeskFault` if there is no such column, or if a cell in it is not
    a number from 0 on. An arc of an empty cell has no price."""
    extra = desk.network.subject.extra
    words = [title_of(title).word for title in extra.titles]
    found = [
        at
        for at, word in enumerate(words)
        if (word == title_of(column).word if column else word in TITLES)
    ]
    if len(found) != 1:
        listed = ", ".join(map(quoted_name, extra.titles)) or "none"
        why = (
            f"no column is called {quoted_name(column)}"
            if column and not found
            else f"{'several columns' if found else 'no column'} can be the cost"
        )
        raise DeskFault(f"{why}; the columns beside places and capacities are: {listed}")
    title = extra.titles[found[0]]
    of = {}
    for number in range(1, desk.network.first_count + 1):
        cell = "" if desk.network.role(number) else extra.of(number)[found[0]].strip()
        if cell:
            of[number] = _price(cell, desk, title, number)
    return Prices(title, of, is_second)


def _price(cell: str, desk: Desk, title: str, number: int) -> Decimal:
    network = desk.network
    where = f"{network.names.arc(number)}: {quoted_name(cell)} in the column {quoted_name(title)}"
    try:
        found = Decimal(number_in(cell, network.measure.sign))
    except QuantityFault as fault:
        raise DeskFault(f"{where} {fault}") from None
    if found < 0:
        raise DeskFault(f"{where} is below 0")
    return found


def priced(desk: Desk, given: Prices) -> dict[int, Decimal | None]:
    """Return the arcs of the limit, each with its price if it has one. An arc that was opened again
    has that of the one that it was."""
    return {
        number: given.of.get(desk.network.lines[number - 1].first or number)
        for number in desk.cut_arcs()
    }


def cheapest(desk: Desk, given: Prices, to: Quantity | None = None) -> Way:
    """Return a cheap way to a value, by default to twice the present one, found greedily. The desk
    is as it was after that. Each purchase takes a few solves, and for second arcs a trial of each
    arc of the limit. Raise a `DeskFault` if the flow is not greatest."""
    if not desk.is_greatest:
        raise DeskFault(desk.network.words.limit_not_known)
    wanted = EXACT.multiply(desk.value, 2) if to is None else to
    if wanted < desk.value:
        raise DeskFault(
            f"{plain_text(wanted)} is less than the present value, {plain_text(desk.value)}"
        )
    way = Way([])
    with desk.aside() as tried:
        buy = _seconds if given.is_second else _units
        for it in buy(tried, given, wanted, way):
            way.bought.append(it)
            if len(way.bought) == MOST_BOUGHT:
                way.end = f"these are the first {MOST_BOUGHT} purchases"
                break
    return way


def _units(desk: Desk, given: Prices, wanted: Quantity, way: Way) -> Iterator[Bought]:
    """Yield units more, as many as make the value grow before another limit holds it."""
    total = Decimal(0)
    while desk.value < wanted:
        before, at, left = desk.value, desk.at, EXACT.subtract(wanted, desk.value)
        chosen: dict[int, Quantity] = {}
        while desk.value == before:
            offers = {
                number: price
                for number, price in priced(desk, given).items()
                if price is not None and number not in chosen
            }
            if not offers:
                way.end = (
                    f"no {desk.network.words.noun} of the limit then has a price"
                    if not chosen
                    else f"no {desk.network.words.noun} of a limit behind it has a price"
                )
                return
            number = min(offers, key=lambda it: (offers[it], it))
            chosen[number] = desk.network.pipe(number).room(desk.flow(number))
            desk.cap_each(_widened(desk, number, EXACT.add(chosen[number], left)))
            desk.solve()
        # As much as flows there is enough.
        needed = {
            number: flow
            for number, most in chosen.items()
            if (flow := magnitude(desk.flow(number))) > most
        }
        wider = {number: EXACT.subtract(flow, chosen[number]) for number, flow in needed.items()}
        desk.undo(desk.at - at)
        arcs = (_widened(desk, number, flow) for number, flow in needed.items())
        desk.cap_each({arc: most for it in arcs for arc, most in it.items()})
        desk.solve()
        cost = sum(
            (EXACT.multiply(by, given.of[_row(desk, number)]) for number, by in wider.items()),
            Decimal(0),
        )
        total = EXACT.add(total, cost)
        yield Bought(tuple(wider.items()), cost, total, desk.value)


def _widened(desk: Desk, number: int, capacity: Quantity) -> dict[int, Quantity]:
    """Return the capacities of the open arcs of a pipe that is widened: none carries less."""
    lines = desk.network.lines
    arcs = desk.network.open_arcs(number)
    return {arc: max(lines[arc - 1].capacity, capacity) for arc in arcs}


def _seconds(desk: Desk, given: Prices, wanted: Quantity, way: Way) -> Iterator[Bought]:
    """Yield second arcs beside those of the limit, of which each brings the most for its money."""
    total = Decimal(0)
    while desk.value < wanted:
        offers = {
            number: price for number, price in priced(desk, given).items() if price is not None
        }
        gains = {
            it.arc: EXACT.subtract(it.doubled, desk.value)
            for it in seconds_of(desk, offers)
            if it.doubled is not None and it.doubled > desk.value
        }
        if not gains:
            way.end = (
                f"no second one beside any {desk.network.words.noun} of the limit alone brings more"
                if offers
                else f"no {desk.network.words.noun} of the limit then has a price"
            )
            return
        number = min(gains, key=lambda it: (Decimal(offers[it]) / Decimal(gains[it]), it))
        wider = (number, desk.network.pipe(number).room(desk.flow(number)))
        desk.double(number)
        desk.solve()
        total = EXACT.add(total, offers[number])
        yield Bought((wider,), offers[number], total, desk.value)


def _row(desk: Desk, number: int) -> int:
    return desk.network.lines[number - 1].first or number


def purchase_lines(desk: Desk, given: Prices, way: Way) -> Iterator[str]:
    """Yield what each arc of the limit costs, and a way to a greater value, in words."""
    each = (
        "a second one"
        if given.is_second
        else f"one more ({desk.network.measure.told_unit})"
        if desk.network.measure.told_unit
        else "one more"
    )
    where = f"at each {desk.network.words.noun} of the limit"
    yield f"what {each} costs {where}, by the column {quoted_name(given.title)}:"
    for number, price in priced(desk, given).items():
        yield (
            f"  #{number} {desk.network.names.arc(number)}: "
            f"{'no price' if price is None else plain_text(price)}"
        )
    yield (
        "a cheap way, found greedily, so a cheaper one may exist; money and value, "
        f"{plain_text(desk.value)} at first:"
    )
    for it in way.bought:
        what = [
            f"a second {desk.network.names.short(number)}"
            if given.is_second
            else f"{desk.network.names.short(number)} {plain_text(by)} wider"
            for number, by in it.wider
        ]
        yield (
            f"  {plain_text(it.total)}: {plain_text(it.value)} ({' and '.join(what)}: "
            f"{plain_text(it.cost)})"
        )
    if way.end:
        yield f"  there it ends: {way.end}"
