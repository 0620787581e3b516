"""The filter of the table: the words that a planner types, and which arcs they leave."""

from __future__ import annotations

import re
from collections.abc import Callable
from itertools import groupby

from ...quantity import EXACT, Quantity, QuantityFault, magnitude, number_in
from ...session.base import Part
from ...text.spelling import folded, quoted_name
from ..expressions import COMPARED, Condition, amount, condition
from ..pictures.looks import Beginning
from ..steps import DeskFault
from ..workspace import Desk
from ..worth import left_without

AND, NOT, BEFORE = "and", "not", "before"
# Other names of columns on the page, and of what dmf-plan calls the limit.
_CALLED = {
    "flows": "flow",
    "staffed": "flow",
    "fits": "capacity",
    "carries": "capacity",
    "allows": "capacity",
}
_CONDITIONS = {"bottleneck": "limit"}
# The longest signs come first.
_SIGN = re.compile(
    rf"(name|from|to|capacity|flow|use|lost|{'|'.join(_CALLED)})\s*"
    rf"(~|{'|'.join(sorted(COMPARED, key=len, reverse=True))})(.*)",
    re.IGNORECASE | re.DOTALL,
)
# A word, which may have others in quotes.
_WORD = re.compile(r'(?:"[^"]*"|\S)+')
Reading = tuple[Condition, str]


class Filters:
    """A reader of the filters of a desk's table. `label` is the text by which an arc is found,
    without case and accents."""

    def __init__(self, desk: Desk, beginning: Beginning, label: Callable[[int], str]) -> None:
        self._desk = desk
        self._beginning = beginning
        self._label = label

    def read(self, text: str) -> tuple[list[Condition], list[str]]:
        """Return the conditions of a filter, and what each is in words. Raise a `DeskFault` if one
        has no meaning."""
        words: list[str] = _WORD.findall(text)
        parts = [
            " ".join(part)
            for is_and, part in groupby(words, lambda word: word.casefold() == AND)
            if not is_and
        ]
        read = [self._signed(part) for part in parts]
        return [is_so for is_so, _ in read], [words for _, words in read]

    def _signed(self, part: str) -> Reading:
        """Return a condition, or with `not` before it the opposite."""
        first, _, rest = part.partition(" ")
        if first.casefold() != NOT or not rest:
            return self._read(part)
        is_so, words = self._read(rest)
        return lambda number: not is_so(number), f"{NOT} {words}"

    def _read(self, part: str) -> Reading:
        """Return what a part of a filter is: a condition, or else a part of a name."""
        desk, word = self._desk, part.casefold()
        network = desk.network
        if word == "closed":
            return lambda number: network.pipes.pipe(number).is_closed, word
        if word == "changed":
            return network.changed().__contains__, word
        if word == "added":
            return lambda number: self._beginning.capacity(number) is None, word
        compared = _SIGN.fullmatch(part)
        if not compared:
            return self._named(part)
        column = compared[1].casefold()
        words = [_CALLED.get(column, column), compared[2], *_unquoted(compared[3]).split()]
        found = self._compared(words) or condition(desk, words)
        if not found:
            raise _wrong(part)
        return found, " ".join(words)

    def _named(self, part: str) -> Reading:
        """Return the condition that is one word, or else that the name has this part."""
        word = part.casefold()
        found = condition(self._desk, [_CONDITIONS.get(word, word)])
        if found:
            return found, word
        if any(sign in part.split() for sign in COMPARED):
            raise _wrong(part)
        name = _unquoted(part)
        sought = folded(name)
        return lambda number: sought in self._label(number), f"{quoted_name(name)} in the name"

    def _compared(self, words: list[str]) -> Condition | None:
        """Return a condition that only the table has: on how much of a capacity is used, on what is
        lost without an arc, or against the beginning. Return None if the words are not one of
        these."""
        column, sign, *rest = words
        text = " ".join(rest)
        if sign not in COMPARED or not text:
            return None
        if column == "use":
            return self._used(sign, text)
        if column == "lost":
            return self._lost(sign, text)
        if text.casefold() != BEFORE:
            return None
        return self._since(column, COMPARED[sign])

    def _used(self, sign: str, text: str) -> Condition:
        """Return the condition on the share of a capacity that is used, in hundredths. A closed arc
        uses nothing of it, and is never meant."""
        network, flows = self._desk.network, self._desk.flows()
        quantity, is_so = network.measure.quantity, COMPARED[sign]
        try:
            bound = number_in(text.removesuffix("%").rstrip(), network.measure.sign)
        except QuantityFault as fault:
            raise DeskFault(f"{quoted_name(text)} {fault}") from None

        def holds(number: int) -> bool:
            pipe, flow = network.pipes.pipe(number), quantity(flows[number - 1])
            used, room = EXACT.multiply(magnitude(flow), 100), pipe.room(flow)
            of_all: Quantity = EXACT.multiply(bound, room) if room else bound
            return not pipe.is_closed and is_so(used, of_all)

        return holds

    def _lost(self, sign: str, text: str) -> Condition:
        """Return the condition on what is lost without an arc. A closed one is never meant."""
        desk, worth = self._desk, self._desk.state.answers.worth.get(Part.ARC)
        if worth is None:
            raise DeskFault("what is lost without each one is not known yet")
        network, is_so, found = desk.network, COMPARED[sign], worth
        bound = amount(text, network.measure)

        def holds(number: int) -> bool:
            lost = network.measure.quantity(found.value - left_without(desk, found, number))
            return not network.pipes.pipe(number).is_closed and is_so(lost, bound)

        return holds

    def _since(self, column: str, is_so: Callable[[Quantity, Quantity], bool]) -> Condition | None:
        """Return the condition on a flow or a capacity against that of the beginning, which an arc
        that was added does not have. Return None for another column."""
        beginning, flows = self._beginning, self._desk.flows()
        if column == "capacity":

            def is_other(number: int) -> bool:
                found = beginning.capacities(number, flows[number - 1])
                return found is not None and is_so(found[1], found[0])

            return is_other
        if column != "flow":
            return None
        if not beginning.is_known:
            raise DeskFault("the flows at the beginning are not known here: go back to it once")
        return lambda number: is_so(magnitude(flows[number - 1]), magnitude(beginning.flow(number)))


def _wrong(part: str) -> DeskFault:
    return DeskFault(f"{quoted_name(part)} is not a condition of the filter")


def _unquoted(text: str) -> str:
    """Return a text without the quotes around it."""
    plain = text.strip()
    return plain[1:-1] if re.fullmatch('"[^"]*"', plain) else plain
