"""What looks like a mistake in a valid plan: it is told, with its lines, and changes nothing."""

from __future__ import annotations

import functools
import re
import unicodedata
from array import array
from collections import Counter, defaultdict
from collections.abc import Collection, Iterable, Iterator, Sequence
from itertools import compress, count, islice
from operator import eq, not_
from typing import Any

from ..session.column_texts import numpy_for
from ..text.spelling import MOST_TOLD, cleaned, near, quoted_name
from .built_problem import BuiltProblem
from .headings import ARCS
from .lone_ends import ends_alone
from .problem_builder import NetworkTables
from .sheet import called_row
from .titles import DEMAND, SUPPLY

# Among how many places a near name is looked for, and among how many arcs a way.
MOST_PLACES, MOST_WALKED = 2_000, 200_000
_DIGITS = re.compile("[0-9]+")


def warnings(plan: NetworkTables, net: BuiltProblem) -> Iterator[str]:
    """Yield the warnings of a plan and its network."""
    table = plan.arcs
    yield from _lone_first_row(plan)
    protected = {name: other for name, other in table.respelled.items() if cleaned(other) != name}
    spaced = {name: other for name, other in table.respelled.items() if name not in protected}
    for why, respelled in ("spaces", spaced), ("the apostrophe that protects = + - @", protected):
        if respelled:
            told = [
                f"{quoted_name(other)} is {quoted_name(name)}" for name, other in respelled.items()
            ]
            yield f"names that differ only in {why} are one place: {', '.join(told[:MOST_TOLD])}"
    for names in islice(_look_alike(table.places), MOST_TOLD):
        yield (
            "names that differ only in case, or in what is not seen, are several places: "
            f"{_listed(list(map(quoted_name, names)))}"
        )
    yield from _rows(plan)
    yield from _lonely(plan)
    if len(net.tails) <= MOST_WALKED and not _reaches(net):
        yield "no way leads from a source to a sink over arcs that carry anything"


def _listed(parts: Sequence[str]) -> str:
    rest = len(parts) - MOST_TOLD
    return ", ".join(parts[:MOST_TOLD]) + (f" and {rest} more" if rest > 0 else "")


def _lines(lines: Sequence[int]) -> str:
    """Return lines as warnings name them: `line 3`, `lines 3, 4`."""
    return f"line{'s' * (len(lines) > 1)} {_listed(list(map(str, lines)))}"


def _seen(name: str) -> str:
    """Return a name without what readers hardly see: case, how letters are composed, and characters
    that show nothing."""
    if name.isascii():
        return name.casefold()
    letters = unicodedata.normalize("NFKC", name).casefold()
    return "".join(letter for letter in letters if unicodedata.category(letter) != "Cf")


def _look_alike(places: Collection[str]) -> Iterator[list[str]]:
    """Yield the names of places that look alike."""
    together = "\n".join(places)
    is_plain = together.isascii()
    seen = together.casefold().split("\n") if is_plain else list(map(_seen, places))
    if len(set(seen)) == len(seen):
        return
    counted = Counter(seen)
    alike: dict[str, list[str]] = {}
    for place, look in zip(places, seen):
        if counted[look] > 1:
            alike.setdefault(look, []).append(place)
    yield from alike.values()


def _lone_first_row(plan: NetworkTables) -> Iterator[str]:
    """Yield the warning about a first row that was read as an arc, and whose ends occur nowhere
    else."""
    table = plan.arcs
    if not table.begins_bare:
        return
    first = {table.tails[0], table.heads[0]}
    named = {table.places.get(term.place) for term in plan.terms}
    if not first & named and not any(
        end in first for ends in (table.tails, table.heads) for end in islice(ends, 1, None)
    ):
        yield (
            f"{table.called_row(0)} is taken for an arc, though no other row has its "
            f"ends{ARCS.hint}"
        )


def _rows(plan: NetworkTables) -> Iterator[str]:
    """Yield warnings about self loops, capacities of 0, and rows that are the same."""
    table = plan.arcs
    if loops := _equal(table.tails, table.heads):
        yield f"tail and head are the same place: {_lines([table.lines[place] for place in loops])}"
    if 0 in table.amounts.numbers:
        yield (
            "the capacity is 0: "
            f"{_lines([*compress(table.lines, map(not_, table.amounts.numbers))])}"
        )
    yield from _same_rows(plan)


def _equal(column: array[int], other: array[int]) -> list[int]:
    """Return the places where two columns have the same number."""
    np = numpy_for(len(column))
    if np is None:
        return [*compress(count(), map(eq, column, other))]
    found: list[int] = np.flatnonzero(
        np.equal(*(np.frombuffer(it, it.typecode) for it in (column, other)))
    ).tolist()
    return found


def _first_place(column: array[int], number: int) -> int:
    """Return the first place where a column has a number."""
    np = numpy_for(len(column))
    if np is None:
        return column.index(number)
    return int((np.frombuffer(column, column.typecode) == number).argmax())


def _same_rows(plan: NetworkTables) -> Iterator[str]:
    """Yield the warning about rows that have the same ends, capacity and name as an earlier one."""
    table = plan.arcs
    first: dict[tuple[object, ...], int] = {}
    same = []
    for place in _alike(table.tails, table.heads, table.amounts.numbers):
        row = (
            table.tails[place],
            table.heads[place],
            table.amounts.numbers[place],
            table.labels[place] if table.labels else "",
        )
        line = table.lines[place]
        if first.setdefault(row, line) != line:
            names = table.sheet.row_names
            other = names.get(first[row]) or first[row]
            same.append(f"{called_row(line, names)} as {other}")
    if same:
        yield f"rows are the same, and each counts: {_listed(same)}"


def _alike(tails: array[int], heads: array[int], numbers: Sequence[int]) -> Iterable[int]:
    """Return the places of rows that may be the same as another: those that are, and perhaps a few
    more."""
    np = numpy_for(len(tails))
    if np is not None and isinstance(numbers, array):
        columns = (
            np.frombuffer(column, column.typecode).astype(np.uint64)
            for column in (tails, heads, numbers)
        )
        rows = functools.reduce(
            lambda mixed, column: mixed * np.uint64(0x9E3779B97F4A7C15) + column, columns
        )
        ordered = np.sort(rows)
        found: Iterable[int] = np.flatnonzero(
            np.isin(rows, ordered[1:][ordered[1:] == ordered[:-1]])
        ).tolist()
        return found
    hashes = list(map(hash, zip(tails, heads, numbers)))
    if len(set(hashes)) == len(hashes):
        return ()
    twice = {row for row, times in Counter(hashes).items() if times > 1}
    return compress(count(), map(twice.__contains__, hashes))


def _lonely(plan: NetworkTables) -> Iterator[str]:
    """Yield warnings about places that arcs only leave but that are not sources, and that arcs only
    enter but that are not sinks."""
    table = plan.arcs
    if plan.both_ways:
        return
    sources, sinks = (
        {table.places[term.place] for term in plan.of_kind(kind)} for kind in (SUPPLY, DEMAND)
    )
    left, entered = ends_alone(table.tails, table.heads)
    for lonely, ends, reason in (
        (
            set(left) - sources,
            table.tails,
            "arcs leave, and none enter, a place that is not a source",
        ),
        (
            set(entered) - sinks,
            table.heads,
            "arcs enter, and none leave, a place that is not a sink",
        ),
    ):
        if lonely:
            yield f"{reason}: {_listed(_LonelyPlaces(plan, sorted(lonely), ends))}"


class _LonelyPlaces(Sequence[str]):
    """Places as warnings name them: with the line of the first row that has one, and a similar name
    that may have been meant."""

    def __init__(self, plan: NetworkTables, numbers: list[int], ends: array[int]) -> None:
        self.table = plan.arcs
        self.names = list(plan.arcs.places)
        self.numbers = numbers
        self.ends = ends

    def __len__(self) -> int:
        return len(self.numbers)

    def __getitem__(self, place: int | slice) -> Any:
        return (
            list(map(self.told, self.numbers[place]))
            if isinstance(place, slice)
            else self.told(self.numbers[place])
        )

    def told(self, number: int) -> str:
        name = self.names[number - 1]
        line = f" ({self.table.called_row(_first_place(self.ends, number))})"
        if (
            len(self.names) > MOST_PLACES
            or self.table.tails.count(number) + self.table.heads.count(number) > 1
        ):
            return quoted_name(name) + line
        return (
            quoted_name(name)
            + line
            + near(name, [it for it in self.names if _DIGITS.sub("", it) != _DIGITS.sub("", name)])
        )


def _reaches(net: BuiltProblem) -> bool:
    """Return True if a way leads from the source to the sink over arcs that carry anything."""
    heads: dict[int, list[int]] = defaultdict(list)
    for tail, head, capacity in zip(net.tails, net.heads, net.capacities):
        if capacity:
            heads[tail].append(head)
    seen, left = {net.source}, [net.source]
    while left and net.sink not in seen:
        new = [head for head in heads[left.pop()] if head not in seen]
        seen.update(new)
        left += new
    return net.sink in seen
