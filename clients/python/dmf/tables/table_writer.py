"""The network of a table, written as a table.

It has a row for each arc of the table that the network was made of, and below them one for what
each place gives, takes or lets through, as the readers of tables read it."""

from __future__ import annotations

from collections import Counter, defaultdict
from collections.abc import Callable, Collection, Iterator, Sequence
from dataclasses import dataclass, replace
from typing import NamedTuple

from ..quantity import EXACT, Measure, Quantity, magnitude
from ..text.spelling import cleaned
from ..text.table_comments import DEMAND, LIMIT, SUPPLY, TableRoles
from .lone_ends import ends_alone
from .other_columns import Extra
from .sheet import OPEN_NUMBER, UNLIMITED, cell_of, lines, number_cell, text_cell

# The title of the column that says which arcs lead both ways.
BOTH_WAYS = "both ways"


class ArcRow(NamedTuple):
    """An arc of a plan: its number, its name, which may be empty, its ends, its flow, its capacity,
    and whether it is in the cut, which is None if that is not known; the cells of the other
    columns; and whether it leads both ways. Its flow is below 0 then if it goes back."""

    number: int
    name: str
    tail: str
    head: str
    flow: Quantity
    capacity: Quantity
    is_in_cut: bool | None
    others: Sequence[str] = ()
    is_two_way: bool = False


class PlaceRow(NamedTuple):
    """What a place of a plan gives, takes or lets through: `kind` is `supply`, `demand` or `limit`,
    and `most` how much that is, or None if it has no limit. An arc that stands for it has a number,
    a flow, and may be in the cut, as in `ArcRow`.
    """

    place: str
    kind: str
    most: Quantity | None
    number: int | None = None
    flow: Quantity | None = None
    is_in_cut: bool | None = None


def plan_table(
    rows: Sequence[ArcRow],
    measure: Measure,
    *,
    raw_names: bool,
    places: Sequence[PlaceRow] = (),
    others: Sequence[str] = (),
) -> str:
    """Return the table of a plan, whose titles tell its unit: the arcs, and below them the places
    with what each gives, takes or lets through, for which there are further columns then. One more
    column says which arcs lead both ways, if some do. `others` are the titles of the other columns.
    `raw_names` says that names stand in it as they are."""
    kinds = [
        kind for kind in ("supply", "demand", "limit") if any(row.kind == kind for row in places)
    ]

    ways = [BOTH_WAYS] * any(row.is_two_way for row in rows)

    def cells(row: ArcRow) -> list[object]:
        names = [cell_of(name, is_raw=raw_names) for name in (row.name, row.tail, row.head)]
        amounts = [number_cell(row.flow, measure), amount_cell(row.capacity, measure)]
        told = [_yes(magnitude(row.flow) == row.capacity), _yes(row.is_in_cut)]
        return [
            row.number,
            *names,
            *amounts,
            *told,
            *[_yes(row.is_two_way)] * len(ways),
            *[""] * len(kinds),
            *(text_cell(text, is_raw=raw_names) for text in row.others),
        ]

    def place_cells(row: PlaceRow) -> list[object]:
        flow = "" if row.flow is None else number_cell(row.flow, measure)
        most = UNLIMITED if row.most is None else amount_cell(row.most, measure)
        full = None if row.flow is None else row.flow == row.most
        mosts = [most if kind == row.kind else "" for kind in kinds]
        place = cell_of(row.place, is_raw=raw_names)
        return [
            row.number or "",
            "",
            place,
            "",
            flow,
            "",
            _yes(full),
            _yes(row.is_in_cut),
            *[""] * len(ways),
            *mosts,
            *[""] * len(others),
        ]

    titles = [
        "number",
        "name",
        "from",
        "to",
        measure.title("flow"),
        measure.title("capacity"),
        "full",
        "in cut",
        *ways,
    ]
    titles += [
        *map(measure.title, kinds),
        *(text_cell(title, is_raw=raw_names) for title in others),
    ]
    return (
        lines([titles], measure)
        + lines(map(cells, rows), measure)
        + lines(map(place_cells, places), measure)
    )


def amount_cell(number: Quantity, measure: Measure) -> str:
    """Return the cell of a quantity that a reader takes for no other, also where it finds no other
    cell: of `1.125`, which may be 1125 where a point stands between thousands, `1.1250`."""
    cell = number_cell(number, measure)
    return f"{cell}0" if OPEN_NUMBER.fullmatch(cell) else cell


def _yes(is_so: bool | None) -> str:
    return "" if is_so is None else "yes" if is_so else "no"


class WriterRow(NamedTuple):
    """An open arc: its number, the nodes of its ends, its capacity, its flow, and whether it is in
    the cut, which is None if that is not known."""

    number: int
    tail: int
    head: int
    capacity: Quantity
    flow: Quantity
    is_in_cut: bool | None


@dataclass(frozen=True)
class Told:
    """How a network is written: the roles of its nodes and arcs, the names of a node and of an arc,
    the nodes of its source and its sink, the row of an arc, the other columns, the places without a
    limit that were given one, and the pairs of arcs, by their places, that are one pipe."""

    folding: TableRoles
    node: Callable[[int], str]
    arc: Callable[[int], str]
    ends: tuple[int, int]
    extra: Extra = Extra()
    row: Callable[[int], int] = int
    limited: Collection[int] = ()
    both_ways: Collection[tuple[int, int]] = ()


def plan_text(arcs: Sequence[WriterRow], told: Told, measure: Measure, *, raw_names: bool) -> str:
    """Return the table of the open arcs of a plan. Where these alone tell which places are the
    source and the sink, and no place has more to be told, there are no rows of places."""
    told = replace(told, node=_told_apart(arcs, told))
    rows, places = [*_arc_rows(arcs, told)], _place_rows(arcs, told)
    return plan_table(rows, measure, raw_names=raw_names, places=places, others=told.extra.titles)


def _told_apart(arcs: Sequence[WriterRow], told: Told) -> Callable[[int], str]:
    """Return the names of nodes in a table, in which a place is known by its name alone: of several
    places with one name each gets its number, as in `Mill (node 4)`."""
    nodes = {
        told.folding.place(node)
        for arc in arcs
        for node in (arc.tail, arc.head)
        if not told.folding.is_joint(node)
    }
    names = {node: told.node(node) for node in sorted(nodes)}
    used = Counter(map(cleaned, names.values()))
    if len(used) == len(names):
        return told.node
    for node, name in names.items():
        if used[cleaned(name)] > 1:
            told_apart = f"{name} (node {node})"
            while cleaned(told_apart) in used:
                told_apart += f" (node {node})"
            names[node] = told_apart
    return lambda node: names.get(told.folding.place(node)) or told.node(node)


def _arc_rows(arcs: Sequence[WriterRow], told: Told) -> Iterator[ArcRow]:
    """Yield the rows of arcs. A pipe that leads both ways is one, if it can carry the same each
    way."""
    tied = {there: back for there, back in told.both_ways}
    backs = {there: arcs[back - 1] for there, back in tied.items()}
    backs = {there: it for there, it in backs.items() if it.capacity == arcs[there - 1].capacity}
    second = {tied[there] for there in backs}
    for place, arc in enumerate(arcs, 1):
        if told.folding.role(arc.tail, arc.head) or place in second:
            continue
        back, flow, is_in_cut = backs.get(place), arc.flow, arc.is_in_cut
        if back:
            flow, is_in_cut = EXACT.subtract(flow, back.flow), is_in_cut or back.is_in_cut
        yield ArcRow(
            arc.number,
            told.arc(arc.number),
            told.node(arc.tail),
            told.node(arc.head),
            flow,
            arc.capacity,
            is_in_cut,
            told.extra.of(told.row(arc.number)),
            bool(back),
        )


def _place_rows(arcs: Sequence[WriterRow], told: Told) -> list[PlaceRow]:
    folding = told.folding
    of_roles: dict[tuple[str, int], list[WriterRow]] = {
        known: [] for known in folding.known_roles()
    }
    tails: list[int] = []
    heads: list[int] = []
    carried: dict[tuple[str, int], Quantity] = defaultdict(int)
    for arc in arcs:
        if role := folding.role(arc.tail, arc.head):
            of_roles.setdefault((role.kind, role.node), []).append(arc)
            continue
        tails.append(folding.place(arc.tail))
        heads.append(folding.place(arc.head))
        if folding.has_unlimited:
            carried[SUPPLY, tails[-1]] += arc.capacity
            carried[DEMAND, heads[-1]] += arc.capacity
    plain = {
        kind: folding.place(end)
        for kind, end in zip((SUPPLY, DEMAND), told.ends)
        if not folding.is_joint(end)
    }
    if not of_roles and ends_alone(tails, heads) == ([plain[SUPPLY]], [plain[DEMAND]]):
        return []
    rows = [(node, PlaceRow(told.node(node), kind, None)) for kind, node in plain.items()]
    rows += (
        (node, _row_of(kind, node, found, carried, told))
        for (kind, node), found in of_roles.items()
    )
    there = {*tails, *heads}
    # A place without an arc gives, takes and lets through nothing; but one that is all that gives,
    # or takes, is told.
    kinds = [row.kind for node, row in rows if node in there]
    kept = [
        row for node, row in rows if node in there or row.kind != LIMIT and row.kind not in kinds
    ]
    return sorted(kept, key=lambda row: (SUPPLY, DEMAND, LIMIT).index(row.kind))


def _row_of(
    kind: str,
    node: int,
    arcs: list[WriterRow],
    carried: dict[tuple[str, int], Quantity],
    told: Told,
) -> PlaceRow:
    """Return what the arcs say of a role that stand for it. Without one the place gives, takes or
    lets through nothing."""
    most: Quantity = sum(arc.capacity for arc in arcs)
    is_unlimited = (
        bool(arcs)
        and told.folding.is_unlimited(kind, node)
        and node not in told.limited
        and carried[kind, node] <= most
    )
    flow: Quantity | None = sum(arc.flow for arc in arcs) if arcs else None
    in_cut = [arc.is_in_cut for arc in arcs]
    is_in_cut = None if None in in_cut or not arcs else any(in_cut)
    number = arcs[0].number if len(arcs) == 1 else None
    return PlaceRow(told.node(node), kind, None if is_unlimited else most, number, flow, is_in_cut)
