"""Networks of tables in Python. Numbers are those of the table, and nodes its places."""

from __future__ import annotations

from collections.abc import Callable, Hashable, Mapping, Sequence
from dataclasses import replace
from functools import cached_property
from typing import Any, Optional, cast

from ..arcs import Arc, OpenArcs
from ..errors import CapacitiesPast64Bits, shown_value
from ..network import Network, ScaledNetwork
from ..notebook import table as html_table
from ..quantity import Quantity
from ..session.base import import_package
from ..session_holder import exclusive
from ..solution import Flows
from ..text.lexical import ARC, NODE
from ..text.spelling import written
from ..text.table_comments import Role, table_comments
from .arcs_and_places import Term
from .other_columns import Extra
from .table_answers import FoldedColumns, InnerNode, TableCut, TableSolution
from .titles import DEMAND, LIMIT, SUPPLY


class TableNetwork(ScaledNetwork[str]):
    """The network of a table, made by `read_table`. It is a `Network` of the table's places, whose
    numbers are those of the table: ints if all are whole, else Decimals. Calls take numbers of any
    kind, and texts as in the table (`cap("Main", "47,3")`), with no more decimals than the table's.

    `unit` is the unit of the numbers, `notes` say what was assumed and what looks like a mistake,
    and `extra` has the other columns of the table, by their titles. `sources` and `sinks` have the
    most that each gives or takes, and `limits` the most that places let through; None stands for no
    limit. Shutting a place with a limit closes the arcs that enter it.

    A pipe that leads both ways is two arcs. Its name alone is refused with `AmbiguousArc`, and each
    way, named by its ends, is one change, for `undo` and for `history`: `undo(2)` takes back
    both."""

    notes: list[str] = []
    # What reads the other columns, when somebody asks for them; and the first arc of each row of
    # the table.
    _load: Callable[[], Extra] = Extra
    _rows: Sequence[int] = ()
    # All open arcs, and those of them that are of the table.
    _shown: tuple[OpenArcs[str], OpenArcs[str]] | None = None

    @staticmethod
    def _class_of_copies() -> type[Network[Any]]:
        return TableNetwork

    @property
    def _columns(self) -> FoldedColumns:
        return cast(FoldedColumns, self._kept.columns)

    @property
    def _roles(self) -> Mapping[int, Role]:
        """The roles of the arcs that are not in the table, by their numbers."""
        return self._columns.described.roles

    @property
    def unit(self) -> str:
        """The unit of the numbers; empty if the table names none."""
        return self.measure.unit

    def _terms(self, kind: str) -> dict[str, Optional[Quantity]]:
        """Return the places that give, take or let through, each with the most that it can, or None
        for no limit."""
        named, capacities = self._columns.names, self._kept.capacities
        found: dict[str, Optional[Quantity]] = {
            named[role.node - 1]: None
            if role.is_unlimited
            else self._quantity(capacities[number - 1])
            for number, role in self._roles.items()
            if role.kind == kind
        }
        end = self._kept.source if kind == SUPPLY else self._kept.sink
        if kind != LIMIT and not found:
            found[named[self._kept.number(end) - 1]] = None
        return found

    @property
    def sources(self) -> dict[str, Optional[Quantity]]:
        """The sources, each with the most that it gives, or None for no limit."""
        return self._terms(SUPPLY)

    @property
    def sinks(self) -> dict[str, Optional[Quantity]]:
        """The sinks, each with the most that it takes, or None for no limit."""
        return self._terms(DEMAND)

    def _ends(self) -> set[str]:
        return {*self.sources, *self.sinks}

    @property
    def limits(self) -> dict[str, Optional[Quantity]]:
        """The places with limits, and the most that may pass through each."""
        return self._terms(LIMIT)

    @property
    def source(self) -> Any:
        """The source, or a tuple of several."""
        return _one(self.sources)

    @property
    def sink(self) -> Any:
        """The sink, or a tuple of several."""
        return _one(self.sinks)

    @property
    def nodes(self) -> list[str]:
        """The places, in their order."""
        return self._columns.places()

    @property
    def arcs(self) -> Sequence[Arc[str]]:
        """The open arcs of the table, in their order, and those that were added."""
        opened = self._kept.opened()
        if self._shown is None or self._shown[0] is not opened:
            self._shown = opened, opened.without(self._roles)
        return self._shown[1]

    def _every_arc(self) -> OpenArcs[str]:
        return super()._every_arc().without(self._roles)

    def _inner_nodes(self) -> dict[str, int]:
        kept, halves = self._kept, self._columns.described.halves
        ends = {halves.get(end, end) for end in map(kept.number, (kept.source, kept.sink))}
        numbers = {place: kept.number(place) for place in self.nodes}
        return {place: number for place, number in numbers.items() if number not in ends}

    @cached_property
    def _extra(self) -> Extra:
        return self._load()

    @cached_property
    def extra(self) -> dict[str, list[str]]:
        """The columns of the table that were not needed: by their titles, a cell for each row of an
        arc."""
        return self._extra.by_title(self._rows)

    def cap(self, arc: Any, capacity: Any) -> Any:
        """Change a capacity as `Network.cap` does, in the table's numbers."""
        found = self.arc(arc)
        if found.number not in self._kept.closed:
            self._judge_room(
                found.tail, found.head, self._whole(capacity, found) - self._kept.capacity(found)
            )
        return super().cap(found, capacity)

    def _add(
        self, tail: str, head: str, room: int, key: Hashable, replaced: int | None
    ) -> Arc[str]:
        self._judge_room(tail, head, room)
        return super()._add(tail, head, room, key, replaced)

    def _solution(self, flows: Flows[str]) -> TableSolution:
        return TableSolution(flows, self.measure, self._roles)

    @exclusive
    def cut(self) -> TableCut:
        """Return the cut as `Network.cut` does, in the table's numbers, with the places whose
        supply, demand or limit is in it."""
        capacity, side = self._session.cut()
        names, is_place = self._columns.names, self._columns.is_place
        places = frozenset(names[node - 1] for node in side if is_place(node))
        crossing = self._kept.leaving(side)
        arcs = tuple(arc for arc in crossing if arc.number not in self._roles)
        roles = [(self._roles[arc.number], arc) for arc in crossing if arc.number in self._roles]
        terms = tuple(
            Term(role.kind, names[role.node - 1], self._quantity(self._kept.capacity(arc)))
            for role, arc in roles
        )
        return TableCut(self._quantity(capacity), places, arcs, self.nodes, terms)

    @exclusive
    def problem(self, *, names: bool = True, escapes: bool = False) -> str:
        """Return the problem in the program's whole numbers, with comments that say what they stand
        for and which arcs are not in the table. With `names`, comments also name the nodes and
        arcs, and have the other columns of the table. A name that no comment can contain is
        escaped."""
        opened, columns = self._kept.opened(), self._columns
        places = {number: place for place, number in enumerate(opened.numbers(), 1)}
        roles = {places[number]: role for number, role in self._roles.items() if number in places}
        tied = columns.described.both_ways.among(map(self._row, places))
        before = table_comments(replace(columns.described, roles=roles, both_ways=tied))
        if names:
            labels = enumerate(
                (node.name if isinstance(node, InnerNode) else node for node in columns.numbers), 1
            )
            before += "".join(
                f"c node {number} {written(NODE, number, str(name))}\n"
                for number, name in labels
                if name != number
            )
            keys = {place: self._name(number) for number, place in places.items()}
            before += "".join(
                f"c arc {place} {written(ARC, place, key)}\n"
                for place, key in keys.items()
                if key.strip(" \t")
            )
            before += self._extra.comments(map(self._row, places))
        return before + self._without_room(self._session.problem().decode(), places)

    def _row(self, number: int) -> int:
        """Return the number that an arc had before it was closed and opened again, by which its row
        is found."""
        kept, at = self._kept, number - len(self._columns.tails) - 1
        while at >= 0 and (first := kept.replaced[at]):
            number, at = first, first - len(self._columns.tails) - 1
        return number

    def _name(self, number: int) -> str:
        """Return the name that an arc has in a problem."""
        if number in self._roles:
            return self._columns.inner_names.get(number, "")
        key = self._kept.handle(number).given_key
        return "" if key is None else str(key)

    def _without_room(self, text: str, places: Mapping[int, int]) -> str:
        """Return a problem in which each source or sink without a limit carries as much as its arcs
        do now, and no more: in the session it can carry what they may ever carry. `places` has the
        places of the open arcs, by number."""
        unlimited = {
            number: role
            for number, role in self._roles.items()
            if role.is_unlimited and number in places
        }
        lines = text.split("\n") if unlimited else []
        for number, role in unlimited.items():
            # The problem line and those of the source and the sink come first.
            at = places[number] + 2
            lines[at] = f"{lines[at].rpartition(' ')[0]} {self._carried(role)}"
        return "\n".join(lines) if unlimited else text

    def _carried(self, role: Role) -> int:
        """Return the sum of the capacities of the open arcs at a source or sink."""
        kept, place = self._kept, self._columns.names[role.node - 1]
        numbers = [
            *self._columns.beside(role),
            *(
                arc.number
                for arc in kept.added
                if (arc.tail if role.kind == SUPPLY else arc.head) == place
            ),
        ]
        return sum(kept.capacities[number - 1] for number in numbers if number not in kept.closed)

    def _judge_room(self, tail: str, head: str, more: int) -> None:
        """Raise `CapacitiesPast64Bits` if a source or sink without a limit could not carry `more`
        on an arc."""
        for number, role in self._roles.items():
            end = tail if role.kind == SUPPLY else head
            if (
                role.is_unlimited
                and end == self._columns.names[role.node - 1]
                and self._carried(role) + more > self._kept.capacities[number - 1]
            ):
                raise CapacitiesPast64Bits(shown_value((tail, head)))

    def to_networkx(self) -> Any:
        """Return a graph as `Network.to_networkx` does, with the places and arcs of the table, in
        its numbers."""
        made = import_package("networkx", "a graph").MultiDiGraph()
        made.add_nodes_from(self.nodes)
        for arc, carried in self.flow().items():
            given = {} if arc.given_key is None else {"name": arc.given_key}
            made.add_edge(
                arc.tail,
                arc.head,
                key=arc.number,
                capacity=self.capacity(arc),
                flow=carried,
                **given,
            )
        return made

    def copy(self) -> TableNetwork:
        """Return a copy as `Network.copy` does, with the table's other columns."""
        made = cast(TableNetwork, super().copy())
        made.notes, made._load, made._rows = self.notes, self._load, self._rows
        return made

    def __enter__(self) -> TableNetwork:
        return self

    def __repr__(self) -> str:
        return (
            f"<Network of {len(self.nodes)} places and {len(self.arcs)} arcs, with a flow of "
            f"{self.measure.told(self._kept.value)}>"
        )

    def _repr_html_(self) -> str:
        rows = [(*row, self.capacity(row[0])) for row in self.flow().items()]
        cells = (
            (arc.key if arc.given_key is not None else arc.number, arc.tail, arc.head, flow, most)
            for arc, flow, most in rows
        )
        return html_table(
            repr(self)[1:-1], ("arc", "tail", "head", "flow", "capacity"), len(rows), cells
        )


def _one(terms: Mapping[str, object]) -> Any:
    return next(iter(terms)) if len(terms) == 1 else tuple(terms)
