"""From tables to a network: nodes by the names of places, several sources and sinks, and limits of
places.

Nodes are numbered in the order in which their places come in the table, and arcs in the order of
their rows. After them stand inner nodes and arcs, which are not of the table:

- the second half of each place with a limit, which has the same name. Arcs into the place enter its
  first half, arcs out of it leave its second half, and the arc between them, `limit of Depot`,
  carries the limit;
- a node before several sources, `all sources`, with an arc to each, `supply of Mill`; one after
  several sinks, `all sinks`, with an arc from each, `demand of Town`. These carry as much as the
  arcs at the place, or the limit of the source or the sink.
"""

from __future__ import annotations

from array import array
from collections.abc import Sequence
from dataclasses import dataclass, field
from decimal import Decimal
from itertools import chain
from typing import Optional

from ..errors import TableFault
from ..quantity import COMMA, LARGEST, Measure, QuantityFault, decimals, number_in, plain_text
from ..text.both_ways import TwoWayArcs
from ..text.lexical import AMOUNTS, NODES
from ..text.spelling import cleaned, near, quoted_name
from ..text.table_comments import SINKS, SOURCES, Role, TableComments
from .arcs_and_places import Heading, Term
from .built_problem import BuiltProblem
from .headings import ARCS, PLACE_COLUMNS
from .readers import Table
from .sheet import MOST_FAULTS, Faults
from .titles import DEMAND, LIMIT, SUPPLY

MOST_NODES = 16_777_216
MOST_ARCS = 134_217_728
KINDS = {SUPPLY: "source", DEMAND: "sink"}


@dataclass
class NetworkTables:
    """The tables from which a network is made: the arcs, and the terms of places. `both_ways` makes
    two opposite arcs of each row. `scale` is the factor of all numbers; if it is None, it is the
    least power of ten that makes all of them whole. `headings` are the first rows of tables of
    places that were read as titles. `notes` say what was assumed."""

    arcs: Table
    terms: list[Term] = field(default_factory=list)
    both_ways: bool = False
    scale: Optional[Decimal] = None
    headings: list[Heading] = field(default_factory=list)
    notes: list[str] = field(default_factory=list)

    def of_kind(self, kind: str) -> list[Term]:
        """Return what is said of places of this kind, and counts."""
        found = [term for term in self.terms if term.kind == kind]
        return [term for term in found if not term.is_idle] or found

    @property
    def counted(self) -> list[Term]:
        """Return all of it that counts, in its order."""
        kept = {id(term) for kind in PLACE_COLUMNS for term in self.of_kind(kind)}
        return [term for term in self.terms if id(term) in kept]

    @property
    def measure(self) -> Measure:
        """Return how whole numbers stand for the table's."""
        amounts = self.arcs.amounts
        most = max(
            [
                amounts.decimals,
                *(decimals(term.quantity) for term in self.terms if term.quantity is not None),
            ]
        )
        scale = Decimal(10) ** most if self.scale is None else self.scale
        table = "" if self.arcs.path.startswith("/dev/") else self.arcs.path.rpartition("/")[2]
        return Measure(scale, amounts.unit, table, amounts.sign if amounts.sign == COMMA else "")


def too_much(measure: Measure) -> str:
    return f"the capacities are together past {measure.text(LARGEST)}"


def check(plan: NetworkTables) -> None:
    """Raise a `TableFault` for terms of unknown places, terms that are given twice, and sources
    that are also sinks; and if a first row that was read as titles has the name of a place."""
    _refuse_dropped(plan)
    places = plan.arcs.places
    faults: list[TableFault] = []
    known: dict[tuple[str, str], Term] = {}
    for term in plan.counted:
        kind = KINDS.get(term.kind, "")
        said = f"the {kind} {quoted_name(term.place)}"
        if term.place not in places:
            told = (
                f"{said} is in no row of arcs"
                if kind
                else f"no arc has the place {quoted_name(term.place)}"
            )
            faults.append(TableFault(told + near(term.place, places), term.line, term.path))
        elif first := known.get((term.kind, term.place)):
            told = (
                f"{said} is named twice"
                if kind
                else f"{quoted_name(term.place)} has a limit in line {first.line} already"
            )
            faults.append(TableFault(told, term.line, term.path))
        elif term.kind == DEMAND and (SUPPLY, term.place) in known:
            faults.append(
                TableFault(
                    f"source and sink are the same: {quoted_name(term.place)}", term.line, term.path
                )
            )
        known.setdefault((term.kind, term.place), term)
    if faults:
        first_fault, *others = faults
        first_fault.others, first_fault.untold = others[: MOST_FAULTS - 1], max(
            0, len(others) - MOST_FAULTS + 1
        )
        raise first_fault


def _refuse_dropped(plan: NetworkTables) -> None:
    """Refuse a first row that was read as titles, if it has the name of a place."""
    table = plan.arcs
    at = table.layout.at
    if table.heading and any(
        table.heading[at[column]] in table.places for column in ("tail", "head")
    ):
        cell = table.heading[at["capacity"]]
        raise table.fault(f"{quoted_name(cell)} is not a number{ARCS.hint}", table.layout.line)
    for heading in plan.headings:
        if heading.place in table.places:
            raise TableFault(
                f"{quoted_name(heading.amount)} is not a number",
                heading.line,
                heading.path,
            )


class _Maker:
    """A builder, with the nodes and arcs that the network has so far."""

    def __init__(self, plan: NetworkTables, measure: Measure) -> None:
        self.plan = plan
        self.measure = measure
        table = plan.arcs
        self.node_names = list(table.places)
        self.tails, self.heads, self.capacities = array(NODES), array(NODES), array(AMOUNTS)
        self.inner_names: dict[int, str] = {}
        self.halves: dict[int, int] = {}
        self.joints: dict[int, str] = {}
        self.roles: dict[int, Role] = {}
        # By the number of a place: the node that arcs out of it leave, if it is another one.
        self.exits: dict[int, int] = {}
        self.total = 0

    def place(self, term: Term) -> int:
        return self.plan.arcs.places[term.place]

    def exit(self, node: int) -> int:
        return self.exits.get(node, node)

    def add_node(self, name: str) -> int:
        self.node_names.append(name)
        return len(self.node_names)

    def add_arc(self, tail: int, head: int, capacity: int, name: str, role: Role) -> None:
        self.tails.append(tail)
        self.heads.append(head)
        self.capacities.append(capacity)
        self.inner_names[len(self.tails)] = name
        self.roles[len(self.tails)] = role
        self.total += capacity

    def whole(self, term: Term, quantity: Decimal) -> int:
        try:
            return (
                self.measure.whole(quantity)
                if self.plan.scale is None
                else _whole(quantity, self.plan.scale)
            )
        except QuantityFault as fault:
            raise TableFault(
                f"the {term.kind} {plain_text(quantity)!r} of {quoted_name(term.place)} {fault}",
                term.line,
                term.path,
            ) from None

    def split(self) -> None:
        """Split the nodes of the places with limits."""
        for term in self.plan.of_kind(LIMIT):
            first = self.place(term)
            self.exits[first] = self.add_node(term.place)
            self.halves[self.exits[first]] = first

    def add_rows(self) -> None:
        """Add the arcs of the rows."""
        table = self.plan.arcs
        titles = [title.text for title in table.layout.titles]
        faults = Faults(table.path, titles, table.sheet.row_names)
        wholes = table.amounts.wholes(self.measure, faults)
        faults.judge()
        tails: Sequence[int] = table.tails
        if self.exits:
            tails = array(NODES, map(self.exit, table.tails))
        self.tails.extend(tails)
        self.heads.extend(table.heads)
        self.capacities.extend(wholes)
        if self.plan.both_ways:
            backs = array(NODES, map(self.exit, table.heads))
            self.tails = array(NODES, chain.from_iterable(zip(tails, backs)))
            self.heads = array(NODES, chain.from_iterable(zip(table.heads, table.tails)))
            self.capacities = array(AMOUNTS, chain.from_iterable(zip(wholes, wholes)))
        ways = 1 + self.plan.both_ways
        self.total = sum(self.capacities)
        if self.total > LARGEST:
            left = LARGEST
            for place, capacity in enumerate(wholes):
                left -= capacity * ways
                if left < 0:
                    raise table.fault(too_much(self.measure), table.lines[place])

    def add_limits(self) -> None:
        """Add the arcs between the halves of places."""
        for term in self.plan.of_kind(LIMIT):
            first = self.place(term)
            limit = self.whole(term, term.quantity or Decimal(0))
            self.add_arc(
                first, self.exits[first], limit, f"limit of {term.place}", Role(LIMIT, first)
            )
            if self.total > LARGEST:
                raise TableFault(too_much(self.measure), term.line, term.path)

    def unused_name(self, name: str) -> str:
        """Return a name for a node that no other has."""
        names = set(self.node_names)
        return next(
            it
            for it in (name, *(f"{name} {count}" for count in range(2, len(names) + 3)))
            if it not in names
        )

    def join(self, kind: str) -> int:
        """Return the source of the problem, or its sink: its only node, or a node that is joined to
        each of several."""
        terms, is_source = self.plan.of_kind(kind), kind == SUPPLY
        if len(terms) == 1 and terms[0].quantity is None:
            place = self.place(terms[0])
            return place if is_source else self.exit(place)
        unlimited = {
            self.exit(self.place(term)) if is_source else self.place(term): 0
            for term in terms
            if term.quantity is None
        }
        if unlimited:
            for end, capacity in zip(self.tails if is_source else self.heads, self.capacities):
                if end in unlimited:
                    unlimited[end] += capacity
        joint = self.add_node(self.unused_name("all sources" if is_source else "all sinks"))
        self.joints[joint] = SOURCES if is_source else SINKS
        for term in terms:
            place = self.place(term)
            inner, outer = (self.exit(place), place) if is_source else (place, self.exit(place))
            most = unlimited[inner] if term.quantity is None else self.whole(term, term.quantity)
            ends = (joint, outer) if is_source else (outer, joint)
            self.add_arc(
                *ends, most, f"{kind} of {term.place}", Role(kind, place, term.quantity is None)
            )
        return joint

    def net(self) -> BuiltProblem:
        """Return the network."""
        self.split()
        self.add_rows()
        row_count = len(self.tails)
        self.add_limits()
        source, sink = self.join(SUPPLY), self.join(DEMAND)
        if self.total > LARGEST:
            raise TableFault(
                f"with the arcs at the sources and the sinks {too_much(self.measure)}; --source "
                "NAME=LIMIT limits one"
            )
        if len(self.node_names) > MOST_NODES or len(self.tails) > MOST_ARCS:
            raise TableFault(f"more than {MOST_NODES} nodes or {MOST_ARCS} arcs")
        table = self.plan.arcs
        tied = TwoWayArcs(((1, 2, len(table.tails)),) * bool(self.plan.both_ways and table.tails))
        described = TableComments(
            self.measure, self.joints, self.halves, self.roles, tied or table.both_ways
        )
        place_count = len(table.places)
        columns = self.tails, self.heads, self.capacities
        names = table.labels, 1 + self.plan.both_ways, self.inner_names
        return BuiltProblem(
            self.node_names, *columns, *names, described, source, sink, place_count, row_count
        )


def _whole(quantity: Decimal, scale: Decimal) -> int:
    """Return the whole number of a quantity under a scale that was given. Raises a
    `QuantityFault`."""
    (number, over), (scaled, under) = quantity.as_integer_ratio(), scale.as_integer_ratio()
    whole, rest = divmod(number * scaled, over * under)
    if rest:
        raise QuantityFault(
            f"times {scale:f} is not a whole number; --scale {10 ** decimals(quantity)}?"
        )
    if whole > LARGEST:
        raise QuantityFault(f"times {scale:f} is past {LARGEST}")
    return whole


def net_of(plan: NetworkTables) -> BuiltProblem:
    """Return the network of a plan. Raises a `TableFault`."""
    check(plan)
    net = _Maker(plan, plan.measure).net()
    if plan.arcs.unlimited:
        _judge_unlimited(plan, net)
    return net


def _judge_unlimited(plan: NetworkTables, net: BuiltProblem) -> None:
    """Raise a `TableFault` if a way leads from the source to the sink over arcs alone whose
    capacity is missing and was read as unlimited: then nothing limits what can be sent."""
    ways = range(1, net.ways + 1)
    numbers = [net.ways * row + way for row in plan.arcs.unlimited for way in ways]
    numbers += [number for number, role in net.described.roles.items() if role.is_unlimited]
    heads: dict[int, list[int]] = {}
    for number in numbers:
        heads.setdefault(net.tails[number - 1], []).append(net.heads[number - 1])
    seen, left = {net.source}, [net.source]
    while left:
        new = {*heads.get(left.pop(), ())} - seen
        seen |= new
        left += new
    if net.sink in seen:
        ends = " to ".join(quoted_name(net.node_names[end - 1]) for end in (net.source, net.sink))
        why = "all capacities of a way are missing, and are read as unlimited"
        raise plan.arcs.fault(f"nothing limits what can be sent from {ends}: {why}")


def term_of(kind: str, word: str, table: Table) -> Term:
    """Return the source or the sink that a word names: a place, or a place, `=` and its limit.
    Raises a `TableFault`."""
    name = cleaned(word)
    place, equals, limit = name.rpartition("=")
    if name in table.places or not equals or place.rstrip() not in table.places:
        return Term(kind, name, None)
    try:
        quantity = number_in(limit.strip(), table.amounts.sign)
        if quantity < 0:
            raise QuantityFault("is below 0")
        return Term(kind, place.rstrip(), quantity)
    except QuantityFault as fault:
        raise TableFault(
            f"the limit {quoted_name(limit.strip())} of {quoted_name(place.rstrip())} {fault}"
        ) from None
