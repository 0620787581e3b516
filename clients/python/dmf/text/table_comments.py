"""What a problem text says about the table that it was made from, in comments of fixed forms:

    c capacities are those of the table times 10
    c unit l/s
    c table pipes.csv
    c decimal sign ,
    c inner node NODE sources
    c inner node NODE sinks
    c inner node NODE half PLACE
    c inner arc ARC supply PLACE
    c inner arc ARC demand PLACE unlimited
    c inner arc ARC limit PLACE
    c both ways ARC ARC
    c both ways ARC to ARC

The table does not have the inner nodes and arcs. An inner node joins several sources or sinks, or
is the second half of a place with a limit. An inner arc carries what a source gives, what a sink
takes, or what a place lets through. Nodes and arcs are given by number, and a place by the number
of its node. An unlimited arc can carry as much as the arcs at its place. Two arcs that are the two
ways of one pipe are tied (`both_ways`).

Each comment stands before the problem line, at the beginning of its line, with one blank between
its words; only the scale may stand anywhere. If two comments say the same thing, the first counts.
`extra` reads the comments about the table's other columns.
"""

from __future__ import annotations

import re
from array import array
from collections.abc import Callable, Collection, Iterable, Iterator, Mapping, Sequence
from dataclasses import dataclass, field, replace
from decimal import Decimal

from ..quantity import SIGNS, Measure, Quantity
from . import both_ways as ways
from .both_ways import TiedArcs, TwoWayArcs

SOURCES, SINKS = "sources", "sinks"
SUPPLY, DEMAND, LIMIT = "supply", "demand", "limit"
# The words of the comment that gives the scale of all numbers in a problem.
SCALE_WORDS = "c capacities are those of the table times"
UNIT_WORDS, TABLE_WORDS, SIGN_WORDS, INNER_WORDS = (
    "c unit ",
    "c table ",
    "c decimal sign ",
    "c inner ",
)

# The first words of a comment with the title of another column.
COLUMN_WORDS = b"c column "

_SCALE = re.compile(rf"[ \t]*{SCALE_WORDS} ([0-9]+(?:\.[0-9]+)?)[ \t]*\r?(?:\n|\Z)".encode())
_SAID = {
    words: re.compile(rf"^{words}([^\n]*?)[ \t]*\r?$", re.MULTILINE)
    for words in (UNIT_WORDS, TABLE_WORDS, SIGN_WORDS)
}
_INNER = re.compile(
    rf"^{INNER_WORDS}(?:node ([0-9]{{1,19}}) (?:({SOURCES}|{SINKS})|half ([0-9]{{1,19}}))"
    rf"|arc ([0-9]{{1,19}}) ({SUPPLY}|{DEMAND}|{LIMIT}) ([0-9]{{1,19}})( unlimited)?)[ \t]*\r?$",
    re.MULTILINE,
)


@dataclass(frozen=True)
class Role:
    """What an inner arc carries: what a source gives (`supply`), what a sink takes (`demand`) or
    what a place lets through (`limit`). `node` is the node of the place, or the first of its two.
    The capacity of an unlimited arc is what the arcs at its place can carry."""

    kind: str
    node: int
    is_unlimited: bool = False


@dataclass(frozen=True)
class TableComments:
    """How the whole numbers of a problem stand for quantities, and which nodes and arcs its table
    does not have. `joints` gives the number of a joining node, with `sources` or `sinks`; `halves`
    the number of each second half, with that of the first; `roles` the number of an inner arc, with
    its role; `both_ways` the arcs that are the two ways of one pipe."""

    measure: Measure = Measure()
    joints: Mapping[int, str] = field(default_factory=dict)
    halves: Mapping[int, int] = field(default_factory=dict)
    roles: Mapping[int, Role] = field(default_factory=dict)
    both_ways: TwoWayArcs = TwoWayArcs()

    def within(self, nodes: int, arcs: int) -> TableComments:
        """Return the comments about nodes 1 to `nodes` and arcs 1 to `arcs` alone."""

        def are_nodes(*numbers: int) -> bool:
            return all(1 <= number <= nodes for number in numbers)

        return TableComments(
            self.measure,
            {number: ends for number, ends in self.joints.items() if are_nodes(number)},
            {number: first for number, first in self.halves.items() if are_nodes(number, first)},
            {
                number: role
                for number, role in self.roles.items()
                if 1 <= number <= arcs and are_nodes(role.node)
            },
            self.both_ways.within(arcs),
        )


def described(text: bytes) -> TableComments:
    """Return what the comments of a problem text say about its table. The rest of the text is not
    checked, and nothing is raised."""
    problem_line = 0 if text.startswith(b"p") else text.find(b"\np")
    head = text[:problem_line] if problem_line >= 0 else text
    said = {words: _said(head, words) for words in _SAID}
    sign = said[SIGN_WORDS]
    measure = Measure(
        _scale(text), said[UNIT_WORDS], said[TABLE_WORDS], sign if sign in SIGNS else ""
    )
    joints: dict[int, str] = {}
    halves: dict[int, int] = {}
    roles: dict[int, Role] = {}
    for node, joined, first, arc, kind, place, unlimited in _INNER.findall(
        between(head, INNER_WORDS.encode()).decode(errors="replace")
    ):
        if joined:
            joints.setdefault(int(node), joined)
        elif node:
            halves.setdefault(int(node), int(first))
        else:
            roles.setdefault(int(arc), Role(kind, int(place), bool(unlimited)))
    tied = ways.in_comments(between(head, ways.WORDS.encode()).decode(errors="replace"))
    return TableComments(measure, joints, halves, roles, tied)


def tells_columns(text: bytes) -> bool:
    """Return True if a problem text may have comments about other columns of its table, as `extra`
    reads them."""
    return text.startswith(COLUMN_WORDS) or b"\n" + COLUMN_WORDS in text


def between(text: bytes, words: bytes) -> bytes:
    """Return the lines from the first occurrence of these words to the last. A search for words is
    many times as fast as a search for a pattern."""
    begin = text.find(words)
    if begin < 0:
        return b""
    end = text.find(b"\n", text.rfind(words))
    return text[text.rfind(b"\n", 0, begin) + 1 : end if end >= 0 else len(text)]


def _said(head: bytes, words: str) -> str:
    found = _SAID[words].search(between(head, words.encode()).decode(errors="replace"))
    return found[1] if found else ""


def _scale(text: bytes) -> Decimal:
    at = text.find(SCALE_WORDS.encode())
    while at >= 0:
        found = _SCALE.match(text, text.rfind(b"\n", 0, at) + 1)
        if found and (scale := Decimal(found[1].decode())):
            return scale
        at = text.find(SCALE_WORDS.encode(), at + 1)
    return Decimal(1)


def table_comments(described: TableComments) -> str:
    """Return the comments that describe this table. What is the default without a comment gets
    none."""
    return "".join(line + "\n" for line in _lines(described))


def _lines(described: TableComments) -> Iterable[str]:
    measure = described.measure
    if measure.scale != 1:
        yield f"{SCALE_WORDS} {measure.scale:f}"
    for words, said in (
        (UNIT_WORDS, measure.unit),
        (TABLE_WORDS, measure.table),
        (SIGN_WORDS, measure.sign),
    ):
        if written := _written(said):
            yield f"{words}{written}"
    yield from (f"{INNER_WORDS}node {number} {ends}" for number, ends in described.joints.items())
    yield from (
        f"{INNER_WORDS}node {number} half {first}" for number, first in described.halves.items()
    )
    for number, role in described.roles.items():
        yield f"{INNER_WORDS}arc {number} {role.kind} {role.node}{' unlimited' * role.is_unlimited}"
    yield from described.both_ways.comments()


def _written(text: str) -> str:
    """Return a text as a comment holds it: without blanks around it, and with `\\x0a` and the like
    for what a line cannot hold."""
    return "".join(
        letter if letter.isprintable() else letter.encode("unicode_escape").decode()
        for letter in text.strip(" \t")
    )


# The verb for what a place does in each role, and a shorter one beside its numbers.
DOES = {SUPPLY: "gives at most", DEMAND: "takes at most", LIMIT: "lets through"}
AT_PLACE = {SUPPLY: "gives", DEMAND: "takes", LIMIT: "lets through"}
# How the words begin that say what an inner arc stands for.
ROLE_WORD = "what "
MOST_ENDS = 6


class TableRoles:
    """Which nodes and arcs of a problem stand for what in its table."""

    def __init__(self, described: TableComments) -> None:
        self._joints = described.joints
        self._both_ways, self._inner = described.both_ways, described.roles
        self._first = described.halves
        self._second = {first: second for second, first in described.halves.items()}
        self._at_joints: dict[int, list[int]] = {joint: [] for joint in described.joints}
        self._unlimited = {
            (role.kind, role.node) for role in described.roles.values() if role.is_unlimited
        }
        for role in described.roles.values():
            for joint, ends in described.joints.items():
                if role.kind == (SUPPLY if ends == SOURCES else DEMAND):
                    self._at_joints[joint].append(role.node)
        # The nodes at which the problem may have arcs that its table does not have.
        self.inner_nodes = {*self._joints, *self._first}
        self.has_roles = bool(self.inner_nodes)
        # True if an inner arc stands for an unlimited source or sink.
        self.has_unlimited = bool(self._unlimited)

    def is_unlimited(self, kind: str, node: int) -> bool:
        """Return True if an inner arc of this kind at the place stands for an unlimited source or
        sink."""
        return (kind, node) in self._unlimited

    def known_roles(self) -> Iterator[tuple[str, int]]:
        """Yield the roles that places have: the kind and the node of the place."""
        for joint, nodes in self._at_joints.items():
            yield from (
                (SUPPLY if self._joints[joint] == SOURCES else DEMAND, node) for node in nodes
            )
        yield from ((LIMIT, node) for node in self._second)

    def is_joint(self, node: int) -> bool:
        return node in self._joints

    def place(self, node: int) -> int:
        """Return the node of the place that a node belongs to: the first one if the place has
        two."""
        return self._first.get(node, node)

    def second(self, node: int) -> int:
        """Return the node that arcs leave at a place, given the node that arcs enter there."""
        return self._second.get(node, node)

    def places(self, nodes: Iterable[int]) -> list[int]:
        """Return the places that these nodes belong to, each once, in order."""
        first, joints = self._first, self._joints
        return list(dict.fromkeys([first.get(node, node) for node in nodes if node not in joints]))

    def ends(self, node: int) -> list[int]:
        """Return the places that the problem's source or sink stands for."""
        return self._at_joints[node] if node in self._joints else [self.place(node)]

    def role(self, tail: int, head: int) -> Role | None:
        """Return the role of an arc with these ends, or None if the table has the arc."""
        if tail in self._joints or head in self._joints:
            kind, node = (
                (SUPPLY, self.place(head)) if tail in self._joints else (DEMAND, self.place(tail))
            )
            return Role(kind, node, (kind, node) in self._unlimited)
        return Role(LIMIT, tail) if self._first.get(head) == tail and tail != head else None

    def partners(self, tails: Sequence[int], heads: Sequence[int]) -> array[int]:
        """Return for each arc of the problem, by its number, the other way of its pipe, or 0;
        nothing if no pipe leads both ways."""
        return ways.partners(self._both_ways, tails, heads, self._inner, self.place)

    def ties(self, arcs: Sequence[tuple[int, int, int]]) -> TiedArcs:
        """Return which of the problem's arcs are the two ways of one pipe."""
        told = arcs if self._both_ways else ()
        return TiedArcs(self.partners([it[0] for it in told], [it[1] for it in told]))

    def at_role(self, role: Role, tail: int, head: int) -> bool:
        """Return True if an arc of the table with these ends carries what the place in a role gives
        or takes."""
        if self.role(tail, head):
            return False
        return tail == self.second(role.node) if role.kind == SUPPLY else head == role.node

    def told_side(
        self,
        side: set[int],
        arcs: Iterable[tuple[int, int, Quantity]],
        limited: Collection[int] = (),
    ) -> set[int]:
        """Return the source side of a minimum cut without arcs of unlimited sources and sinks, made
        from the side of the smallest one and the open arcs with their capacities.

        An unlimited source that is not on the side is added, and an unlimited sink on it is
        removed: the arcs at that place carry no more than was counted for the place itself. If an
        inner arc carries less than the arcs at its place, or if the place was given a limit, the
        arc stays in the cut.
        """
        crossing: dict[Role, Quantity] = {}
        opened = list(arcs) if self._unlimited else []
        for tail, head, capacity in opened:
            role = self.role(tail, head)
            if (
                role
                and role.is_unlimited
                and role.node not in limited
                and tail in side
                and head not in side
            ):
                crossing[role] = capacity
        told = set(side)
        for role, capacity in crossing.items():
            nodes = {role.node, self.second(role.node)}
            if (
                sum(more for tail, head, more in opened if self.at_role(role, tail, head))
                <= capacity
            ):
                told = told | nodes if role.kind == SUPPLY else told - nodes
        return told

    def roles(self, ends: Iterable[tuple[int, int]]) -> Iterator[tuple[int, Role]]:
        """Yield the roles of arcs with these ends, by their numbers from 1."""
        return (
            (number, role)
            for number, (tail, head) in enumerate(ends, 1)
            if (role := self.role(tail, head))
        )


def role_words(role: Role, label: Callable[[int], str], does: Mapping[str, str] = DOES) -> str:
    """Return what an inner arc stands for: `what Mill gives at most`. The verb for what a place
    does is that of its role."""
    return ROLE_WORD + role_phrase(role, label, does)


def role_phrase(role: Role, label: Callable[[int], str], does: Mapping[str, str] = DOES) -> str:
    """Return the beginning of a sentence about an inner arc: `Mill gives at most`."""
    return f"{label(role.node)} {does[role.kind]}"


def renumbered(
    described: TableComments,
    ends: Iterable[tuple[int, int]],
    both_ways: TwoWayArcs,
    limited: Collection[int] = (),
) -> TableComments:
    """Return the same description for a problem with other arcs, which have these ends, and of
    which some are tied, after the sources and sinks at `limited` were given limits."""
    if not described.joints and not described.halves:
        return replace(described, both_ways=both_ways)
    roles = {
        number: replace(role, is_unlimited=role.is_unlimited and role.node not in limited)
        for number, role in TableRoles(described).roles(ends)
    }
    return replace(described, roles=roles, both_ways=both_ways)


def listed(names: Iterable[str], most: int = MOST_ENDS) -> str:
    """Return names as in a sentence: `Mill, Weir and Town`."""
    found = list(names)
    rest = len(found) - most
    if rest > 0:
        return f"{', '.join(found[:most])} and {rest} more"
    return " and ".join([", ".join(found[:-1]), found[-1]] if len(found) > 1 else found)
