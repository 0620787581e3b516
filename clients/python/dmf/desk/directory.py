"""The names of a desk's places and arcs, and what a planner means by a text."""

from __future__ import annotations

from collections.abc import Iterable, Iterator, Sequence
from functools import cached_property
from typing import NamedTuple

from ..columns import Index
from ..text.lexical import display
from ..text.spelling import (
    cleaned,
    folded,
    folded_names,
    near,
    quoted_name,
    shown_names,
    typed_names,
)
from ..text.table_comments import Role, TableRoles, listed, role_phrase, role_words
from .arc_lines import ArcLines
from .arcs_by_name import ArcsByName
from .pipes import Pipes
from .steps import DeskFault, Node, Place, UnknownPlace
from .subject_words import Words

MOST_LISTED = 6
# The separators between the ends of an arc that is named by them, the longest first.
ARROWS = (" <-> ", "<->", " -> ", "->", " - ", "-")


class ArcNames(NamedTuple):
    """The names of an arc: its own name or what it stands for, which may be empty; a short one, its
    name or else its ends; a full one, with both; and its ends, with the nodes of their places."""

    name: str
    short: str
    label: str
    tail_node: int
    head_node: int
    tail: str
    head: str
    role: Role | None


class Directory:
    """The names of places and arcs, and which of them a text means. A node or an arc that is not in
    the table is named by its meaning: a place with a limit is one place, and the arc that has the
    limit is `what Mill lets through`."""

    def __init__(
        self,
        node_names: Sequence[str],
        lines: ArcLines,
        pipes: Pipes,
        nodes: Sequence[Node],
        folding: TableRoles,
        words: Words,
    ) -> None:
        """Take as `lines` the arcs, of which there may be more later."""
        self._words = words
        self._lines, self._pipes = lines, pipes
        self._folding = folding
        self._has_roles = folding.has_roles
        # Whether a name that is only one without regard to case and accents means that one.
        self.is_any_case = False
        self._node_names = node_names
        self._nodes = nodes
        self._arcs = ArcsByName(lines, folding.inner_nodes, self._typed)
        # They take in an arc that was added, and take it out again.
        self.put, self.drop = self._arcs.put, self._arcs.drop
        # The names of the places that were made, whose nodes are those after the table's.
        self.made_names: tuple[str, ...] = ()

    @cached_property
    def nodes(self) -> dict[Node, int]:
        """Return the nodes, each with its number."""
        return {node: number for number, node in enumerate(self._nodes, 1)}

    @property
    def given_count(self) -> int:
        """Return how many nodes the problem has."""
        return len(self._node_names)

    @property
    def node_count(self) -> int:
        """Return how many nodes there are with those of the places that were made."""
        return self.given_count + len(self.made_names)

    @property
    def made(self) -> dict[int, str]:
        """Return the names of the places that were made, by their nodes."""
        return dict(enumerate(self.made_names, self.given_count + 1))

    def add_spare(self, node: Node) -> None:
        """Take in a node that a place can be made of."""
        self.nodes[node] = len(self.nodes) + 1

    def call(self, made: tuple[str, ...]) -> None:
        """Take as the places that were made those with these names."""
        labels, places = self._labels, self.places
        # If an error breaks this off, the next call takes back what is half done.
        before, self.made_names = self.made_names, (*self.made_names, *made, "")
        for name in before:
            places.pop(name, None)
        del labels[self.given_count :]
        for number, name in enumerate(made, self.given_count + 1):
            labels.append(name)
            places[name] = number
        vars(self).pop("_folded_places", None)
        self.made_names = made

    def new_name(self, text: str) -> str:
        """Return the name that a text gives a new place. Raise a `DeskFault` if a place has it, or
        one that differs in capitals and accents alone, if several have, or if it cannot be one."""
        name = cleaned(text)
        if not name or display(name) != name or self._numbered(name):
            raise DeskFault(f"{quoted_name(name)} cannot be the name of a place")
        for other in self._folded_places.find(folded(name)):
            self.place(other)
            raise DeskFault(f"a place called {quoted_name(other)} already exists")
        return name

    @cached_property
    def _labels(self) -> list[str]:
        """Return what each node is called. Both nodes of a place are called as it is."""
        labels, place = [*shown_names(self._node_names)], self._folding.place
        return (
            [labels[place(number) - 1] for number in range(1, len(labels) + 1)]
            if self._has_roles
            else labels
        )

    @cached_property
    def _called(self) -> tuple[dict[str, int], dict[str, list[int]]]:
        """Return the first nodes of places by what can be typed for them: by the names that one
        place alone has, and by those that several have."""
        nodes, names = range(1, len(self._labels) + 1), typed_names(self._labels)
        places: Sequence[int] = nodes
        if self._has_roles:
            places = self._folding.places(nodes)
            names = [names[node - 1] for node in places]
        alone = dict(zip(names, places))
        if len(alone) == len(names):
            return alone, {}
        found: dict[str, list[int]] = {}
        for name, node in zip(names, places):
            found.setdefault(name, []).append(node)
        alone = {name: numbers[0] for name, numbers in found.items() if len(numbers) == 1}
        return alone, {name: numbers for name, numbers in found.items() if len(numbers) > 1}

    @cached_property
    def places(self) -> dict[str, int]:
        """Return the first nodes of places by their names, if one place alone has it."""
        return self._called[0]

    @cached_property
    def _several(self) -> dict[str, list[int]]:
        """Return the first nodes of the names that several places have."""
        return self._called[1]

    def _typed(self, number: int) -> set[str]:
        """Return the names by which an arc can be typed: how it is called, also by dmf-names, and
        its name in the problem."""
        role = self._folding.role(*self._ends(number))
        given = role_words(role, self.node) if role else ""
        names = self.arc_name(number), given, display(self.given_arc(number))
        return {cleaned(name) for name in names if name}

    def _ends(self, number: int) -> tuple[int, int]:
        return self._lines.ends_of(number)

    def node(self, number: int) -> str:
        """Return the name of a node's place."""
        return self._labels[number - 1]

    def terminal(self, node: int) -> str:
        """Return the name of the source or the sink of the network: if it joins several places,
        their names."""
        return listed(map(self.node, self._folding.ends(node)))

    def side(self, nodes: Iterable[int]) -> list[str]:
        """Return the places that have these nodes, by their names."""
        labels = self._labels
        return [labels[number - 1] for number in self._folding.places(sorted(nodes))]

    def phrase(self, number: int) -> str:
        """Return the beginning of a sentence about the capacity of an arc: `Mill Lane carries`."""
        role = self._folding.role(*self._ends(number))
        does, carries = self._words.does, self._words.page.most
        return role_phrase(role, self.node, does) if role else f"{self.short(number)} {carries}"

    def is_role(self, number: int) -> bool:
        """Return True if an arc is not of the table, but stands for what a place gives, takes or
        lets through."""
        return self._folding.role(*self._ends(number)) is not None

    def arc_name(self, number: int) -> str:
        """Return the name of an arc, or nothing."""
        role = self._folding.role(*self._ends(number))
        return self._role_words(role) if role else display(self.given_arc(number))

    def _role_words(self, role: Role) -> str:
        return role_words(role, self.node, self._words.does)

    def given_node(self, number: int) -> str:
        """Return the name of a node as it was given, which may have what nobody can see."""
        given = self.given_count
        return (
            self._node_names[number - 1] if number <= given else self.made_names[number - given - 1]
        )

    def given_arc(self, number: int) -> str:
        """Return the name of an arc as it was given, or nothing."""
        key = self._lines.key(number)
        return key if isinstance(key, str) else ""

    def arc_names(self, number: int) -> ArcNames:
        """Return all that the pipe of an arc is called: `Mill <-> Town` if it leads both ways."""
        arrow = " -> "
        if self._pipes.are_two_way:
            number = self._pipes.number(number)
            arrow = " <-> " if self._pipes.is_two_way(number) else arrow
        tail, head, key = self._lines.ends_and_key(number)
        ends = (tail_label, head_label) = self._labels[tail - 1], self._labels[head - 1]
        role, tail_node, head_node = None, tail, head
        if self._has_roles:
            role = self._folding.role(tail, head)
            tail_node, head_node = map(self._folding.place, (tail, head))
        name = display(key) if isinstance(key, str) else ""
        if role:
            name = label = self._role_words(role)
        else:
            label = arrow.join(ends)
            label = f"{name}, {label}" if name else label
        return ArcNames(
            name, name or label, label, tail_node, head_node, tail_label, head_label, role
        )

    def arc(self, number: int) -> str:
        """Return an arc by its name and its ends."""
        return self.arc_names(number).label

    def short(self, number: int) -> str:
        """Return an arc by its name, or else by its ends."""
        return self.arc_names(number).short

    def place(self, text: str) -> Place:
        """Return the place with this name. Raise a `DeskFault`."""
        name = self._place_name(cleaned(text))
        if name in self.places:
            return self.place_of(self.places[name])
        if name in self._several:
            listed = ", ".join(f"#{number}" for number in self._several[name][:MOST_LISTED])
            raise DeskFault(
                f"several nodes are called {quoted_name(name)}: {listed}; choose one by its number"
            )
        number = self._numbered(name)
        if number:
            return self.place_of(number)
        raise UnknownPlace(f"no place is called {quoted_name(name)}{near(name, self.places)}")

    def place_of(self, node: int) -> Place:
        """Return the place of a node. Raise a `DeskFault` if no place has a node of this number."""
        if not 1 <= node <= len(self._labels) or self._folding.is_joint(node):
            raise DeskFault(f"place #{node} does not exist")
        first = self._folding.place(node)
        return Place(first, self._folding.second(first))

    def spoken_place(self, node: int) -> str:
        """Return how the place of a node is typed."""
        return cleaned(self.node(node))

    def alike(self, number: int) -> list[int]:
        """Return the arcs with the ends and the name of one, in their order; none that was opened
        again as another one."""
        return self.alike_between(*self._ends(number), self.arc_name(number))

    def alike_between(self, tail: int, head: int, name: str) -> list[int]:
        """Return the arcs of a name, which may be empty, between two nodes, in their order."""
        found = self._lines.between(tail, head)
        return [number for number in found if self.arc_name(number) == name]

    def is_place(self, text: str) -> bool:
        return self._place_name(cleaned(text)) in self.places

    def has_place(self, text: str) -> bool:
        """Return True if a place has this name, or several have it."""
        name = self._place_name(cleaned(text))
        return name in self.places or name in self._several

    def _place_name(self, name: str) -> str:
        """Return the name of the place that a text names, if it may be in any case, or else the
        text."""
        found = (
            self._folded_places.find(folded(name))
            if self.is_any_case and name not in self.places
            else []
        )
        return found[0] if len(found) == 1 else name

    @cached_property
    def _folded_places(self) -> Index[str]:
        """Return the names of places, by what they are without case and accents."""
        names = [*self.places, *self._several]
        return Index(lambda: folded_names(names), names)

    def _arcs_called(self, name: str) -> list[int]:
        """Return the arcs of this name or, if it may be in any case and no arc has it, those of the
        only name that differs in case and accents alone."""
        found = self._arcs.find(name)
        if not found and self.is_any_case:
            others = self._arcs.spellings(name)
            return self._arcs.find(others[0]) if len(others) == 1 else []
        return found

    @staticmethod
    def _numbered(name: str) -> int:
        """Return the number of a text like `#7`, or 0."""
        digits = name[1:]
        return (
            int(digits)
            if name[:1] == "#" and digits.isascii() and digits.isdigit() and len(digits) < 12
            else 0
        )

    def arcs(self, text: str) -> list[int]:
        """Return the pipes, open or closed, that a text names: by their name, by their ends, as in
        `Mill-Town` or `Mill Town`, or by their number, as in `#7`. Raise a `DeskFault` if there are
        none."""
        found = self.arcs_or_none(text)
        if not found:
            raise DeskFault(self._unknown_arc(cleaned(text)))
        return found

    def arcs_or_none(self, text: str) -> list[int]:
        """Return the same pipes, or none."""
        name = cleaned(text)
        number = self._numbered(name)
        found = {number: None} if 1 <= number <= len(self._lines) else {}
        found.update(dict.fromkeys(self._arcs_called(name)))
        for tail, head in self._splits(name):
            ends = self._folding.second(self.places[tail]), self.places[head]
            found.update(dict.fromkeys(self._lines.between(*ends)))
        return sorted(self._pipes.numbers(found))

    def _splits(self, name: str) -> Iterator[tuple[str, str]]:
        """Yield the pairs of places whose names, with an arrow or a space between them, are this
        text."""
        for arrow in (*ARROWS, " "):
            at = name.find(arrow)
            while at >= 0:
                tail, head = (
                    self._place_name(part.strip()) for part in (name[:at], name[at + len(arrow) :])
                )
                if tail in self.places and head in self.places:
                    yield tail, head
                at = name.find(arrow, at + 1)

    def _unknown_arc(self, name: str) -> str:
        noun = self._words.noun
        for tail, head in self._splits(name):
            return f"no {noun} leads from {quoted_name(tail)} to {quoted_name(head)}"
        if name.isascii() and name.isdigit() and 1 <= int(name) <= len(self._lines):
            return f"no {noun} is called {quoted_name(name)}; is it #{name}, {self.arc(int(name))}?"
        return f"no {noun} is called {quoted_name(name)}{near(name, self.spoken())}"

    def spoken(self) -> Iterator[str]:
        """Return for each arc a text that means it."""
        return map(self.called, range(1, len(self._lines) + 1))

    def called(self, number: int) -> str:
        """Return a text that means an arc: its name, or else its ends."""
        return self.arc_name(number) or "-".join(map(self.node, self._ends(number)))

    def list(self, numbers: Sequence[int]) -> str:
        listed = ", ".join(f"#{number} ({self.arc(number)})" for number in numbers[:MOST_LISTED])
        return listed + ", .." * (len(numbers) > MOST_LISTED)
