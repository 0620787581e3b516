"""The model: whole states of a network, kept in lists. Nothing is computed from one state to
another but by the second implementation."""

from __future__ import annotations

from dataclasses import dataclass, field, replace
from typing import Any, NamedTuple

from oracle import changes
from oracle.network import State, is_greatest, smallest_side
from oracle.session import CHANGES
from oracle.texts import Fault

UNBOUNDED = 1_000_000


class Whole(NamedTuple):
    """A state of a network: the arcs with their flow; the capacity of each, or that which it had
    when it was closed; the closed arcs that were opened again, each as another one; and the names
    of the places that were made, whose nodes are the last ones."""

    network: State
    rooms: tuple[int, ...]
    replaced: frozenset[int] = frozenset()
    made: tuple[str, ...] = ()

    def with_places(self, *ends: int | str) -> tuple[Whole, list[int]]:
        """Return the state in which the ends that are texts are made, each as one more node without
        arcs, and the nodes of all ends. Raises a `Fault` if one is there."""
        network, made, nodes = self.network, self.made, list[int]()
        for end in ends:
            if isinstance(end, str):
                if end in made:
                    raise Fault("the place is there")
                network, made = replace(network, nodes=network.nodes + 1), (*made, end)
                end = network.nodes
            nodes.append(end)
        return self._replace(network=network, made=made), nodes

    def changed(self, word: str, *numbers: int) -> Whole:
        """Return the state after a command of a session, or after `open`. Raises the `Fault` for
        which it is refused."""
        before = self.network
        if word == "open":
            (number,) = numbers
            arc = before.arcs[number - 1]
            after = changes.add(before, arc.tail, arc.head, self.rooms[number - 1])
            rooms = (*self.rooms, self.rooms[number - 1])
            return Whole(after, rooms, self.replaced | {number}, self.made)
        after = CHANGES[word](before, *numbers)
        old = (*self.rooms, 0)
        rooms = tuple(old[at] if arc.is_closed else arc.cap for at, arc in enumerate(after.arcs))
        return Whole(after, rooms, self.replaced, self.made)

    def judge_open(self, number: int) -> None:
        """Raise a `Fault` if an arc is open."""
        if not self.network.arcs[number - 1].is_closed:
            raise Fault("arc is open")

    def cut(self) -> tuple[list[int], int, list[int]] | None:
        """Return the smallest side, its capacity and the open arcs out of it; None if the flow is
        not greatest."""
        if not is_greatest(self.network):
            return None
        side, capacity = smallest_side(self.network)
        inside = set(side)
        arcs = enumerate(self.network.arcs, 1)
        crossing = [
            number
            for number, arc in arcs
            if not arc.is_closed and arc.tail in inside and arc.head not in inside
        ]
        return side, capacity, crossing


class NetworkModel:
    """The states of a network, of which those up to `place` are made; at most `bound` of the last
    changes can be undone. Trials stand in each other, each with the place where it began."""

    def __init__(self, first: Whole, bound: int = UNBOUNDED) -> None:
        self.states, self.place, self.bound = [first], 0, bound
        self.floors: list[int] = []
        self._lowest = 0

    @property
    def now(self) -> Whole:
        return self.states[self.place]

    def change(self, word: str, *numbers: int) -> None:
        if word == "open":
            self.now.judge_open(*numbers)
        if self.floors and self.place - self.floors[0] >= self.bound:
            raise Fault("history out of range")
        after = self.now.changed(word, *numbers)
        self.states[self.place + 1 :] = [after]
        self.place += 1
        self._lowest = max(self._lowest, self.place - self.bound)

    def undo(self, count: int) -> None:
        if self.place - count < max([self._lowest, *self.floors[-1:]]):
            raise Fault("nothing to undo")
        self.place -= count

    def redo(self, count: int) -> None:
        if self.place + count >= len(self.states):
            raise Fault("nothing to redo")
        self.place += count

    def begin_trial(self) -> None:
        self.floors.append(self.place)

    def end_trial(self) -> None:
        self.place = self.floors.pop()


@dataclass(frozen=True)
class Scenario:
    """The acts of a scenario, each a word with its numbers, and the state after each, behind the
    first one. The first `at` acts are made, and of these the first `inherited` are another one's.
    """

    states: tuple[Whole, ...]
    acts: tuple[tuple[object, ...], ...] = ()
    at: int = 0
    inherited: int = 0

    @property
    def now(self) -> Whole:
        return self.states[self.at]


@dataclass
class DeskModel:
    """The scenarios of a desk, each of whose steps is followed by a solve, the present one, and
    where its open trials began."""

    first: Whole
    scenarios: dict[str, Scenario] = field(default_factory=dict)
    present: str = "first"
    floors: list[int] = field(default_factory=list)

    def __post_init__(self) -> None:
        self.scenarios[self.present] = Scenario((self.first,))

    @property
    def scenario(self) -> Scenario:
        return self.scenarios[self.present]

    def _take(self, **changes: object) -> None:
        self.scenarios[self.present] = replace(self.scenario, **changes)

    def step(self, word: str, *numbers: Any) -> None:
        now, state = self.scenario, self.scenario.now
        if word == "open":
            now.now.judge_open(*numbers)
            # To a desk the arc is the new one from then on.
            if numbers[0] in now.now.replaced:
                raise Fault("arc is open")
        if word == "shut" and not any(
            numbers[0] in arc[:2] for arc, _ in now.now.network.open_arcs()
        ):
            raise Fault("no arc is open there")
        given = numbers
        if word == "add":
            state, ends = state.with_places(*numbers[:2])
            given = *ends, numbers[2]
        after = state.changed(word, *given).changed("solve")
        self._take(
            states=(*now.states[: now.at + 1], after),
            acts=(*now.acts[: now.at], (word, *numbers)),
            at=now.at + 1,
        )

    def undo(self, count: int) -> None:
        if self.scenario.at - count < (self.floors[-1] if self.floors else self.scenario.inherited):
            raise Fault("nothing to undo")
        self._take(at=self.scenario.at - count)

    def redo(self, count: int) -> None:
        if self.scenario.at + count > len(self.scenario.acts):
            raise Fault("nothing to redo")
        self._take(at=self.scenario.at + count)

    def begin_trial(self) -> None:
        self.floors.append(self.scenario.at)

    def keep(self) -> None:
        if not self.floors:
            raise Fault("no trial")
        self.floors.pop()

    def drop(self) -> None:
        if not self.floors:
            raise Fault("no trial")
        self._take(at=self.floors.pop())

    def _judge(self, is_wrong: bool) -> None:
        if is_wrong or self.floors:
            raise Fault("no such scenario, or a trial is open")

    def new(self, name: str, begun_from: str) -> None:
        self._judge(name in self.scenarios)
        made = Scenario((self.first,))
        if begun_from != "base":
            other = self.scenarios[begun_from]
            made = Scenario(
                other.states[: other.at + 1], other.acts[: other.at], other.at, other.at
            )
        self.scenarios[name], self.present = made, name

    def copy(self, name: str) -> None:
        self._judge(name in self.scenarios)
        self.scenarios[name], self.present = self.scenario, name

    def go(self, name: str) -> None:
        self._judge(name not in self.scenarios)
        self.present = name

    def rename(self, name: str) -> None:
        if name in self.scenarios:
            raise Fault("a scenario is called so")
        self.scenarios = {
            name if it == self.present else it: scenario for it, scenario in self.scenarios.items()
        }
        self.present = name

    def delete(self, name: str) -> None:
        if name == self.present:
            raise Fault("the present scenario")
        del self.scenarios[name]
