"""The answers of a session about the flow in a network."""

from __future__ import annotations

from array import array
from collections.abc import Callable, Hashable, ItemsView, Iterator, Mapping, ValuesView
from typing import Any, Generic, TypeVar, overload

from . import arrays
from .arcs import Arc, OpenArcs
from .columns import Node

# Programs may import it from here, as they did in version 0.1.0.
from .cut import Cut as Cut  # noqa: F401
from .errors import NoSuchArc, SessionEnded
from .session.base import Told
from .session.column_texts import flow_array, read_flows

Other = TypeVar("Other")


class Flows(Generic[Node]):
    """The flow of one state of a network, fetched from the session when it is first needed, and at
    the latest before the network changes. It keeps the session's answer, a text or an array, and
    parses a text when a flow is first looked up.
    """

    def __init__(
        self, value: int, arcs: OpenArcs[Node], capacities: array[int], ask: Callable[[], Told]
    ) -> None:
        self.value = value
        self.arcs = arcs
        # These belong to the network until it changes.
        self._capacities = capacities
        self._ask: Callable[[], Told] | None = ask
        self._told: Told = b""

    def settle(self, ask: Callable[[], Told] | None = None) -> None:
        """Fetch the flow, unless that was done before. A caller that is using the session passes
        the function that asks it."""
        own = self._ask
        if own:
            told = (ask or own)()
            # Another thread that changed the network meanwhile may have fetched it first.
            if self._ask:
                self._told, self._ask = told, None

    def lose(self, error: SessionEnded) -> None:
        """Record that the session can no longer answer. If the flow was not fetched before, asking
        for it raises this error."""

        def ask() -> Told:
            raise error

        if self._ask:
            self._ask = ask

    def part(self, ask: Callable[[], Told]) -> None:
        """Fetch and copy everything that the network will no longer have after a change."""
        self.settle(ask)
        self._capacities = self._capacities[:]

    def told(self) -> Told:
        """Return the session's answer: the text of the solution, or the flow on each open arc."""
        self.settle()
        return self._told

    def numbers(self) -> array[int]:
        """Return the flow on each open arc, or raise `SessionEnded` if the answer has none."""
        told = self.told()
        if isinstance(told, array):
            return told
        numbers = read_flows(told, len(self.arcs))
        if numbers is None:
            raise SessionEnded(
                "the answer of dmf was not understood: it does not have a flow for each open arc"
            )
        self._told = numbers
        return numbers

    def capacities(self) -> array[int]:
        """Return the capacities of the open arcs."""
        return self.arcs.chosen(self._capacities)

    def __reduce__(self) -> tuple[Any, ...]:
        return _settled, (self.value, self.arcs, self._capacities[:], self.numbers())


def _settled(
    value: int, arcs: OpenArcs[Any], capacities: array[int], numbers: array[int]
) -> Flows[Any]:
    flows = Flows(value, arcs, capacities, lambda: numbers)
    flows.settle()
    return flows


class _Values(ValuesView[int]):
    """The flows in the order of the arcs, without looking up each arc."""

    def __init__(self, solution: Solution[Any]) -> None:
        super().__init__(solution)
        self._flows = solution._flows

    def __iter__(self) -> Iterator[int]:
        return iter(self._flows.numbers())


class _Items(ItemsView[Arc[Node], int]):
    """The arcs with their flows, without looking up each arc."""

    def __init__(self, solution: Solution[Node]) -> None:
        super().__init__(solution)
        self._flows = solution._flows

    def __iter__(self) -> Iterator[tuple[Arc[Node], int]]:
        return zip(self._flows.arcs, self._flows.numbers())


class Solution(Mapping[Arc[Node], int], Generic[Node]):
    """The flow on each open arc of a network, in the order of the arcs, and its value.

    `solution[arc]` looks up an arc by its handle, its key, or its ends `(tail, head)`. It raises
    `NoSuchArc` if no open arc matches, and `AmbiguousArc` if several do:

    >>> rows = [("a", "b", 3), ("a", "b", 4), ("b", "c", 5, "pipe")]
    >>> with Network(rows, source="a", sink="c") as network:
    ...     solution = network.solve()
    >>> solution["pipe"], solution["b", "c"], solution.between("a", "b"), solution.value
    (5, 5, 5, 5)

    The flows are fetched from the session when one is first looked up, and at the latest before
    the network changes or is closed, so reading only the value costs nothing more.
    """

    __module__ = __package__

    def __init__(self, flows: Flows[Node]) -> None:
        self._flows = flows

    @property
    def value(self) -> int:
        """Return the value of the flow: the net amount that leaves the source.

        Examples
        --------
        >>> plan = Network([("a", "b", 3, "bridge"), ("b", "c", 2)], "a", "c").solve()
        >>> plan.value
        2
        """
        return self._flows.value

    def __getitem__(self, arc: Hashable) -> int:
        arcs = self._flows.arcs
        return self._flows.numbers()[arcs.place(arcs.find(arc).number)]

    @overload
    def get(self, arc: Hashable, /) -> int | None:
        ...

    @overload
    def get(self, arc: Hashable, /, default: int | Other) -> int | Other:
        ...

    def get(self, arc: Hashable, /, default: Any = None) -> Any:
        """Return `solution[arc]`, or `default` if no open arc matches.

        Parameters
        ----------
        arc
            The arc's handle, its key, or its ends `(tail, head)`.
        default
            The value to return if no open arc matches.

        Raises
        ------
        AmbiguousArc
            If several open arcs match.

        Examples
        --------
        >>> plan = Network([("a", "b", 3, "bridge"), ("b", "c", 2)], "a", "c").solve()
        >>> plan.get("bridge"), plan.get("canal", 0)
        (2, 0)
        """
        try:
            return self[arc]
        except NoSuchArc:
            return default

    def __iter__(self) -> Iterator[Arc[Node]]:
        return iter(self._flows.arcs)

    def __len__(self) -> int:
        return len(self._flows.arcs)

    def __eq__(self, other: object) -> bool:
        if isinstance(other, Solution) and self._flows.arcs == other._flows.arcs:
            return self._flows.numbers() == other._flows.numbers()
        return super().__eq__(other)

    __hash__ = None  # type: ignore[assignment]

    def __copy__(self) -> Solution[Node]:
        return self

    def __deepcopy__(self, _: object) -> Solution[Node]:
        return self

    def values(self) -> ValuesView[int]:
        """Return the flows, in the order of the arcs.

        Examples
        --------
        >>> plan = Network([("a", "b", 3, "bridge"), ("b", "c", 2)], "a", "c").solve()
        >>> list(plan.values())
        [2, 2]
        """
        return _Values(self)

    def items(self) -> ItemsView[Arc[Node], int]:
        """Return each arc with its flow.

        Examples
        --------
        >>> plan = Network([("a", "b", 3, "bridge"), ("b", "c", 2)], "a", "c").solve()
        >>> [(arc.key, flow) for arc, flow in plan.items()]
        [('bridge', 2), (('b', 'c'), 2)]
        """
        return _Items(self)

    def between(self, tail: Node, head: Node) -> int:
        """Return the total flow on all arcs from `tail` to `head`.

        Raises
        ------
        NoSuchNode
            If the network does not have one of these nodes.

        Examples
        --------
        >>> plan = Network([("a", "b", 3, "bridge"), ("b", "c", 2)], "a", "c").solve()
        >>> plan.between("a", "b"), plan.between("a", "c")
        (2, 0)
        """
        arcs = self._flows.arcs
        numbers = arcs.between(tail, head)
        flows = self._flows.numbers()
        return sum(flows[arcs.place(number)] for number in numbers)

    def array(self) -> Any:
        """Return the flows as a numpy array, in the order of the arcs.

        The array has the type int64, or uint64 if a flow is 2^63 or more.

        Raises
        ------
        ImportError
            If numpy is not installed.

        Examples
        --------
        >>> plan = Network([("a", "b", 3, "bridge"), ("b", "c", 2)], "a", "c").solve()
        >>> plan.array().tolist()
        [2, 2]
        """
        return flow_array(self._flows.told(), len(self))

    def frame(self) -> Any:
        """Return a pandas frame with a row for each open arc.

        The index is the arc's number; the columns are its tail, head and key, its flow, and its
        capacity when the flow was found.

        Raises
        ------
        ImportError
            If pandas or numpy is not installed.

        Examples
        --------
        >>> plan = Network([("a", "b", 3, "bridge"), ("b", "c", 2)], "a", "c").solve()
        >>> plan.frame()["flow"].to_dict()
        {1: 2, 2: 2}
        """
        return arrays.frame(self._flows.arcs, self.array(), self._flows.capacities())

    def flow_dict(self) -> dict[Node, dict[Node, int]]:
        """Return the flows as networkx returns them.

        `flow_dict()[tail][head]` is the total flow on all open arcs from `tail` to `head`.

        Examples
        --------
        >>> plan = Network([("a", "b", 3, "bridge"), ("b", "c", 2)], "a", "c").solve()
        >>> plan.flow_dict()
        {'a': {'b': 2}, 'b': {'c': 2}, 'c': {}}
        """
        arcs = self._flows.arcs
        names = arcs.columns.names
        found: dict[Node, dict[Node, int]] = {node: {} for node in names}
        for tail, head, flow in zip(*arcs.ends(), self._flows.numbers()):
            heads, node = found[names[tail - 1]], names[head - 1]
            heads[node] = heads.get(node, 0) + flow
        return found

    def flow_matrix(self) -> Any:
        """Return the flows as a sparse matrix of scipy.

        The entry in row i and column j is the total flow on all arcs from node i to node j. Nodes
        are counted from 0, in the order of `Network.nodes`. The matrix has the type int64, or
        uint64 if an entry is 2^63 or more.

        Raises
        ------
        ImportError
            If scipy or numpy is not installed.

        Examples
        --------
        >>> plan = Network([("a", "b", 3, "bridge"), ("b", "c", 2)], "a", "c").solve()
        >>> plan.flow_matrix().toarray().tolist()
        [[0, 2, 0], [0, 0, 2], [0, 0, 0]]
        """
        return arrays.flow_matrix(self._flows.arcs, self.array())

    def __repr__(self) -> str:
        return f"<Solution of value {self.value} on {len(self)} arcs>"

    def _repr_html_(self) -> str:
        from .notebook import table

        return table(
            f"value {self.value}", ("arc", "tail", "head", "flow"), len(self), self._rows()
        )

    def _rows(self) -> Iterator[tuple[object, ...]]:
        for arc, flow in self.items():
            yield arc.number if arc.given_key is None else arc.given_key, arc.tail, arc.head, flow
