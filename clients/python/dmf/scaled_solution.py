"""Flows in the numbers of the caller, for which whole numbers stand in the session."""

from __future__ import annotations

from array import array
from collections.abc import Iterator, Sequence
from typing import TYPE_CHECKING, Any

from . import arrays
from .columns import Node
from .session.base import import_package
from .session.column_texts import kind_for
from .solution import Flows, Solution
from .text.lexical import NODES

if TYPE_CHECKING:
    from .quantity import Measure


class ScaledSolution(Solution[Node]):
    """A flow of a `ScaledNetwork`, in the numbers of its caller: Decimals, or ints if the scale
    is 1."""

    __module__ = __package__

    def __init__(self, flows: Flows[Node], measure: Measure) -> None:
        super().__init__(flows)
        self._measure = measure

    @property
    def value(self) -> Any:
        """The value of the flow, from the source to the sink."""
        return self._measure.quantity(self._flows.value)

    def __getitem__(self, arc: Any) -> Any:
        return self._measure.quantity(super().__getitem__(arc))

    def _pairs(self) -> Iterator[tuple[int, int]]:
        """Return pairs of an arc's number and its flow as a whole number."""
        return zip(self._flows.arcs.numbers(), self._flows.numbers())

    def _nodes(self) -> Sequence[Node]:
        """Return the nodes, in their order."""
        return self._flows.arcs.columns.names

    def values(self) -> Any:
        """Return the flows, in the order of the arcs."""
        return [self._measure.quantity(flow) for _, flow in self._pairs()]

    def items(self) -> Any:
        """Return pairs of an arc and its flow."""
        return [
            (self._flows.arcs.handle(number), self._measure.quantity(flow))
            for number, flow in self._pairs()
        ]

    def between(self, tail: Node, head: Node) -> Any:
        """Return the sum of the flows on all arcs from `tail` to `head`."""
        return self._measure.quantity(super().between(tail, head))

    def array(self) -> Any:
        """Return the flows as an array of numpy: of whole numbers, or of floats if the numbers have
        decimals, each the nearest to its flow."""
        return self._numbers(
            import_package("numpy", "an array of flows").array(
                [flow for _, flow in self._pairs()], "uint64"
            )
        )

    def _numbers(self, whole: Any) -> Any:
        """Return whole numbers of the session as numbers of the caller."""
        return numbers_of(self._measure, whole)

    def frame(self) -> Any:
        """Return a frame of pandas with a row for each open arc: its number, tail, head, key, flow
        and capacity."""
        pd = import_package("pandas", "a frame of flows")
        rows = [(arc.number, arc.tail, arc.head, arc.given_key, flow) for arc, flow in self.items()]
        made = pd.DataFrame(rows, columns=["arc", "tail", "head", "key", "flow"]).set_index("arc")
        capacities = dict(zip(self._flows.arcs.numbers(), self._flows.capacities()))
        made["capacity"] = [self._measure.quantity(capacities[number]) for number, *_ in rows]
        return made

    def flow_dict(self) -> dict[Node, dict[Node, Any]]:
        """Return the dictionary that `Solution.flow_dict` returns, in the caller's numbers."""
        found: dict[Node, dict[Node, Any]] = {node: {} for node in self._nodes()}
        for arc, flow in self.items():
            found[arc.tail][arc.head] = found[arc.tail].get(arc.head, 0) + flow
        return found

    def flow_matrix(self) -> Any:
        """Return the matrix that `Solution.flow_matrix` returns, with the numbers of `array`."""
        np = import_package("numpy", "a matrix of flows")
        places = {node: number for number, node in enumerate(self._nodes(), 1)}
        ends = [(places[arc.tail], places[arc.head]) for arc in self]
        tails, heads = (array(NODES, column) for column in (zip(*ends) if ends else ((), ())))
        flow = np.array([flow for _, flow in self._pairs()], "uint64")
        matrix = arrays.matrix_of(flow, tails, heads, len(places))
        return type(matrix)(
            (self._numbers(matrix.data), matrix.indices, matrix.indptr), shape=matrix.shape
        )

    def __eq__(self, other: object) -> bool:
        return isinstance(other, ScaledSolution) and bool(self.items() == other.items())

    __hash__ = None  # type: ignore[assignment]


def numbers_of(measure: Measure, whole: Any) -> Any:
    """Return an array of whole numbers as one of the numbers for which they stand: whole ones, or
    floats if these have decimals."""
    if measure.divisor == 1:
        return whole.astype(kind_for(whole))
    numbers = [float(measure.quantity(number)) for number in whole.tolist()]
    return import_package("numpy", "an array of flows").array(numbers, "float64")
