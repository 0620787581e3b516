"""Networks, each of which is a running session."""

from __future__ import annotations

import contextlib
from array import array
from collections.abc import Hashable, Iterable, Iterator
from typing import TYPE_CHECKING, Any, NoReturn, Tuple, Union

from . import arrays
from .capacities import CapacityReader, Scale
from .columns import Columns, Node
from .errors import Refused
from .network_sessions import RestartableNetwork
from .rows import Whole, columns_of
from .scaled_network import ScaledChanges
from .session.base import Program, Session, Way, bound, where
from .session.runners import chosen, start
from .state import NetworkState

if TYPE_CHECKING:
    from .quantity import Measure

# An arc as the caller gives it: its tail, its head, its capacity and, if it has one, its key.
Row = Union[Tuple[Node, Node, Whole], Tuple[Node, Node, Whole, Hashable]]


class Network(RestartableNetwork[Node]):
    """A network with a flow on it, and its changes. At the beginning the flow is 0.

    The arcs are `(tail, head, capacity)` or `(tail, head, capacity, key)`, any number of them
    between two nodes. Capacities are whole numbers from 0 on, with a sum below 2^64, in any unit.
    The nodes are the ends of the arcs, and the further ones in `nodes`. An arc goes by its handle,
    which `arcs` and `add` return; by its key, if it was given one; or by `(tail, head)`, if no
    other open arc has these ends. To a type checker, arcs are rows of the type `dmf.Row`, as in
    `dmf.Row[str]`.

    `program` is the path of the program, and `history` the most changes that can be undone, from 0
    to 1,000,000.

    A network is a running session: of the program, if `program` names it, or else of the library
    that `dmf.library` tells, in this process. It ends with `end`, with the `with` block that it is
    made for, when nothing refers to it any more, or with the interpreter. It is for one thread at a
    time.

    Raises a `Refused` if the problem has a fault, `NotAnArc` for a row of another form,
    `HistoryOutOfRange`, `SessionEnded` if the program fails, and `NoProgram` if none is found that
    fits. Each method that asks the session raises `SessionEnded` if that has ended, and
    `UsedByTwoThreads` if another thread is using the network. Ctrl-C, or any other exception that
    interrupts a call, leaves the network as it was before the call; the next call begins a new
    session in the same state.

    >>> network = Network(
    ...     [("lake", "mill", 3), ("lake", "town", 2), ("mill", "town", 5),
    ...      ("mill", "sea", 2), ("town", "sea", 3)],
    ...     source="lake", sink="sea")
    >>> plan = network.solve()
    >>> plan.value, plan["mill", "town"]
    (5, 1)
    >>> cut = network.cut()
    >>> cut.capacity, cut.side, [(arc.tail, arc.head) for arc in cut.arcs]
    (5, frozenset({'lake'}), [('lake', 'mill'), ('lake', 'town')])

    What if the pipe from the town to the sea carries only 1? And with one from the lake to the sea
    beside it? `add` gives the new arc, by which it can be named:

    >>> network.cap(("town", "sea"), 1)
    3
    >>> canal = network.add("lake", "sea", 7)
    >>> network.solve()[canal]
    7

    Three steps back the first plan stands again, arc for arc:

    >>> network.undo(3)
    5
    >>> network.flow() == plan
    True

    What is refused changes nothing, and raises an exception of its own:

    >>> network.close(canal)
    Traceback (most recent call last):
    ...
    dmf.NoSuchArc: no such arc: <Arc 6: 'lake' to 'sea'>
    >>> network.end()
    """

    __module__ = __package__

    def __init__(
        self,
        arcs: Iterable[Row[Node]],
        source: Node,
        sink: Node,
        *,
        nodes: Iterable[Node] = (),
        program: Program = None,
        history: int | None = None,
    ) -> None:
        most = bound(history)
        self._make(*columns_of(arcs, nodes), source, sink, program, most)

    @classmethod
    def from_arrays(
        cls,
        tail: Any,
        head: Any,
        capacity: Any,
        *,
        source: Node,
        sink: Node,
        key: Any = None,
        nodes: Iterable[Node] = (),
        infinite: Scale | None = None,
        scale: Scale | None = None,
        program: Program = None,
        history: int | None = None,
    ) -> Network[Node]:
        """Return the network of `zip(tail, head, capacity)`.

        Parameters
        ----------
        tail, head, capacity
            The columns: lists, arrays of numpy, series of pandas, or anything else with a length.
            Arrays of whole numbers are read together, which is several times as fast. The nodes of
            an array are its entries as numbers or texts of Python.
        source, sink, nodes, program, history
            As those of `Network`.
        key
            The column of the arcs' keys, if they have any.
        infinite
            The capacity of arcs whose capacity is infinite, None or NaN.
        scale
            What capacities with decimals are multiplied by, which makes them whole: 10 for one
            decimal. The network is a `ScaledNetwork` then, in the numbers of the columns.

        Raises
        ------
        ValueError
            If the scale is not a number, or some whole number divided by it is not a finite
            decimal.
        NotAnArc
            If the columns differ in length, or a node is missing: None, NaN, or hidden by a mask.
        Error
            What `Network` raises.

        Examples
        --------
        >>> network = Network.from_arrays(["a", "b"], ["b", "c"], [3, 2], source="a", sink="c")
        >>> network.solve().value
        2
        >>> Network.from_arrays(["a"], ["b"], [0.3], source="a", sink="b", scale=10).solve().value
        Decimal('0.3')
        """
        most = bound(history)
        reader = CapacityReader(infinite, scale)
        return cls._of_columns(
            *arrays.columns_of_arrays(tail, head, capacity, key, nodes, reader),
            source,
            sink,
            program,
            most,
            reader.measure,
        )

    @classmethod
    def from_frame(
        cls,
        frame: Any,
        tail: str = "tail",
        head: str = "head",
        capacity: str = "capacity",
        *,
        source: Node,
        sink: Node,
        key: str | None = None,
        nodes: Iterable[Node] = (),
        infinite: Scale | None = None,
        scale: Scale | None = None,
        program: Program = None,
        history: int | None = None,
    ) -> Network[Node]:
        """Return the network of a frame of pandas, with an arc for each row.

        Parameters
        ----------
        frame
            A frame, or anything else that gives its columns by their names.
        tail, head, capacity
            The names of these columns.
        key
            The name of the column of the arcs' keys. An arc without a value there has no key.
        source, sink, nodes, infinite, scale, program, history
            As those of `from_arrays`.

        Raises
        ------
        KeyError
            If the frame lacks a column; the message has the titles that it has.
        Error
            What `from_arrays` raises.

        Examples
        --------
        >>> frame = {"tail": ["a", "b"], "head": ["b", "c"], "capacity": [3, 2]}
        >>> Network.from_frame(frame, source="a", sink="c").solve().value
        2
        """
        columns = [arrays.column_of(frame, title) for title in (tail, head, capacity)]
        keys = None if key is None else arrays.column_of(frame, key)
        return cls.from_arrays(
            *columns,
            source=source,
            sink=sink,
            key=keys,
            nodes=nodes,
            infinite=infinite,
            scale=scale,
            program=program,
            history=history,
        )

    @classmethod
    def _of_columns(
        cls,
        columns: Columns[Node],
        capacities: array[int],
        source: Node,
        sink: Node,
        program: Program,
        most: int,
        measure: Measure | None,
    ) -> Network[Node]:
        """Return a network of columns, whose whole numbers stand for those of `measure` unless it
        is None."""
        kind: type[Network[Node]] = cls if measure is None else ScaledNetwork
        made = kind.__new__(kind)
        made._make(columns, capacities, source, sink, program, most, measure)
        return made

    def _make(
        self,
        columns: Columns[Node],
        capacities: array[int],
        source: Node,
        sink: Node,
        program: Program,
        most: int,
        measure: Measure | None = None,
    ) -> None:
        """Begin the session of a problem."""
        kept = NetworkState(columns, capacities, source, sink, most)
        if measure is not None:
            from .text.table_comments import TableComments

            kept.described = TableComments(measure)
        try:
            self._begin(start(kept, chosen(program)), kept)
        except Refused as refused:
            raise where(refused, kept.handle) from None
        self._session.program = program

    @classmethod
    def _of(
        cls,
        kept: NetworkState[Node],
        way: Way,
        path: str | None = None,
        session: Session | None = None,
    ) -> Network[Node]:
        """Return a network with a session that is in the state of `kept`, or else with a new one
        that has carried out the commands of `kept` on the first problem, which is at this path if
        one is given."""
        made = cls.__new__(cls)
        made._begin(session or start(kept, way, path), kept)
        return made

    @staticmethod
    def _class_of_copies() -> type[Network[Any]]:
        """Return the class of the copies on which a sweep tries its cases."""
        return Network

    @contextlib.contextmanager
    def try_out(self) -> Iterator[Network[Node]]:
        """Open a block that tries out changes, and takes them back at its end.

        The network is then as it was before, also if the block raises, or undoes and redoes some
        of its changes; `redo` can make them once more after that. Inside the block `undo` takes
        back no more than what was done in it. Blocks may stand in blocks.

        Raises
        ------
        NothingToUndo
            By an `undo` past the beginning of the block.
        HistoryOutOfRange
            By a change past the bound that `history` sets, which counts from the outermost block.

        Examples
        --------
        >>> network = Network([("a", "b", 3), ("a", "b", 4, "canal")], "a", "b")
        >>> before = network.solve().value
        >>> with network.try_out():
        ...     value = network.close("canal")
        ...     loss = before - network.solve().value
        >>> loss, network.value
        (4, 7)
        """
        self._ready()
        kept, value = self._kept, self._kept.value
        outer, place = kept.floors, kept.place
        try:
            kept.floors = (*outer, place)
            yield self
        finally:
            kept.floors = outer
            try:
                if kept.place > place and self._is_running:
                    self.undo(kept.place - place)
            finally:
                if kept.place > place and self._is_free:
                    # The session has ended. A new one begins in the kept state.
                    self._go_without_session(place, value)

    def copy(self) -> Network[Node]:
        """Return another network in the same state: with the same arcs, changes and flow.

        What is done with one of them does not change the other. The handles of arcs that this one
        has now name those of the copy too. The library copies the session, which takes time for
        each arc. A program begins another session with the same problem and the same commands, so
        it takes as long as those took together.

        Raises
        ------
        Error
            What making a network raises.

        Examples
        --------
        >>> network = Network([("a", "b", 3)], "a", "b")
        >>> with network.copy() as other:
        ...     other.solve().value, network.value
        (3, 0)
        """
        kept, session = self._twin()
        copy = type(self)._of(kept, self._session.way, session=session)
        copy._session.program = self._session.program
        return copy

    def __enter__(self) -> Network[Node]:
        return self

    def __exit__(self, *_: object) -> None:
        self.end()

    def __reduce__(self) -> NoReturn:
        raise TypeError(
            "a network cannot be copied or pickled, since it is a running program: make another of "
            "its problem"
        )

    def __repr__(self) -> str:
        kept = self._kept
        return (
            f"<Network of {len(kept.columns.numbers)} nodes and {kept.arc_count} arcs, with a flow "
            f"of value {self.value}>"
        )


class ScaledNetwork(ScaledChanges[Node], Network[Node]):
    """A network whose capacities have decimals, which `scale` makes whole. `Network.from_arrays`,
    `Network.from_frame`, `dmf.from_networkx`, `dmf.from_igraph` and `dmf.from_scipy` make it.

    Its calls take numbers of any kind, and give Decimals, each exact; or ints if the scale is 1. A
    float is taken by its shortest decimal form: 0.1 is a tenth. What has more decimals than the
    scale is refused. Arrays of numpy and matrices of scipy have the nearest floats.

    >>> network = Network.from_arrays(
    ...     ["a", "b"], ["b", "c"], [0.3, 0.1], source="a", sink="c", scale=10)
    >>> network.solve().value, network.cap(("b", "c"), "0.2"), network.solve()["a", "b"]
    (Decimal('0.1'), Decimal('0.1'), Decimal('0.2'))
    """

    __module__ = __package__

    @staticmethod
    def _class_of_copies() -> type[Network[Any]]:
        return ScaledNetwork

    def begin_again(self) -> Any:
        """Begin a new session as `Network.begin_again` does, and return the value in the caller's
        numbers."""
        return super().begin_again()
