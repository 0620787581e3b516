"""Sweeps: many cases in a row, each tried on a solved copy of a network and undone there."""

from __future__ import annotations

import contextlib
import functools
import operator
import os
from collections import deque
from collections.abc import Callable, Generator, Hashable, Iterable, Iterator
from dataclasses import dataclass
from itertools import islice
from typing import TYPE_CHECKING, Any, Generic, Union

from ..arcs import Arc
from ..columns import Node
from ..errors import Error, JobsOutOfRange, NotAnArc, UnknownCommand, shown_value
from ..network import Network
from ..rows import Whole, is_unordered
from ..session.base import MOST_KEPT, Part, import_package
from ..session.runners import program_of
from .copies import CaseAnswer, Command, Plain
from .each import Case, Each
from .known_values import KnownValues
from .pool import ExecutorPool, LocalPool, Pending, RemoteCopy, Tries

if TYPE_CHECKING:
    from concurrent.futures import Executor

# The cases of a sweep, or a function that makes them from the network.
Cases = Union[Iterable[Case], Callable[[Network[Any]], Iterable[Case]]]
COMMANDS = {"cap": 2, "close": 1, "open": 1, "shut": 1, "add": 3}


@dataclass(frozen=True)
class SweepResult(Generic[Node]):
    """The result of one case of a sweep.

    Attributes
    ----------
    case
        The case, as it was given.
    value
        The greatest value after the case, or None if it was refused.
    difference
        The value minus the network's value before the sweep, or None.
    cut
        The arcs of the smallest minimum cut if they were wanted, or None. An arc that the case
        added has a handle that no network knows.
    refusal
        The error for which the case was refused, or None.
    """

    __module__ = "dmf"

    case: Case
    value: int | None = None
    difference: int | None = None
    cut: tuple[Arc[Node], ...] | None = None
    refusal: Error | None = None


def each_arc_closed(
    arcs: Iterable[Hashable] | None = None,
) -> Callable[[Network[Any]], Iterator[Case]]:
    """Return the cases of a sweep that each close one arc.

    Parameters
    ----------
    arcs
        The arcs to close, by their keys, ends or handles: by default all open arcs.

    Examples
    --------
    >>> with Network([("a", "b", 3), ("b", "c", 2)], source="a", sink="c") as network:
    ...     value = network.solve().value
    ...     [result.difference for result in sweep(network, each_arc_closed())]
    [-2, -2]
    """
    return lambda network: Each(
        lambda arc: [("close", arc)], network.arcs if arcs is None else arcs, Part.ARC
    )


def each_node_shut(
    nodes: Iterable[Hashable] | None = None,
) -> Callable[[Network[Any]], Iterator[Case]]:
    """Return the cases of a sweep that each shut one node.

    Parameters
    ----------
    nodes
        The nodes to shut: by default all nodes except the sources and the sinks.

    Examples
    --------
    >>> with Network([("a", "b", 3), ("b", "c", 2)], source="a", sink="c") as network:
    ...     value = network.solve().value
    ...     [result.value for result in sweep(network, each_node_shut(["b"]))]
    [0]
    """

    def cases(network: Network[Any]) -> Iterator[Case]:
        ends = network._ends()
        return Each(
            lambda node: [("shut", node)],
            [node for node in network.nodes if node not in ends] if nodes is None else nodes,
            Part.NODE,
        )

    return cases


def each_capacity_raised(
    by: Whole, arcs: Iterable[Hashable] | None = None
) -> Callable[[Network[Any]], Iterator[Case]]:
    """Return the cases of a sweep that each raise the capacity of one arc.

    Parameters
    ----------
    by
        How much is added to the capacity.
    arcs
        The arcs to raise, by their keys, ends or handles: by default all open arcs.

    Examples
    --------
    >>> with Network([("a", "b", 3), ("b", "c", 2)], source="a", sink="c") as network:
    ...     value = network.solve().value
    ...     [result.value for result in sweep(network, each_capacity_raised(4))]
    [2, 3]
    """

    def cases(network: Network[Any]) -> Iterator[Case]:
        more = network._whole(by, "each_capacity_raised")
        # A copy, since the network may change while the cases are taken.
        kept, measure = network._kept.copy(), network._measure
        quantity: Any = int if measure is None else measure.quantity
        return Each(
            lambda arc: [("cap", arc, quantity(kept.capacity(kept.arc(arc)) + more))],
            network.arcs if arcs is None else arcs,
        )

    return cases


def each_pair_added(
    pairs: Iterable[tuple[Hashable, Hashable]], capacity: Whole
) -> Callable[[Network[Any]], Iterator[Case]]:
    """Return the cases of a sweep that each add one arc.

    Parameters
    ----------
    pairs
        The tail and the head of each arc to add. The sweep raises `NotAnArc` for a pair without an
        order, such as a set.
    capacity
        The capacity of each.

    Examples
    --------
    >>> with Network([("a", "b", 3), ("b", "c", 2)], source="a", sink="c") as network:
    ...     value = network.solve().value
    ...     cases = each_pair_added([("b", "c"), ("a", "c")], 5)
    ...     [result.value for result in sweep(network, cases)]
    [3, 7]
    """

    def case(pair: tuple[Hashable, Hashable]) -> Case:
        if is_unordered(pair):
            raise NotAnArc(f"not an arc: {shown_value(pair)}: expected (tail, head)")
        return [("add", *pair, capacity)]

    return lambda network: Each(case, pairs)


def sweep(
    network: Network[Node],
    cases: Cases,
    executor: Executor | None = None,
    want_cut: bool = False,
    *,
    jobs: int | None = None,
    progress: bool = False,
    anew: bool = False,
) -> Generator[SweepResult[Node], None, None]:
    """Try many cases, each on a solved copy of the network, and yield their results in order.

    The network itself does not change, and can be used meanwhile: the cases are tried on the
    network as it is when the sweep begins. Cases are taken when they are needed, so there may be
    any number of them. If only values are wanted, and `each_arc_closed` or `each_node_shut` makes a
    case for a quarter of the arcs or nodes or more, the call finds all values, as `Network.vital`
    and `Network.vital_nodes` do; so it does, as `Network.gains_of`, if the library runs the session
    and a list gives `each_capacity_raised` or `each_pair_added` as many arcs.

    If a case is refused, or if its function raises an error of this package, its result says so.
    Any other exception ends the sweep. An exception while the cases are made is raised after the
    results of the cases before it. If a program is killed, another one takes its place and tries
    the case once more.

    Parameters
    ----------
    network
        The network on which the cases are tried.
    cases
        The cases, or a function that makes them from the network. A case is a list of commands,
        such as `[("close", "canal"), ("add", "lake", "sea", 7)]`, or a function that is given a
        network and changes it.
    executor
        What tries the cases, if not this process: anything in the form of `concurrent.futures`,
        such as `Client.get_executor()` of dask.distributed. Each of its processes is sent the
        network, and begins its own sessions with the program that was named for the network, or
        else with what it finds itself. Functions are pickled there, and must name arcs by their
        keys or ends.
    want_cut
        Whether to find the arcs of the smallest minimum cut after each case.
    jobs
        How many sessions of this process try cases, if there is no executor: by default one for
        each processor.
    progress
        Whether to show a progress bar, if the package tqdm is installed.
    anew
        Whether to solve each case from scratch, as `dmf solve --brief` does. The results are the
        same. It is faster if paths are long, or if a case changes much of the network. A function
        can then ask for values and cuts, but not for flows.

    Returns
    -------
    Generator[SweepResult]
        A result for each case.

    Raises
    ------
    JobsOutOfRange
        If `jobs` is not a whole number of at least 1.

    Examples
    --------
    >>> with Network([("a", "b", 3, "x"), ("a", "b", 4, "y")], source="a", sink="b") as network:
    ...     value = network.solve().value
    ...     [(result.value, result.difference) for result in sweep(network, each_arc_closed())]
    [(4, -3), (3, -4)]
    """
    made = cases(network) if callable(cases) else cases
    programs = _programs(jobs)
    swept = _Swept(network)
    count = operator.length_hint(made, -1)
    named = network._session.program
    solver = program_of(named) if anew and executor is None else None
    begin: Callable[[], Tries] = functools.partial(
        LocalPool,
        swept.kept,
        network._session.way,
        want_cut,
        programs,
        None if count < 0 else count,
        solver,
        swept.kind,
    )
    if executor is not None:
        begin = functools.partial(
            ExecutorPool, RemoteCopy.of(swept.kept, named, anew, swept.kind), executor, want_cut
        )
    elif not want_cut and isinstance(made, Each):
        begin = KnownValues.beginning(network, swept.kept, made, swept.plain, begin)
    results = _results(swept, iter(made), begin)
    return _shown(results, count if count > 0 else None) if progress else results


def _programs(jobs: int | None) -> int:
    """Return how many sessions try cases. Raises `JobsOutOfRange`."""
    if jobs is None:
        return len(os.sched_getaffinity(0))
    try:
        programs = operator.index(jobs)
    except TypeError:
        programs = 0
    if programs < 1:
        raise JobsOutOfRange(
            f"jobs out of range: {shown_value(jobs)} is not a whole number of at least 1"
        )
    return programs


class _Swept(Generic[Node]):
    """A network as it is at the start of a sweep, which later changes to the network do not touch.
    In its copies any number of changes can be undone."""

    def __init__(self, network: Network[Node]) -> None:
        self.opened = network._kept.opened()
        self.value = network._kept.value
        self.kept = network._kept.copy()
        self.kept.most = MOST_KEPT
        self.kind = network._class_of_copies()
        self.measure = network._measure
        self._whole = network._whole
        # The arcs that the network's table does not have, if there is a table.
        described = self.kept.columns.described
        self._inner = described.roles if described else {}

    def plain(self, case: Case) -> Plain | Error:
        """Return a case as a copy takes it, or the error for which it is refused."""
        if callable(case):
            return case
        try:
            if type(case) is not list and is_unordered(case):
                raise TypeError
            return [self._plain_command(command) for command in case]
        except TypeError:
            return UnknownCommand(f"{shown_value(case)} in a sweep")
        except Error as error:
            return error

    def _plain_command(self, command: Command) -> Command:
        """Return a command with its arc by number."""
        if (
            not isinstance(command, (tuple, list))
            or not command
            or COMMANDS.get(command[0]) != len(command) - 1
        ):
            raise UnknownCommand(f"{shown_value(command)} in a sweep")
        word, *rest = command
        if word in ("cap", "close", "open"):
            rest[0] = self.kept.arc(rest[0]).number
        if self.measure is not None and word in ("cap", "add"):
            rest[-1] = self._whole(rest[-1], command)
        return (word, *rest)

    def told(self, case: Case, answer: CaseAnswer) -> SweepResult[Node]:
        """Return the result of a case."""
        if answer.refusal is not None:
            return SweepResult(case, refusal=answer.refusal)
        cut: tuple[Arc[Node], ...] | None = None
        if answer.cut is not None:
            numbers = [arc for arc in answer.cut if arc not in self._inner]
            cut = tuple(self.opened.handle(arc) if isinstance(arc, int) else arc for arc in numbers)
        value: Any = answer.value
        difference: Any = answer.value - self.value
        if self.measure is not None:
            value, difference = self.measure.quantity(value), self.measure.quantity(difference)
        return SweepResult(case, value, difference, cut)


def _results(
    swept: _Swept[Node], cases: Iterator[Case], begin: Callable[[], Tries]
) -> Generator[SweepResult[Node], None, None]:
    failed: Exception | None = None
    with contextlib.closing(begin()) as tries:
        waiting: deque[tuple[list[Case], Pending]] = deque()
        while True:
            while len(waiting) < tries.most and failed is None:
                piece, failed = _piece(cases, tries.size)
                if not piece:
                    break
                waiting.append((piece, tries.begin(list(map(swept.plain, piece)))))
            if not waiting:
                break
            piece, pending = waiting.popleft()
            yield from map(swept.told, piece, pending())
    if failed is not None:
        raise failed


def _piece(cases: Iterator[Case], size: int) -> tuple[list[Case], Exception | None]:
    """Return at most `size` further cases, and the exception that was raised in place of one, if
    any. The results of the cases before it are yielded first."""
    piece: list[Case] = []
    try:
        piece.extend(islice(cases, size))
    except Exception as error:
        return piece, error
    return piece, None


def _shown(
    results: Generator[SweepResult[Node], None, None], total: int | None
) -> Generator[SweepResult[Node], None, None]:
    """Yield the results under a progress bar, if tqdm is installed. The bar shows the total if it
    is known."""
    with contextlib.closing(results):
        try:
            bar = import_package("tqdm", "a bar")
        except ImportError:
            yield from results
        else:
            yield from bar.tqdm(results, total=total, unit="case")
