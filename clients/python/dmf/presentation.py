"""How a network is written and shown: as a text, a file, a graph, a table and a picture."""

from __future__ import annotations

import functools
import os
from array import array
from collections.abc import Callable, Sequence
from typing import TYPE_CHECKING, Any

from .arcs import OpenArcs
from .columns import Node
from .cut import Cut
from .errors import FlowIsNotGreatest
from .session.base import FilePath, import_package
from .session_holder import SessionHolder, exclusive
from .solution import Solution
from .text.lexical import MOST_DRAWN

if TYPE_CHECKING:
    from .notebook import Look
    from .text.table_comments import TableComments


class Presentable(SessionHolder[Node]):
    """The forms in which a network can be shown. No call changes the network."""

    @property
    def source(self) -> Node:
        """Return the source.

        Examples
        --------
        >>> Network([("a", "b", 3)], "a", "b").source
        'a'
        """
        return self._kept.source

    @property
    def sink(self) -> Node:
        """Return the sink.

        Examples
        --------
        >>> Network([("a", "b", 3)], "a", "b").sink
        'b'
        """
        return self._kept.sink

    def _ends(self) -> set[Node]:
        """Return the source and the sink."""
        return {self.source, self.sink}

    @property
    def scale(self) -> str:
        """Return what the numbers of a table were multiplied by.

        It is a text that the problem tells which was read, and empty if that tells none.

        Examples
        --------
        >>> Network([("a", "b", 3)], "a", "b").scale
        ''
        """
        from .text.problem_text import told_scale

        return told_scale(self._kept.described)

    @property
    def nodes(self) -> list[Node]:
        """Return all nodes: those in `nodes`, and then the ends of the arcs, in their order.

        Examples
        --------
        >>> Network([("a", "b", 3)], "a", "b", nodes=["c"]).nodes
        ['c', 'a', 'b']
        """
        return list(self._kept.columns.numbers)

    @exclusive
    def flow(self) -> Solution[Node]:
        """Return the present flow.

        Returns
        -------
        Solution
            Its value, and the flow on each open arc.

        Examples
        --------
        >>> network = Network([("a", "b", 3), ("b", "c", 2)], "a", "c")
        >>> network.flow().value, network.solve() == network.flow()
        (0, True)
        """
        if not self._session.end.alive:
            raise self._session.ended()
        return self._solution(self._flows())

    @exclusive
    def cut(self) -> Cut[Node]:
        """Return the smallest minimum cut.

        Returns
        -------
        Cut
            Its capacity, its two sides, and its arcs.

        Raises
        ------
        FlowIsNotGreatest
            If some flow has a larger value than the present one, as before `solve`.

        Examples
        --------
        >>> network = Network([("a", "b", 3), ("b", "c", 2)], "a", "c")
        >>> value = network.solve().value
        >>> cut = network.cut()
        >>> cut.capacity, sorted(cut.side), sorted(cut.other_side)
        (2, ['a', 'b'], ['c'])
        """
        return self._cut()

    def _cut(self) -> Cut[Node]:
        return self._cut_of(*self._session.cut())

    def _cut_of(self, capacity: int, side: Sequence[int]) -> Cut[Node]:
        """Return the minimum cut that has these nodes, given by their numbers, on the source's
        side."""
        names = self._kept.columns.names
        look = self._look(set(side)) if self._kept.open_count <= MOST_DRAWN else None
        return Cut(
            self._quantity(capacity),
            frozenset(names[node - 1] for node in side),
            tuple(self._kept.leaving(list(side))),
            names,
            look,
        )

    @exclusive
    def problem(self, *, names: bool = True, escapes: bool = False) -> str:
        """Return the problem of the open arcs as a text in the DIMACS format.

        If the network was read of a problem that tells the scale and the unit of its numbers, so do
        the first comments.

        Parameters
        ----------
        names
            Whether comments before it name nodes and arcs: each node whose name is not its own
            number, and each key, as `str` writes it. `dmf.read` reads the same names again, as
            texts, except blank ones.
        escapes
            Whether what cannot be written of a name, such as a line feed, is written as `\\x0a`.

        Raises
        ------
        NameNotWritable
            If `dmf.read` would read a name as another one: if it has a line feed or blanks around
            it, or if two nodes have the same name.

        Examples
        --------
        >>> print(Network([("a", "b", 3)], "a", "b").problem(), end="")
        c node 1 a
        c node 2 b
        p max 2 1
        n 1 s
        n 2 t
        a 1 2 3
        """
        from .text.spelling import name_comments
        from .text.table_comments import TableComments, table_comments

        opened = self._kept.opened()
        before = table_comments(TableComments(self._kept.described.measure))
        if names:
            keys = {place: key for place, key in enumerate(opened.keys(), 1) if key is not None}
            before += name_comments(
                dict(enumerate(self._kept.columns.names, 1)), keys, escapes=escapes
            )
        return before + self._session.problem().decode()

    def to_networkx(self) -> Any:
        """Return a MultiDiGraph of networkx with an edge for each open arc.

        Its key is the arc's number, and its attributes are `capacity`, `flow`, and `name` if the
        arc has a key.

        Raises
        ------
        ImportError
            If networkx is not installed.

        Examples
        --------
        >>> Network([("a", "b", 3, "bridge")], "a", "b").to_networkx().edges["a", "b", 1]
        {'capacity': 3, 'flow': 0, 'name': 'bridge'}
        """
        graph = import_package("networkx", "a graph")
        flow = self.flow()
        made = graph.MultiDiGraph()
        made.add_nodes_from(self.nodes)
        for (arc, carried), capacity in zip(flow.items(), flow._flows.capacities()):
            given = {} if arc.given_key is None else {"name": arc.given_key}
            made.add_edge(
                arc.tail,
                arc.head,
                key=arc.number,
                capacity=self._quantity(capacity),
                flow=carried,
                **given,
            )
        return made

    def write(self, path: FilePath, *, names: bool = True, escapes: bool = False) -> None:
        """Write the text of `problem` to a file, whole or not at all.

        `dmf.read` and the program read it.

        Parameters
        ----------
        path
            The path of the file.
        names, escapes
            As those of `problem`.

        Raises
        ------
        OSError
            If it cannot be written.
        NameNotWritable
            As `problem`.

        Examples
        --------
        >>> import os, tempfile
        >>> path = os.path.join(tempfile.mkdtemp(), "problem.max")
        >>> Network([("a", "b", 3)], "a", "b").write(path)
        >>> os.path.getsize(path) > 0
        True
        """
        from .files import write_file

        write_file(os.fsdecode(path), self.problem(names=names, escapes=escapes).encode())

    def plot(self, path: FilePath | None = None) -> Any:
        """Draw the network with its flow.

        If the flow is greatest it draws the smallest minimum cut too, and of more than 300 arcs
        those nearest the cut.

        Parameters
        ----------
        path
            The file for the picture, which Graphviz writes in the form of its ending, such as
            `.svg`, `.png` or `.pdf`. An ending `.dot` needs no Graphviz.

        Returns
        -------
        matplotlib.axes.Axes or None
            Without a path axes, which show the picture of Graphviz, or the nodes on a circle where
            Graphviz is not installed.

        Raises
        ------
        ImportError
            If matplotlib is needed and not installed.
        FileNotFoundError
            If Graphviz is needed and not installed.
        RuntimeError
            If Graphviz fails.
        OSError
            If the file cannot be written.

        Examples
        --------
        >>> import os, tempfile
        >>> path = os.path.join(tempfile.mkdtemp(), "network.dot")
        >>> Network([("a", "b", 3)], "a", "b").plot(path)
        >>> os.path.getsize(path) > 0
        True
        """
        from .notebook import draw, plot

        look = self._look_with_cut()()
        return plot(look) if path is None else draw(look, os.fsdecode(path))

    @exclusive
    def _look_with_cut(self) -> Callable[[], Look]:
        try:
            side = set(self._session.cut()[1])
        except FlowIsNotGreatest:
            side = set()
        return self._look(side)

    def _repr_svg_(self) -> str | None:
        if self._kept.open_count > MOST_DRAWN:
            return None
        return self._look_now().svg()

    def _repr_html_(self) -> str:
        from .notebook import table

        flow = self.flow()
        rows = (
            (*row, self._quantity(capacity))
            for row, capacity in zip(flow._rows(), flow._flows.capacities())
        )
        return table(repr(self)[1:-1], ("arc", "tail", "head", "flow", "capacity"), len(flow), rows)

    @exclusive
    def _look_now(self) -> Look:
        return self._look(set())()

    def _look(self, side: set[int]) -> Callable[[], Look]:
        """Return a function that makes the picture of the network as it is now."""
        flows = self._flows()
        flows.settle(self._asked_flow)
        kept = self._kept
        ends = kept.number(kept.source), kept.number(kept.sink)
        return functools.partial(
            _look_of,
            kept._described,
            flows.arcs,
            ends,
            flows.numbers(),
            flows.capacities()[:],
            side,
        )


def _look_of(
    described: TableComments | None,
    arcs: OpenArcs[Any],
    ends: tuple[int, int],
    flows: array[int],
    capacities: array[int],
    side: set[int],
) -> Look:
    """Return how a network looks. Only this call loads the modules that draw."""
    from .notebook import Look
    from .text.table_comments import TableComments

    return Look(arcs, ends, flows, capacities, side, described or TableComments())
