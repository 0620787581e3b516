"""Networks of problems in files: read in the numbers of the problem, or of the table that it tells
of."""

from __future__ import annotations

import os
from array import array
from collections import Counter
from collections.abc import Callable, Hashable
from dataclasses import dataclass, replace
from itertools import count
from typing import TYPE_CHECKING, Any, cast

from ..columns import Columns
from ..network import Network
from ..session.base import FilePath, Program, Session, bound
from ..session.column_texts import numpy_for, pieces_of, read_lines
from ..session.runners import chosen, started_on
from ..state import NetworkState
from ..text.lexical import AMOUNTS, ARC, NODE, NODES
from ..text.problem_text import problem_in
from ..text.spelling import names_in, naming_pieces
from ..text.table_comments import TableComments, described, renumbered, tells_columns
from .table_answers import FoldedColumns, InnerNode, with_room

if TYPE_CHECKING:
    from .loader import LoadedProblem
    from .table_network import TableNetwork


def read(
    path: FilePath, *, program: Program = None, history: int | None = None
) -> Network[int | str]:
    """Return the network of a problem's file in the DIMACS format, which is read once. Its nodes
    are the numbers from 1 on. A comment `c node 3 Reservoir` gives a node its name, if no other
    node has the same. A comment `c arc 5 Mill Street` gives the key of an arc. `program` and
    `history` are those of `Network`. If comments say what the numbers stand for in the table that
    the problem was made of, or which nodes and arcs are not of that table, it is a `TableNetwork`,
    in the table's numbers, of its places alone.

    A picture or a report that dmf-plan or dmf-board wrote carries such a problem, and is read as
    it.

    Raises a `Refused` with the number of the line if the file has a fault, a `TableFault` if only a
    part is left of what a picture carries, an OSError if it cannot be read, and what `Network`
    raises."""
    most = bound(history)
    with open(os.fspath(path), "rb") as file:
        text = problem_in(file.read())
    problem = _opened(text, program, most)
    said = described(problem.text).within(problem.node_count, len(problem.tails))
    if said == TableComments() and not tells_columns(problem.text):
        return _whole(problem)
    return cast("Network[int | str]", network_of_problem(problem, said))


def whole_network(text: bytes, *, program: Program = None) -> Network[int | str]:
    """Return the network of a problem's text as the program has it, with all its nodes and arcs and
    in its whole numbers, whatever comments say of a table. The two nodes of a place with a limit
    have one name, so they keep their numbers. Raises what `read` raises."""
    return _whole(_opened(text, program, bound(None)))


def network_of_subject(subject: LoadedProblem, program: Program = None) -> Network[int | str]:
    """Return what `whole_network` returns for the text of a problem. If the problem was made of a
    table, no text is written, and no name is read again. Raises what `read` raises."""
    net = subject.net
    if net is None:
        return whole_network(subject.text, program=program)
    ends = net.source, net.sink
    # The network changes its capacities.
    columns = net.tails, net.heads, net.capacities[:]
    numbered: dict[int | str, int] = dict(zip(net.node_names, count(1)))
    if len(numbered) < len(net.node_names):
        numbered = _numbered(dict(enumerate(net.node_names, 1)), len(net.node_names))
    kept = _kept(numbered, ends, columns, net.arc_names, bound(None))
    kept.described = subject.described
    network: Network[int | str] = Network._of(kept, chosen(program))
    network._session.program = program
    return network


@dataclass
class Opened:
    """A problem that a session has read: the session, the text, its nodes and arcs, and the most
    changes that can be undone."""

    session: Session
    text: bytes
    node_count: int
    ends: tuple[int, int]
    tails: array[int]
    heads: array[int]
    capacities: array[int]
    most: int

    def node_names(self) -> dict[int, str]:
        """Return the names that comments give to nodes, by number."""
        return _of(self.node_count, names_in(naming_pieces(self.text, NODE), NODE))

    def arc_names(self) -> Callable[[], dict[int, Hashable]]:
        """Return what reads the names that comments give to arcs, by number. It keeps of the text
        what has them."""
        count, pieces = len(self.tails), naming_pieces(self.text, ARC)
        return lambda: {**_of(count, names_in(pieces, ARC))}


def _opened(text: bytes, program: Program, most: int) -> Opened:
    # The session has this text: a pipe is empty by now, a file may have changed, and /dev/stdin is
    # another file to a program.
    session = started_on(text, chosen(program), most)
    session.program = program
    head, *ends, arcs = session.problem().split(b"\n", 3)
    node_count, arc_count = map(int, head.split()[2:])
    source, sink = (int(line.split()[1]) for line in ends)
    tails, heads, capacities = array(NODES), array(NODES), array(AMOUNTS)
    for piece in pieces_of(arcs):
        for column, more in zip(
            (tails, heads, capacities), read_lines(piece, numpy_for(arc_count))
        ):
            column.extend(more)
    return Opened(session, text, node_count, (source, sink), tails, heads, capacities, most)


def _whole(problem: Opened) -> Network[int | str]:
    """Return the network of a problem. The names of its arcs are read when one is first needed."""
    numbered = _numbered(problem.node_names(), problem.node_count)
    columns = problem.tails, problem.heads, problem.capacities
    kept = _kept(numbered, problem.ends, columns, problem.arc_names(), problem.most)
    kept.described = described(problem.text)
    network: Network[int | str] = Network.__new__(Network)
    network._begin(problem.session, kept)
    return network


def _kept(
    numbered: dict[int | str, int],
    ends: tuple[int, int],
    columns: tuple[array[int], array[int], array[int]],
    arc_names: Callable[[], dict[int, Hashable]],
    most: int,
) -> NetworkState[int | str]:
    """Return the state of a network of these numbered nodes, with its source and sink, the columns
    of its arcs, and what makes their names."""
    (tails, heads, capacities), names = columns, list(numbered)
    source, sink = (names[end - 1] for end in ends)
    made = Columns(numbered, tails, heads, arc_names)
    return NetworkState(made, capacities, source, sink, most)


def _numbered(named: dict[int, str], count: int) -> dict[int | str, int]:
    """Return the nodes from 1 to `count` by their names or, where others have the same, by their
    numbers."""
    alone = unique(named)
    return {alone.get(number, number): number for number in range(1, count + 1)}


def unique(named: dict[int, str]) -> dict[int, str]:
    """Return those of these names that one number alone has."""
    if len(set(named.values())) == len(named):
        return named
    used = Counter(named.values())
    return {number: name for number, name in named.items() if used[name] == 1}


def _of(count: int, names: dict[int, str]) -> dict[int, str]:
    """Return the names of the numbers from 1 to `count`, in their order."""
    numbers = sorted(names)
    if numbers == list(names) and (not numbers or 1 <= numbers[0] and numbers[-1] <= count):
        return names
    return {number: names[number] for number in numbers if 1 <= number <= count}


def network_of_problem(problem: Opened, said: TableComments) -> TableNetwork:
    """Return the network of a problem of whose table its comments say this. Which arcs are of the
    table is told by their ends, as in all tools."""
    from ..session.runners import start
    from .other_columns import extra_in, left_out
    from .table_network import TableNetwork

    said = (
        renumbered(said, zip(problem.tails, problem.heads), said.both_ways)
        if said.joints or said.halves
        else replace(said, roles={})
    )
    given = problem.node_names()
    named = unique(
        {
            number: name
            for number, name in given.items()
            if number not in said.joints and number not in said.halves
        }
    )
    numbers: dict[Any, int] = {}
    for number in range(1, problem.node_count + 1):
        is_inner = number in said.joints or number in said.halves
        place: Any = named.get(number, number)
        numbers[InnerNode(number, given.get(number, str(number))) if is_inner else place] = number
    names = list(numbers)
    read = problem.arc_names()
    arc_names = read() if said.roles else {}
    inner = {number: str(arc_names[number]) for number in said.roles if number in arc_names}
    keys = (
        {number: name for number, name in arc_names.items() if number not in inner}
        if said.roles
        else read
    )
    columns = FoldedColumns(numbers, problem.tails, problem.heads, keys, said, inner)
    capacities = with_room(problem.capacities, said)
    source, sink = problem.ends
    kept: NetworkState[Any] = NetworkState(
        columns, capacities, names[source - 1], names[sink - 1], problem.most
    )
    session = problem.session
    if capacities is not problem.capacities:
        session.end()
        session = start(kept, session.way)
        session.program = problem.session.program
    made = TableNetwork.__new__(TableNetwork)
    made._begin(session, kept)
    made._load, made.notes = lambda: extra_in(problem.text), left_out(problem.text)
    made._rows = [number for number in range(1, len(problem.tails) + 1) if number not in said.roles]
    return made
