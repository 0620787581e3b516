"""Solves of graphs by the program or the library, without a session that stays."""

from __future__ import annotations

from array import array
from functools import partial
from typing import TYPE_CHECKING

from .errors import CapacitiesPast64Bits, Refused
from .graph_rows import GivenNetwork
from .session.base import PROGRAM, ProblemColumns, Program, Runner, Solved, Way, where
from .session.column_texts import problem_pieces
from .session.fresh import CUT, FLOW, VALUE, solved
from .session.runners import chosen, program_of
from .text.lexical import AMOUNTS, LARGEST

if TYPE_CHECKING:
    from .unbounded_arcs import BoundlessFlow


def solved_graph(given: GivenNetwork, words: list[str], program: Program) -> Solved | BoundlessFlow:
    """Run the program's or the library's solve with these words. Raises a `Refused` that names the
    faulty arc."""
    solver = partial(_solved_problem, way=chosen(program), program=program)
    problem = given.state.problem()
    try:
        if given.unbounded and sum(problem.capacities) <= LARGEST:
            from .unbounded_arcs import solve_unbounded

            return solve_unbounded(problem, given.unbounded, words, solver)
        # Capacities that are past 64 bits together are refused, whatever the others are.
        return solver(problem, words)
    except Refused as refused:
        raise where(refused, given.state.handle) from None


def _solved_problem(
    problem: ProblemColumns, words: list[str], way: Way, program: Program
) -> Solved:
    if not isinstance(way, PROGRAM):
        return _by_library(problem, words, way)
    return solved(problem_pieces(problem), words, program_of(program))


def _by_library(problem: ProblemColumns, words: list[str], library: Runner) -> Solved:
    session = library.begin(problem, 0)
    try:
        return session.maximum_flow(want_flows=words == FLOW, want_side=words == CUT)
    finally:
        session.end()


def bounded_problem(given: GivenNetwork, program: Program) -> ProblemColumns:
    """Return a problem in which no arc carries more than the greatest value. With or without any
    arc, its greatest value is the same as if arcs had no bound."""
    problem, most = given.state.problem(), solved_graph(given, VALUE, program).value
    rooms = [min(room, most) for room in problem.capacities]
    for place in given.unbounded:
        rooms[place] = most
    if sum(rooms) > LARGEST:
        raise CapacitiesPast64Bits("arcs without a bound")
    return problem._replace(capacities=array(AMOUNTS, rooms))
