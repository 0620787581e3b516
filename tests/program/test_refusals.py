"""Refuses each request for memory of a run in turn, by the preloaded library of tests/faults.c; and
where arcs are added, each two in a row: a vector that is refused room to grow asks again, for just
the room that it needs.

A run of which requests were refused ends in one of three ways: with status 5 and nothing written;
in a session with at most as many replies `c refused L no memory`, where line L is one that may want
memory, and all other replies as if that line were a comment; or as with ample memory."""

from __future__ import annotations

from itertools import count

import built
import pytest
from built import PROBLEM, Case
from oracle.session import Refusals
from refused import REFUSED, ways_of
from worked import WORKED
from worked_forms import CROSSED, text
from worked_sessions import SESSIONS

# Lines that search the network wherever the cases carry them out, and so want memory there. So does
# a session's first solve; a later one may go along links that the session has kept, and move
# nothing.
SEARCHING = b"print cut", b"shut 3"
ADDING = (
    "add 1 4 7 / add 2 4 1 / undo 2 / redo 2 / undo / add 1 3 9 / redo / print problem / solve / "
    "undo / redo / print flow"
)
SHUTTING = "solve / shut 3 / undo / shut 2 / solve / undo 2 / redo 2 / shut 1 / print flow"
KEEPING = (
    "solve / cap 5 1 / solve / cap 5 3 / close 1 / solve / print cut / add 1 4 2 / solve / shut 3 "
    "/ "
    "solve / print cut / undo / solve"
)
CUTTING = "solve / print cut / undo / print cut / solve / print cut"
KEEPING_CASE = Case(
    "one solve comes after the other", (b"session", PROBLEM), text(CROSSED), text(KEEPING)
)
# Draining, undoing, closing and solving in turn.
LONG = SESSIONS[-1].case.input
MORE = [
    Case(
        "arcs are added, taken back and added again",
        (b"session", PROBLEM),
        text(CROSSED),
        text(ADDING),
    ),
    Case("nodes are shut", (b"session", PROBLEM), text(CROSSED), text(SHUTTING)),
    KEEPING_CASE,
    Case(
        "one solve comes after the other, each with its cut",
        (b"session", b"--cut", PROBLEM),
        text(CROSSED),
        text(KEEPING),
    ),
    Case("cuts are printed", (b"session", b"--cut", PROBLEM), text(CROSSED), text(CUTTING)),
    Case(
        "no state is kept", (b"session", b"--history", b"0", PROBLEM), text(CROSSED), text(ADDING)
    ),
    Case(
        "one state is kept", (b"session", b"--history", b"1", PROBLEM), text(CROSSED), text(ADDING)
    ),
    Case(
        "no state is kept, and cuts are told",
        (b"session", b"--cut", b"--history", b"0", PROBLEM),
        text(CROSSED),
        LONG,
    ),
    Case(
        "one state is kept, and cuts are told",
        (b"session", b"--cut", b"--history", b"1", PROBLEM),
        text(CROSSED),
        LONG,
    ),
    Case(
        "a solve for its value and its cut",
        (b"solve", b"--brief", b"--cut"),
        text(CROSSED),
        text(CROSSED),
    ),
    Case(
        "a solve by any flow, with the cut",
        (b"solve", b"--any", b"--cut"),
        text(CROSSED),
        text(CROSSED),
    ),
    Case("the help", (b"--help",), b"", b""),
    Case("the help of a command", (b"help", b"session"), b"", b""),
    Case("the version", (b"--version",), b"", b""),
    Case("a word that is not taken", (b"wash",), b"", b""),
    Case("a path that is missing", (b"session", b"--cut"), b"", b""),
]


def searches(case: Case) -> set[int]:
    """The lines that search the network, and the first solve."""
    asked = Refusals()
    built.wanted(case, asked)
    lines = case.input.split(b"\n")
    solves = sorted(line for line in asked.possible if lines[line - 1] == b"solve")
    return {line for line in asked.possible if lines[line - 1] in SEARCHING}.union(solves[:1])


ITEMS = [
    (case, row)
    for case in [it.case for it in WORKED] + MORE
    for row in (1, 2)
    if row == 1 or b"add " in case.input
]


@pytest.mark.seconds(1)
@pytest.mark.usefixtures("case_folder")
@pytest.mark.parametrize(
    ("case", "row"), [pytest.param(*it, id=f"{it[0].name}, {it[1]} in a row") for it in ITEMS]
)
def test_refusals(case: Case, row: int, faults: str) -> None:
    """Each request of a case is refused in turn, or each so many in a row."""
    built.put_problem(case)
    ways: set[str | int] = set()
    for number in count(1):
        run, calls = built.watch(case, faults, CALL="memory", AT=number, ROW=row)
        if REFUSED not in calls:
            break
        ended = ways_of(case, run, row)
        assert ended, f"with {row} requests from number {number} on refused the run ends so: {run}"
        ways.update(ended)
    assert built.wanted(case).allows(*run), f"with ample memory the run ends so: {run}"
    assert {"nothing", *searches(case)} <= ways, "a refused request is told each way"
    assert (case, row) != (
        KEEPING_CASE,
        1,
    ) or "ample" in ways, "without what the session only keeps to be quick it answers as ever"
