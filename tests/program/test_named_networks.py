"""Compares the built program with the second implementation on networks that were chosen for their
paths, in sessions that halve and close each arc, shut each node, and solve again: each change on
the solved network, and one after the other."""

from __future__ import annotations

from collections.abc import Iterator

import built
import pytest
from built import PROBLEM, Case, Run
from oracle.network import State
from oracle.problem import read_problem
from oracle.program import Outcome
from worked_forms import CROSSED, CUT, JOINED, LOOSE, PARALLEL, text

# As JOINED, but that the arcs to nodes 2 and 3 stand the other way round.
TURNED = "p max 5 5 / n 1 s / n 5 t / a 1 3 1 / a 1 2 1 / a 2 4 1 / a 3 4 1 / a 4 5 1"
# Parallel arcs in a row of arcs: what flows on one is drained along several paths of one length,
# each of which has most of the links of the one before.
ROW = (
    "p max 8 10 / n 1 s / n 8 t / a 1 2 6 / a 2 3 2 / a 2 3 4 / a 3 4 6 / a 4 5 1 / a 4 5 5 / a 5 "
    "6 "
    "6 / a 6 7 3 / a 6 7 3"
    " / a 7 8 6"
)
# Parallel arcs, arcs that come back to their tails, and a way round by the sink.
TANGLE = (
    "p max 4 7 / n 1 s / n 3 t / a 1 2 4 / a 2 2 9 / a 1 2 7 / a 2 3 9 / a 3 4 5 / a 4 2 5 / a 4 4 "
    "1"
)
# With arcs 4 and 5 at 0 the flow makes a detour from node 3 by node 2. The least path then takes
# back what flows from 3 to 2.
DETOUR = (
    "p max 5 7 / n 1 s / n 5 t / a 3 2 1 / a 1 3 1 / a 2 5 1 / a 1 2 1 / a 3 5 1 / a 2 4 1 / a 4 5 "
    "1"
)
LED_ROUND = "cap 4 0 / cap 5 0 / solve / cap 4 1 / cap 5 1"
# The first path goes 1 2 3 8, and the last 1 4 5 3 2 6 7 8: its step from 3 to 2 is by arc 1, which
# ranks before the step back along arc 3. So a flow of 1 is left that goes round between nodes 2 and
# 3.
ROUND = (
    "p max 8 10 / n 1 s / n 8 t / a 3 2 2 / a 1 2 1 / a 2 3 1 / a 3 8 1 / a 1 4 1 / a 4 5 1 / a 5 "
    "3 "
    "1 / a 2 6 1 / a 6 7 1"
    " / a 7 8 1"
)
# Each network with the commands that come before all others.
NETWORKS: dict[str, tuple[str | bytes, str]] = {
    "two ways that cross": (CROSSED, ""),
    "two ways of one length": (JOINED, ""),
    "two ways of one length, turned": (TURNED, ""),
    "a loose text": (LOOSE, ""),
    "parallel arcs and another way": (PARALLEL, ""),
    "parallel arcs in a row": (ROW, ""),
    "a tangle": (TANGLE, ""),
    "a detour": (DETOUR, LED_ROUND),
    "a flow that goes round": (ROUND, ""),
}
BOUNDS: dict[str, tuple[bytes, ...]] = {
    "all that is kept": (),
    "one state kept": (b"--history", b"1"),
}


def each_alone(state: State) -> Iterator[str]:
    """Halves and closes each arc and shuts each node, goes back and forth, and back again before
    the next; and solves there."""
    changes = [
        change
        for j, arc in enumerate(state.arcs, 1)
        for change in (f"cap {j} {arc.cap // 2}", f"close {j}")
    ]
    changes += [f"shut {node}" for node in range(1, state.nodes + 1)]
    for change in changes:
        yield from (
            change,
            "print flow",
            "print cut",
            "undo",
            "print flow",
            "redo",
            "print flow",
            "undo",
            "solve",
        )


def arcs_in_turn(state: State) -> Iterator[str]:
    """Halves and closes one arc after the other, and solves again each time; goes back to the
    begin, and forward again."""
    for j, arc in enumerate(state.arcs, 1):
        yield from (
            f"cap {j} {arc.cap // 2}",
            "print flow",
            f"close {j}",
            "print flow",
            "solve",
            "print cut",
        )
    yield from (f"undo {3 * len(state.arcs)}", "print flow", "print problem")
    for _ in state.arcs:
        yield from ("redo 2", "print flow", "redo", "print flow")


def nodes_in_turn(state: State) -> Iterator[str]:
    """Shuts one inner node after the other, and solves again each time."""
    for node in range(1, state.nodes + 1):
        if node not in (state.source, state.sink):
            yield from (
                f"shut {node}",
                "print flow",
                "print cut",
                "solve",
                "print cut",
                "print problem",
            )


SCRIPTS = [each_alone, arcs_in_turn, nodes_in_turn]


def cases() -> Iterator[Case]:
    for name, (lines, before) in NETWORKS.items():
        problem = text(lines)
        state = read_problem(problem)
        for script in SCRIPTS:
            commands = text(" / ".join([before, "solve", "print cut", *script(state)]))
            for kept, bound in BOUNDS.items():
                for flags in (), (CUT,):
                    title = (
                        f"{name}, {script.__name__.replace('_', ' ')}, "
                        f"{kept}{', with the cut' * len(flags)}"
                    )
                    yield Case(title, (b"session", *bound, *flags, PROBLEM), problem, commands)


def first_difference(wanted: Outcome, run: Run) -> str:
    """The first line in which a session differs from what is wanted, or how it ended where none
    does."""
    assert isinstance(wanted.written, bytes)
    pairs = zip(wanted.written.split(b"\n"), run.out.split(b"\n"))
    for number, (line, other) in enumerate(pairs, 1):
        if line != other:
            return f"line {number} written is {other!r}, and not {line!r}"
    return (
        f"status {run.status}, and not {wanted.status}; {len(run.out)} bytes, and not "
        f"{len(wanted.written)}; told {run.err!r}"
    )


@pytest.mark.usefixtures("case_folder")
@pytest.mark.parametrize("case", [pytest.param(it, id=it.name) for it in cases()])
def test_named_network(case: Case) -> None:
    built.put_problem(case)
    wanted, run = built.wanted(case), built.run(case)
    assert wanted.allows(*run), first_difference(wanted, run)
