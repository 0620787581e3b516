"""Compares runs of the program with the second implementation, and shows a case that differs as
small as it can be made. And two faults that tests put into the second implementation."""

from __future__ import annotations

import built
import pytest
from built import Case, Run
from kept import Found
from oracle import changes, network, session
from oracle.network import State, Step
from reduced import reduced
from refused import wanted_without, ways_of


def compared(case: Case) -> tuple[Run, str | None]:
    """A run of a case, and what it differs in, if in anything."""
    built.put_problem(case)
    wanted, run = wanted_without(case, ()), built.run(case)
    if wanted.allows(*run):
        return run, None
    return (
        run,
        f"the program ends with {run.status}, writes {run.out!r} and tells {run.err!r}; wanted is "
        f"{wanted}",
    )


def difference(found: Found, library: str = "") -> str | None:
    """What a run of a case differs in, of which a request for memory may be refused."""
    if not found.refused:
        return compared(found.case)[1]
    built.put_problem(found.case)
    run, _ = built.watch(found.case, library, CALL="memory", AT=found.refused)
    return (
        None
        if ways_of(found.case, run, 1)
        else f"with request {found.refused} refused the program ends so: {run}"
    )


def judge(found: Found, library: str = "") -> None:
    wrong = difference(found, library)
    assert not wrong, f"{wrong}\n\n    {found}"


def judge_seeded(found: Found, library: str, wrong: object) -> None:
    """Fails with a smaller case, where a case fails."""
    if wrong:
        judge(
            found._replace(
                case=reduced(
                    found.case, lambda it: difference(found._replace(case=it), library) is not None
                )
            ),
            library,
        )
        pytest.fail(f"it failed once, and not again: {wrong}\n\n    {found}")


def with_later_path(monkeypatch: pytest.MonkeyPatch) -> None:
    """Of the shortest paths the second implementation takes one that need not be the first."""
    least_path = network.least_path

    def least_path_backwards(steps: list[Step], start: int, goal: int) -> list[Step] | None:
        path = least_path([step._replace(rank=-step.rank) for step in steps], start, goal)
        return path and [step._replace(rank=-step.rank) for step in path]

    monkeypatch.setattr(network, "least_path", least_path_backwards)


def with_arcs_left(monkeypatch: pytest.MonkeyPatch) -> None:
    """A shut of the second implementation leaves the arcs open that enter the node."""

    def shut(state: State, node: int) -> State:
        for number, arc in enumerate(state.arcs, 1):
            if arc.tail == node and not arc.is_closed:
                state = changes.close(state, number)
        return state

    monkeypatch.setattr(session, "CHANGES", {**session.CHANGES, "shut": shut})
