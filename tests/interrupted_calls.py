"""Breaks calls off at each of their calls to the system, in a process that has tests/interrupts.c
preloaded: `interrupted_calls.py network CALL`, or `project CALL FOLDER`, `ending FOLDER` or
`opening FOLDER`. Prints how many places there were."""

from __future__ import annotations

import ctypes
import sys
from collections.abc import Callable, Iterator
from pathlib import Path
from typing import Any

import broken_off
import broken_off_projects
import dmf
from broken_off import Call
from broken_off_projects import PROJECT_CALLS, Kept, reopened, told

INTERRUPTS = ctypes.CDLL(None)


class BreakingSystemCalls:
    """Breaks a call off before one of its calls to the system, or after it."""

    def __init__(self, at: int) -> None:
        self.at = at
        self.count = 0

    def call(self, call: Call, about: Any) -> bool:
        INTERRUPTS.interrupts_begin(ctypes.c_long(self.at))
        try:
            try:
                call(about)
            finally:
                self.count = INTERRUPTS.interrupts_end()
        except KeyboardInterrupt:
            return True
        return False


def each_place(counting: BreakingSystemCalls) -> Iterator[BreakingSystemCalls]:
    return map(BreakingSystemCalls, range(1, counting.count + 1))


def judge_network(call: str) -> int:
    make, counting = broken_off.CALLS[call], BreakingSystemCalls(0)
    wanted = broken_off.states(make, counting)
    broken_off.judge(make, wanted, each_place(counting))
    return counting.count


def judge_project(call: str, folder: str) -> int:
    make, counting = PROJECT_CALLS[call], BreakingSystemCalls(0)
    projects = iter(Kept(Path(folder)))
    wanted = broken_off_projects.states(make, counting, projects)
    broken_off_projects.judge(make, wanted, each_place(counting), projects)
    return counting.count


def judge_ending(folder: str) -> int:
    """A project whose end was broken off can be ended, and has lost nothing."""
    counting, projects = BreakingSystemCalls(0), iter(Kept(Path(folder)))
    counting.call(lambda project: project.end(), next(projects))
    for it in each_place(counting):
        project = next(projects)
        wanted = told(project)
        it.call(lambda project: project.end(), project)
        assert reopened(project) == wanted, it.at
    return counting.count


def judge_opening(folder: str) -> int:
    """A project whose opening was broken off can be opened, and has lost nothing."""
    counting, projects = BreakingSystemCalls(0), iter(Kept(Path(folder)))

    def open_and_end(path: Path) -> None:
        dmf.open_project(path).end()

    project = next(projects)
    wanted = told(project)
    project.end()
    counting.call(open_and_end, project.path)
    for it in each_place(counting):
        it.call(open_and_end, project.path)
        assert reopened(project) == wanted, it.at
    return counting.count


JUDGES: dict[str, Callable[..., int]] = {
    "network": judge_network,
    "project": judge_project,
    "ending": judge_ending,
    "opening": judge_opening,
}


def main() -> None:
    kind, *words = sys.argv[1:]
    print(JUDGES[kind](*words))


main()
