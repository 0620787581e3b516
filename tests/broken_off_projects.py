"""What the tests of broken calls of projects share: projects in one state, their calls, all that
they tell, and how a broken call is judged."""

from __future__ import annotations

from collections.abc import Iterable, Iterator
from pathlib import Path
from shutil import copy
from typing import Any

import dmf
from broken_off import Breaker, Call, States
from desk_shared import PIPES, ROOT
from dmf.desk.project.scenarios import project_of

PROJECT_CALLS: dict[str, Call] = {
    "close": lambda project: project.close("Mill Lane"),
    "open": lambda project: project.open("Bridge pipe"),
    "cap": lambda project: project.cap("Mill Lane", 60),
    "finer": lambda project: project.cap("Mill Lane", "44.5"),
    "add": lambda project: project.add("Mill", "Station", 25, "New"),
    "shut": lambda project: project.shut("Market"),
    "undo": lambda project: project.undo(),
    "redo": lambda project: project.redo(),
    "compare": lambda project: project.compare("base", "first"),
    "go": lambda project: project.go("first"),
    "new": lambda project: project.new("third"),
    "copy": lambda project: project.copy("third"),
    "rename": lambda project: project.rename("third"),
    "delete": lambda project: project.delete("first"),
    "note": lambda project: project.note("a note"),
}


class Kept:
    """Projects of a table, each in a folder of its own, in the same state."""

    def __init__(self, folder: Path) -> None:
        self._folder = folder
        self._count = 0

    def __iter__(self) -> Iterator[Any]:
        while True:
            self._count += 1
            folder = self._folder / str(self._count)
            folder.mkdir()
            copy(ROOT / PIPES, folder)
            with dmf.new_project(folder / "pipes.csv") as project:
                project.new("second")
                project.close("Bridge pipe")
                project.close("North rise")
                project.undo()
                yield project


def told(project: Any) -> tuple[object, ...]:
    """Return all that a project tells of its present state."""
    desk = project._desk
    arcs = [
        (it.is_closed, it.is_replaced, it.capacity, desk.flow(number))
        for number, it in enumerate(desk.network.lines, 1)
    ]
    steps = [(step.text, step.value) for step in desk.steps]
    return (
        project.scenarios,
        project.scenario,
        project.value,
        arcs,
        steps,
        desk.at,
        project.limit,
        project_of(desk).scenario.note,
    )


def reopened(project: Any) -> tuple[object, ...]:
    project.end()
    with dmf.open_project(project.path) as again:
        assert again.news == []
        return told(again)


def states(call: Call, counting: Breaker, projects: Iterator[Any]) -> States:
    """Return all that a project tells before a call, after it, and after another step."""
    project = next(projects)
    before = told(project)
    assert not counting.call(call, project)
    after = told(project)
    project.close("South main")
    return before, after, told(project)


def judge(
    call: Call,
    wanted: States,
    breaking: Iterable[Breaker],
    projects: Iterator[Any],
) -> None:
    """Break a call of projects off in each of these ways: the state is that before the call or that
    after it, the next calls are right, and so is what is read again from the disk."""
    before, after, later = wanted
    for it in breaking:
        project = next(projects)
        was_broken_off = it.call(call, project)
        found = told(project)
        assert found in ([before, after] if was_broken_off else [after]), it.at
        if found != after:
            call(project)
            assert told(project) == after, it.at
        project.close("South main")
        assert told(project) == later, it.at
        assert reopened(project) == later, it.at
