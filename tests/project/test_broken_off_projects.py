"""Calls of a project in Python that Ctrl-C breaks off: the project goes on, in the state before the
call."""

from __future__ import annotations

import json
import os
import signal
from collections.abc import Callable
from dataclasses import replace
from pathlib import Path
from shutil import copy
from typing import Any

import dmf
import pytest
from desk_shared import PIPES, ROOT, greatest, water, without
from dmf.desk.answers import Answers
from dmf.desk.project.journal import journal_of

# Each call, with what it asks the session.
CALLS: dict[str, tuple[Callable[[Any], object], tuple[str, ...]]] = {
    "close": (lambda project: project.close("Mill Lane"), ("close", "solve")),
    "open": (lambda project: project.open("Bridge pipe"), ("open", "solve")),
    "cap": (lambda project: project.cap("Mill Lane", 60), ("cap", "solve")),
    "finer": (lambda project: project.cap("Mill Lane", "44.5"), ("cap", "solve", "close")),
    "add": (lambda project: project.add("Mill", "Station", 25, "New"), ("add", "solve")),
    "shut": (lambda project: project.shut("Market"), ("shut", "solve")),
    "undo": (lambda project: project.undo(), ("undo",)),
    "redo": (lambda project: project.redo(), ("redo",)),
    "limit": (lambda project: project.limit, ("_cut_side",)),
    "flow": (lambda project: project.flow("Mill Lane"), ("_flow_of_each",)),
    "compare": (
        lambda project: project.compare("base", "first"),
        ("undo", "_flow_of_each", "_cut_side"),
    ),
    "go": (lambda project: project.go("first"), ("undo",)),
    "new": (lambda project: project.new("third"), ("undo",)),
}


@pytest.fixture(params=["pipe", "library"])
def project(request: pytest.FixtureRequest, tmp_path: Path) -> Any:
    """A project with two scenarios. In the second the Bridge pipe is closed, and the last step is
    undone."""
    if request.param == "library":
        request.getfixturevalue("by_library")
    copy(ROOT / PIPES, tmp_path)
    with dmf.new_project(tmp_path / "pipes.csv") as made:
        made.new("second")
        made.close("Bridge pipe")
        made.close("North rise")
        made.undo()
        yield made


def told(project: Any) -> tuple[object, ...]:
    steps = [(step.text, step.value) for step in project.steps]
    flows = [project.flow(pipe.name) for pipe in water() if pipe.name != "Bridge pipe"]
    return project.scenarios, project.scenario, project.value, steps, project.limit, flows


@pytest.mark.parametrize(
    "call, asked", [(call, asked) for call, (_, all_asked) in CALLS.items() for asked in all_asked]
)
def test_it_goes_on(project: Any, call: str, asked: str, monkeypatch: pytest.MonkeyPatch) -> None:
    before = told(project)
    assert project.value == without("Bridge pipe")

    def broken_off(network: Any, *_: object) -> object:
        # As Ctrl-C in the midst of the call: the session may have done it or not.
        network._session.kill("the session was ended when a call was broken off")
        raise KeyboardInterrupt

    # What was asked before is known without the session.
    desk = project._desk
    desk.state = replace(desk.state, answers=Answers())
    with monkeypatch.context() as patched, pytest.raises(KeyboardInterrupt):
        patched.setattr(dmf.Network, asked, broken_off)
        CALLS[call][0](project)
    assert told(project) == before
    closed = project.close("Mill Lane")
    assert closed == greatest(
        [pipe for pipe in water() if pipe.name not in ("Bridge pipe", "Mill Lane")]
    )
    assert "Mill Lane" not in "".join(project.limit)


def interrupted(project: Any, call: Callable[[], object]) -> None:
    """Has Ctrl-C come when an act is on the disk, and the desk does not show it yet."""
    real = os.fdatasync

    def interrupting(file: int) -> None:
        real(file)
        os.kill(os.getpid(), signal.SIGINT)

    # Who began the tests may have had them ignore it.
    before = signal.signal(signal.SIGINT, signal.default_int_handler)
    try:
        with pytest.MonkeyPatch.context() as patched, pytest.raises(KeyboardInterrupt):
            patched.setattr(os, "fdatasync", interrupting)
            call()
    finally:
        signal.signal(signal.SIGINT, before)


def test_written_and_not_shown(project: Any) -> None:
    """What is shown then, and what is kept of the next step, are of one scenario."""
    project.go("first")
    interrupted(project, lambda: project.go("second"))
    closed = ["Bridge pipe"] if project.scenario == "second" else []
    assert project.value == without(*closed)
    narrow = [it._replace(capacity=1) if it.name == "Mill Lane" else it for it in water()]
    value = greatest([it for it in narrow if it.name not in closed])
    assert project.cap("Mill Lane", 1) == value
    shown = told(project)
    project.end()
    with dmf.open_project(project.path) as again:
        assert (told(again), again.news, again.value) == (shown, [], value)


def test_written_and_not_taken(project: Any) -> None:
    """The line of an act that was not taken is cut back before the next one, and at the end. Where
    the process is killed, it is one that was done."""
    before, journal = told(project), Path(journal_of(project.path))
    interrupted(project, lambda: project.close("Mill Lane"))
    interrupted(project, lambda: project.rename("other"))
    project.note("why")
    kept = [json.loads(line) for line in journal.read_bytes().splitlines()][-2:]
    assert [it.get("at", it.get("note")) for it in kept] == [1, "why"]
    assert kept[1]["serial"] == kept[0]["serial"] + 1 and told(project) == before
    interrupted(project, lambda: project.close("Mill Lane"))
    folder = Path(project.path).parent / "killed"
    folder.mkdir()
    for name in Path(project.path).name, journal.name, "pipes.csv":
        copy(Path(project.path).parent / name, folder)
    with dmf.open_project(folder / Path(project.path).name) as killed:
        assert killed.value == without("Bridge pipe", "Mill Lane")
    project.end()
    with dmf.open_project(project.path) as again:
        assert (told(again), again.news) == (before, [])


def test_the_end_is_one(project: Any) -> None:
    """A project that was ended begins no session again."""
    project.end()
    for call in "close", "limit", "compare":
        with pytest.raises((dmf.SessionEnded, dmf.ProjectFault)):
            CALLS[call][0](project)
        assert project._shown.has_ended
    assert (project.value, project.scenario) == (without("Bridge pipe"), "second")
