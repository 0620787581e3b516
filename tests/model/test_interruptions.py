"""Calls that are broken off at one of their bytecodes, each in turn: the state is that before the
call or that after it, and the next call is right. In the gate a few bytecodes of each call are
tried, and all by --long."""

from __future__ import annotations

import sys
from pathlib import Path
from random import Random
from types import FrameType
from typing import Any

import broken_off
import broken_off_projects
import dmf
import pytest
from broken_off import Call
from broken_off_projects import PROJECT_CALLS, Kept, reopened, states
from dmf.session import library

pytestmark = pytest.mark.usefixtures("by_library")
# How many bytecodes of a call are tried in the gate.
IN_GATE = 12
PACKAGE = str(Path(dmf.__file__).parent)


class Breaking:
    """Breaks a call off at one of the bytecodes of the package, which are counted from 1."""

    def __init__(self, at: int, error: type[BaseException] = KeyboardInterrupt) -> None:
        self.at = at
        self.count = 0
        self._error = error

    def _trace(self, frame: FrameType, event: str, _: object) -> Any:
        if not frame.f_code.co_filename.startswith(PACKAGE):
            return None
        frame.f_trace_opcodes = True
        if event == "opcode":
            self.count += 1
            if self.count == self.at:
                sys.settrace(None)
                raise self._error
        return self._trace

    def call(self, call: Call, about: Any) -> bool:
        before = sys.gettrace()
        sys.settrace(self._trace)
        try:
            call(about)
        except self._error:
            return True
        finally:
            sys.settrace(before)
        return False


def places(request: pytest.FixtureRequest, count: int, seed: str) -> list[int]:
    """Return the bytecodes of a call that are tried: all, or the last ones and some others."""
    assert count > 20
    if request.config.getoption("--long"):
        return list(range(1, count + 1))
    return sorted({*Random(seed).sample(range(1, count + 1), IN_GATE), count, count - 1, count - 2})


@pytest.fixture(params=[0, 10**9], ids=["beside", "at once"])
def most_at_once(request: pytest.FixtureRequest, monkeypatch: pytest.MonkeyPatch) -> int:
    """The most arcs of a network whose calls do not run in another thread."""
    monkeypatch.setattr(library, "MOST_AT_ONCE", request.param)
    return int(request.param)


@pytest.mark.parametrize("history", [None, 6])
@pytest.mark.parametrize("call", broken_off.CALLS)
def test_networks(
    call: str, history: int | None, most_at_once: int, request: pytest.FixtureRequest
) -> None:
    make, counting = broken_off.CALLS[call], Breaking(0)
    wanted = broken_off.states(make, counting, history=history)
    tried = places(request, counting.count, f"{call} {history} {most_at_once}")
    broken_off.judge(make, wanted, map(Breaking, tried), history=history)


@pytest.mark.parametrize("call", PROJECT_CALLS)
def test_projects_on_disk(call: str, tmp_path: Path, request: pytest.FixtureRequest) -> None:
    """What is opened again has the state before the call or that after it, each with its values."""
    make, counting, projects = PROJECT_CALLS[call], Breaking(0), iter(Kept(tmp_path))
    before, after, _ = states(make, counting, projects)
    for at in places(request, counting.count, f"{call} on disk"):
        project = next(projects)
        was_broken_off = Breaking(at).call(make, project)
        assert reopened(project) in ([before, after] if was_broken_off else [after]), at


@pytest.mark.parametrize("call", PROJECT_CALLS)
def test_open_projects(call: str, tmp_path: Path, request: pytest.FixtureRequest) -> None:
    make, counting, projects = PROJECT_CALLS[call], Breaking(0), iter(Kept(tmp_path))
    wanted = states(make, counting, projects)
    tried = places(request, counting.count, call)
    broken_off_projects.judge(make, wanted, map(Breaking, tried), projects)
