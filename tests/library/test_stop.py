"""Solves that another thread ends: dmf_stop_* and dmf_session_solve_until."""

from __future__ import annotations

import subprocess
import time
from collections.abc import Iterator
from pathlib import Path
from threading import Timer

import pytest
from c_library import ROOT, Library, compiled, library_folder
from c_stops import OK, STOPPED, Stop
from limits import SECONDS
from make_network import problem_of


@pytest.fixture(scope="module")
def library() -> Library:
    return Library(library_folder())


@pytest.fixture(scope="module")
def long_problem() -> bytes:
    """A problem whose solve takes seconds."""
    return problem_of(300, 300, 3, 1_000_000, 1990).encode()


@pytest.fixture
def stop(library: Library) -> Iterator[Stop]:
    made = Stop(library)
    yield made
    made.set("free")


@pytest.fixture
def shared(library: Library, stop: Stop) -> Iterator[Stop]:
    made = Stop(library, stop)
    yield made
    made.set("free")


def test_a_flag_that_is_not_raised_ends_nothing(library: Library, stop: Stop) -> None:
    with library.example() as session, library.example() as plain:
        plain.step("solve")
        assert stop.solve(session) == OK and session.state() == plain.state()


def test_a_flag_that_was_raised_ends_each_solve(library: Library, stop: Stop, shared: Stop) -> None:
    with library.example() as session:
        session.step("cap", 1, 2)
        session.step("undo", 1)
        before = session.state()
        shared.set("raise")
        assert [stop.solve(session), shared.solve(session)] == [STOPPED, STOPPED]
        assert session.state() == before and session.number("future") == 1
        stop.set("clear")
        assert shared.solve(session) == OK and session.number("value") == 5


def test_another_flag_ends_nothing(library: Library, stop: Stop) -> None:
    other = Stop(library)
    other.set("raise")
    with library.example() as session:
        assert stop.solve(session) == OK and session.number("value") == 5
        stop.set("raise")
        assert session.number("value") == 5
    other.set("free")


def test_the_last_stop_may_be_freed_first_or_last(library: Library) -> None:
    first = Stop(library)
    second = Stop(library, first)
    first.set("raise")
    first.set("free")
    with library.example() as session:
        assert second.solve(session) == STOPPED
    second.set("free")
    library.calls.dmf_stop_free(None)


def test_a_solve_is_ended_while_it_runs(
    library: Library, stop: Stop, shared: Stop, long_problem: bytes
) -> None:
    """The session is as it was, and the next solve finds what a plain one finds, in more than twice
    the processor time."""
    with library.read(long_problem) as session, library.read(long_problem) as plain:
        before = session.state()
        begun = time.thread_time()
        timer = Timer(0.1, shared.set, ["raise"])
        timer.start()
        assert stop.solve(session) == STOPPED
        stopped = time.thread_time() - begun
        timer.join()
        assert session.state() == before
        stop.set("clear")
        begun = time.thread_time()
        assert stop.solve(session) == OK
        assert stopped < (time.thread_time() - begun) / 2
        plain.step("solve")
        assert session.array("flows") == plain.array("flows")
        assert [session.number("past"), session.number("value")] == [1, plain.number("value")]


@pytest.mark.parametrize("milliseconds", [0, 300])
def test_two_threads_in_c(tmp_path: Path, long_problem: bytes, milliseconds: int) -> None:
    """After the flag is raised the solve takes less than a second of processor time, of four; the
    program looks at the session."""
    problem = tmp_path / "problem.max"
    problem.write_bytes(long_problem)
    source = Path(__file__).with_name("stops.c")
    program = compiled(["gcc", "-std=c11", "-pthread"], source, library_folder(), tmp_path)
    ran = subprocess.run(
        [program, problem, str(milliseconds)], capture_output=True, text=True, timeout=SECONDS
    )
    assert (ran.returncode, ran.stderr) == (0, "")
    word, microseconds = ran.stdout.split()
    assert word == "stopped" and int(microseconds) < 1_000_000


def test_all_is_freed(tmp_path: Path) -> None:
    """A flag that is raised after the solve ends nothing."""
    program = compiled(
        ["gcc", "-std=c11", "-pthread"],
        Path(__file__).with_name("stops.c"),
        library_folder(),
        tmp_path,
    )
    ran = subprocess.run(
        [
            *("valgrind", "-q", "--error-exitcode=9", "--leak-check=full"),
            "--show-leak-kinds=all",
            *(program, ROOT / "examples/a.max", "after"),
        ],
        capture_output=True,
        text=True,
        timeout=SECONDS,
    )
    assert (ran.returncode, ran.stderr) == (0, "") and ran.stdout.startswith("no error ")
