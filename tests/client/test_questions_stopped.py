"""Questions to the C library that Ctrl-C or another thread ends, such as what is lost without each
arc: the session is as it was, and goes on. What it is compared with is another network, which was
never broken off, and for the values the program."""

from __future__ import annotations

import threading
from collections.abc import Callable
from typing import Any, NamedTuple

import pytest
from c_library import library_file
from client_shared import BUILT, PIPE_PAIRS, dmf, interrupted_when, pipes, rows_by_number
from dmf.session import library as loaded
from dmf.session.base import Ranked
from dmf.session.statuses import NO_MEMORY, STOPPED
from limits import SECONDS
from watched_library import GRID, counted, slow_call, told_by, wait_until_freed

Asked = Callable[[dmf.Network[Any]], object]


class Question(NamedTuple):
    """The call of the library that answers a question, the question, and its answer about the
    pipes, worked by hand. The flow is greatest."""

    call: str
    ranked: Ranked | None
    ask: Asked
    answer: object


NEW = [("lake", "sea", 3), ("town", "sea", 9), ("sea", "lake", 9)]
QUESTIONS = {
    "vital": Question("losses", Ranked.ARCS, lambda it: [*it.vital().losses], [3, 2, 1, 2, 3]),
    "vital nodes": Question("losses", Ranked.NODES, lambda it: [*it.vital_nodes().losses], [3, 3]),
    "worst": Question("worst", Ranked.ARCS, lambda it: [*it.vital(top=2).losses], [3, 3]),
    "worst nodes": Question("worst", Ranked.NODES, lambda it: [*it.vital_nodes(top=1).losses], [3]),
    "worst pairs": Question(
        "worst", Ranked.PAIRS, lambda it: rows_by_number(it.vital_pairs(top=3)), PIPE_PAIRS[:3]
    ),
    "gains": Question("new_arc_gains", None, lambda it: [*it.gains().gains], [0] * 5),
    "new arcs": Question("new_arc_gains", None, lambda it: [*it.gains_of(NEW).gains], [3, 0, 0]),
}
# More than all arcs of a grid can be asked about in seconds. A signal comes while the library finds
# the answer; then the session answers about a few.
LONG = (
    GRID
    + """
from array import array
from dmf.session.base import Ranked
rows = grid(200)
network = dmf.Network(rows, "s", "t")
best = network.solve().value
network.close(((3, 4), (4, 4)))
less = network.solve().value
session, way = network._session, network._session.way
side = {*network.cut().side}
inside, outside = ([it for it in network.nodes if (it in side) is is_in] for is_in in (True, False))
new = [(a, b, 99) for a, b in zip(inside * 9, outside * 5)]
asked = {
    "vital": (way.losses, Ranked.ARCS, network.vital),
    "vital nodes": (way.losses, Ranked.NODES, network.vital_nodes),
    "worst": (way.worst, Ranked.ARCS, lambda: network.vital(top=5)),
    "worst nodes": (way.worst, Ranked.NODES, lambda: network.vital_nodes(top=5)),
    "worst pairs": (way.worst, Ranked.PAIRS, network.vital_pairs),
    "new arcs": (vars(way), "new_arc_gains", lambda: network.gains_of(new)),
}
calls, key, ask = asked[sys.argv[1]]
answers = interrupted_within(calls, key)
try:
    ask()
except KeyboardInterrupt:
    print(answers, network._session is session, network.value == less)
few = [network.arcs[at] for at in range(0, len(rows), 20_000)]
columns = [array("I", [arc.number for arc in few])]
losses = [*network._asked_losses(Ranked.ARCS, columns)]
cases = [[("close", arc)] for arc in few]
print(losses == [less - it.value for it in dmf.sweep(network, cases, want_cut=True, jobs=1)])
print(network.undo(2) == best, network.redo(2) == less, network._session is session, flush=True)
"""
)
pytestmark = pytest.mark.usefixtures("by_library")


@pytest.fixture
def beside(monkeypatch: pytest.MonkeyPatch) -> None:
    """Has all of these calls run in another thread."""
    monkeypatch.setattr(loaded, "MOST_AT_ONCE", 0)


@pytest.mark.seconds(8)
@pytest.mark.parametrize(
    "name", ["vital", "vital nodes", "worst", "worst nodes", "worst pairs", "new arcs"]
)
def test_ctrl_c(name: str) -> None:
    """A signal to a process of its own: the question ends before it is answered. The same session
    answers another one, as cases that are tried one by one do, and has its changes."""
    assert told_by(LONG, name) == f"[{STOPPED}] True True\nTrue\nTrue True True\n"


@pytest.mark.usefixtures("beside")
@pytest.mark.parametrize("name", QUESTIONS)
def test_the_session_goes_on(monkeypatch: pytest.MonkeyPatch, name: str) -> None:
    """Each time, and its flow is still that of the solve."""
    call, ranked, ask, answer = QUESTIONS[name]
    with counted(monkeypatch) as freed, pipes() as network, pipes(program=BUILT) as other:
        plan, session = network.solve(), network._session
        other.solve()
        for _ in range(3):
            with slow_call(monkeypatch, call, ranked) as (begun, until):
                with pytest.raises(KeyboardInterrupt), interrupted_when(begun.is_set):
                    ask(network)
                assert not until.is_set()
            assert ask(network) == ask(other) == answer
        assert network._session is session and not network._is_broken and freed == []
        assert (network.value, network.flow() == plan, network.undo()) == (5, True, 0)


@pytest.mark.usefixtures("beside")
def test_ctrl_c_twice(monkeypatch: pytest.MonkeyPatch) -> None:
    """The second one comes while the question is about to end: it is left, and the next call begins
    a session, which is freed with the network. The first one is freed when the question ends."""
    calls: Any = loaded.load(library_file())
    begun, raised, until = (threading.Event() for _ in range(3))
    losses, put_up = calls.losses[Ranked.ARCS], calls.stop_raise

    def slow(*words: Any) -> int:
        begun.set()
        until.wait(SECONDS)
        return int(losses(*words))

    def noted(stop: int) -> None:
        put_up(stop)
        raised.set()

    with counted(monkeypatch) as freed, pipes() as network:
        network.solve()
        session = network._session
        with pytest.raises(KeyboardInterrupt), monkeypatch.context() as patched:
            patched.setitem(calls.losses, Ranked.ARCS, slow)
            patched.setattr(calls, "stop_raise", noted)
            with interrupted_when(begun.is_set, raised.is_set):
                network.vital()
        assert [*network.vital().losses] == QUESTIONS["vital"].answer
        assert network._session is not session and freed == []
        until.set()
        del session
        wait_until_freed(freed)


@pytest.mark.usefixtures("beside")
@pytest.mark.parametrize("name", QUESTIONS)
def test_another_thread_ends_it(monkeypatch: pytest.MonkeyPatch, name: str) -> None:
    """The flag is raised, so the session is freed although nothing else ends the call."""
    call, ranked, ask, answer = QUESTIONS[name]
    said: list[str] = []

    def wait() -> None:
        with pytest.raises(dmf.SessionEnded) as caught:
            ask(network)
        said.append(str(caught.value))

    with counted(monkeypatch) as freed, pipes() as network:
        network.solve()
        with slow_call(monkeypatch, call, ranked) as (begun, until):
            thread = threading.Thread(target=wait)
            thread.start()
            begun.wait(SECONDS)
            network._session.break_off("it was stopped")
            thread.join(SECONDS)
            assert said == ["it was stopped"]
            wait_until_freed(freed)
            assert not until.is_set()
        assert network.begin_again() == 5 and ask(network) == answer


@pytest.mark.parametrize("name", QUESTIONS)
def test_without_memory_for_the_flag(monkeypatch: pytest.MonkeyPatch, name: str) -> None:
    """The question is refused, and asked again."""
    calls: Any = loaded.load(library_file())
    with pipes() as network:
        network.solve()
        session: Any = network._session
        for made in "stop_new", "stop_share":
            session._flag = None
            with monkeypatch.context() as patched:
                patched.setattr(calls, made, lambda *_: NO_MEMORY)
                with pytest.raises(dmf.NoMemory, match="^no memory$"):
                    QUESTIONS[name].ask(network)
        assert QUESTIONS[name].ask(network) == QUESTIONS[name].answer
