"""Sweeps whose copies ask the library for the losses of many cases at once: beside the second
implementation on the network of each case, and where something goes wrong meanwhile."""

from __future__ import annotations

import os
from collections.abc import Iterator
from concurrent.futures import Future, ThreadPoolExecutor
from contextlib import contextmanager
from random import Random
from typing import Any
from unittest.mock import patch

import pytest
import strategies
from c_losses import arcs_at, left
from client_shared import BUILT, dmf, interrupted_when
from dmf.session.base import Ranked
from dmf.session.library import MOST_AT_ONCE, LibrarySession
from dmf.sweeps.case_losses import LOOK, Question, Seconds
from hypothesis import HealthCheck, given, settings
from hypothesis import strategies as st
from oracle.network import State
from packages import load
from watched_library import slow_call

pytestmark = pytest.mark.usefixtures("by_library")
distributed = load("distributed")


@contextmanager
def asked(random: Random | None = None) -> Iterator[list[int]]:
    """Has copies ask for all cases that they can ask for, or by chance. Notes of how many arcs,
    nodes or pairs each call told the losses."""
    counts: list[int] = []
    look = LibrarySession._losses

    def noting(session: Any, held: Any, ranked: Any, columns: Any, flag: Any) -> Any:
        counts.append(len(columns[0]))
        return look(session, held, ranked, columns, flag)

    def is_asking_sooner(*_: object, **__: object) -> bool:
        return random is None or random.random() < 0.5

    with patch.object(LibrarySession, "_losses", noting):
        with patch.object(Seconds, "is_asking_sooner", is_asking_sooner):
            yield counts


def network_of(state: State) -> dmf.Network[int]:
    """A network whose arcs have their numbers as keys."""
    rows = [(arc.tail, arc.head, arc.cap, number) for number, arc in enumerate(state.arcs, 1)]
    return dmf.Network(rows, state.source, state.sink, nodes=range(1, state.nodes + 1))


def wanted(state: State, closed: set[int], case: list[tuple[str, int]]) -> int | None:
    """The greatest value after a case, or None if it is refused."""
    out = set(closed)
    for word, number in case:
        if word == "close":
            if number in out:
                return None
            out.add(number)
        else:
            out |= arcs_at(state, number)
    return left(state, out)


@st.composite
def cases_of(draw: st.DrawFn, state: State) -> list[list[tuple[str, int]]]:
    """Cases that close one arc or two, also one twice or one that was closed before, or shut a
    node."""
    arcs = st.integers(1, len(state.arcs))
    one = st.tuples(st.just("close"), arcs)
    shut = st.tuples(st.just("shut"), st.integers(1, state.nodes))
    case = st.one_of(
        st.lists(one, min_size=1, max_size=1),
        st.lists(one, min_size=2, max_size=2),
        st.lists(shut, min_size=1, max_size=1),
        st.lists(st.one_of(one, shut), min_size=2, max_size=3),
    )
    return draw(st.lists(case, min_size=1, max_size=30))


@settings(suppress_health_check=[HealthCheck.function_scoped_fixture, HealthCheck.too_slow])
@given(data=st.data())
def test_beside_whole_solves(data: Any) -> None:
    """Small networks, with loops, parallel arcs, arcs without capacity, and sums near 2^64."""
    state = data.draw(strategies.networks().filter(lambda it: it.arcs and strategies.fits(it)))
    closed = set(data.draw(st.lists(st.integers(1, len(state.arcs)), max_size=2)))
    cases = data.draw(cases_of(state))
    expected = [wanted(state, closed, case) for case in cases]
    with network_of(state) as network, ThreadPoolExecutor(2) as threads:
        for number in closed:
            network.close(number)
        executor = data.draw(st.sampled_from([None, threads]))
        with asked(data.draw(st.sampled_from([None, Random(len(cases))]))):
            results = list(dmf.sweep(network, cases, executor, jobs=1))
    assert [it.value for it in results] == expected
    assert [it.refusal is None for it in results] == [value is not None for value in expected]
    begun = 0
    assert [it.difference for it in results if it.value is not None] == [
        value - begun for value in expected if value is not None
    ]


# Worked by hand: 24 arcs side by side, of which each carries its number.
BESIDE = [("a", "b", number, number) for number in range(1, 25)]
WHOLE = 300


@contextmanager
def beside() -> Iterator[dmf.Network[str]]:
    with dmf.Network(BESIDE, "a", "b") as network:
        assert network.solve().value == WHOLE
        yield network


def closings() -> list[Any]:
    """Each arc, and each two that follow one another."""
    ones: list[Any] = [[("close", number)] for number in range(1, 25)]
    return ones + [[("close", number), ("close", number + 1)] for number in range(1, 24)]


LEFT = [WHOLE - number for number in range(1, 25)]
LEFT += [WHOLE - 2 * number - 1 for number in range(1, 24)]


def test_one_call_for_many() -> None:
    with beside() as network, ThreadPoolExecutor(1) as threads, asked() as counts:
        results = dmf.sweep(network, closings(), threads)
        assert [it.value for it in results] == LEFT
        # The executor is given pieces of 16 cases: 16 arcs, then 8 and 8 pairs, and so on.
        assert counts[:3] == [16, 8, 8] and sum(counts) == len(LEFT)


def test_what_is_not_asked_for() -> None:
    """Cuts, cases from scratch, and sessions of a program."""
    with asked() as counts:
        with beside() as network:
            assert [it.value for it in dmf.sweep(network, closings(), want_cut=True)] == LEFT
            assert [it.value for it in dmf.sweep(network, closings(), anew=True)] == LEFT
            assert counts == []
        with dmf.Network(BESIDE, "a", "b", program=BUILT) as network:
            assert [it.value for it in dmf.sweep(network, closings())] == LEFT
    assert counts == []


def test_a_refused_case_in_the_middle() -> None:
    cases = closings()
    cases[5] = [("close", 3), ("close", 3)]
    cases[9] = [("close", 25)]
    cases[30] = [("wash", 1)]
    with beside() as network, ThreadPoolExecutor(1) as threads, asked() as counts:
        for executor in None, threads:
            results = list(dmf.sweep(network, cases, executor, jobs=1))
            refused = {at: str(it.refusal) for at, it in enumerate(results) if it.value is None}
            assert refused == {
                5: "arc is closed: <Arc 3: 'a' to 'b', 3>",
                9: "no such arc: 25",
                30: "unknown command: ('wash', 1) in a sweep",
            }
            told = [it.value for it in results if it.value is not None]
            assert told == [value for at, value in enumerate(LEFT) if at not in refused]
    assert counts


@pytest.mark.parametrize("is_over", [False, True])
def test_losses_that_are_not_found(is_over: bool, monkeypatch: pytest.MonkeyPatch) -> None:
    """For lack of memory, or since the session has ended: the cases are tried."""
    calls: list[object] = []

    def fail(session: LibrarySession, *_: object) -> None:
        calls.append(session)
        if is_over:
            session.kill("killed by a test")
            raise session.ended()
        raise dmf.Refused.of("no memory", "")

    monkeypatch.setattr(Seconds, "is_asking_sooner", lambda *_, **__: len(calls) < 3)
    monkeypatch.setattr(LibrarySession, "_losses", fail)
    with beside() as network:
        assert [it.value for it in dmf.sweep(network, closings(), jobs=1)] == LEFT
    # Without memory it is not asked again.
    assert len(calls) == (3 if is_over else 1)


def question(count: int, is_of_pairs: bool = False) -> Question:
    """About arcs, or about pairs of which no two have an arc in common."""
    if not is_of_pairs:
        return Question.of(Ranked.ARCS, [((number,),) for number in range(1, count + 1)])
    return Question.of(
        Ranked.PAIRS, [((2 * number + 1, 2 * number + 2),) for number in range(count)]
    )


def test_when_cases_are_asked_for() -> None:
    """Worked by hand, with a look at all arcs of a second."""

    def is_sooner(it: Seconds, asked: Question, is_new: bool = False) -> bool:
        return it.is_asking_sooner(lambda: asked, len(asked.cases), is_new)

    seconds = Seconds(round(1 / LOOK))
    # A case is thought to take no time, then half a second.
    assert not is_sooner(seconds, question(100))
    seconds.first_pace = 0.5
    assert is_sooner(seconds, question(3), is_new=True) and not is_sooner(seconds, question(1))
    # One pair and its first arc are two looks; several pairs, each with another, one more each.
    assert not is_sooner(seconds, question(100, is_of_pairs=True))
    # Two groups that were tried count, the quicker one of them. One more is tried before asking.
    seconds.tried(1, 9.0)
    seconds.tried(10, 1.0)
    assert is_sooner(seconds, question(11)) and not is_sooner(seconds, question(9))
    assert not is_sooner(seconds, question(11), is_new=True)
    seconds.tried(10, 1.0)
    # What it takes is known once it was asked: here .03 s for each besides two looks of 1 s.
    seconds.asked(question(100), 1.0)
    seconds.asked(question(100), 5.0)
    assert is_sooner(seconds, question(20)) and not is_sooner(seconds, question(14))
    seconds.asked(question(100), 22.0)
    assert not is_sooner(seconds, question(1000))
    # Later cases may be easier to ask for: .2 s each become less than .1 s.
    for _ in range(30):
        seconds.forget_asked()
    assert is_sooner(seconds, question(1000))


def test_pairs_that_have_an_arc_in_common() -> None:
    """They stand together, behind the arc that is in most of them."""
    told = Question.of(Ranked.PAIRS, [((1, 9),), ((2, 3),), ((9, 4),), ((2, 9),), ((9, 1),)])
    assert told.things == [(2, 3), (9, 1), (9, 2), (9, 4)] and told.looks == 3
    assert told.cases == [[(9, 1)], [(2, 3)], [(9, 4)], [(9, 2)], [(9, 1)]]


# More arcs than a call may look at in the caller's thread.
CHAIN = [(at, at + 1, 1) for at in range(MOST_AT_ONCE + 1)]


@pytest.mark.parametrize("how", ["Ctrl-C", "Ctrl-C here", "closed"])
def test_a_stop(how: str, monkeypatch: pytest.MonkeyPatch) -> None:
    """It takes effect at once, while the library looks for losses."""
    monkeypatch.setattr(Seconds, "is_asking_sooner", lambda *_, **__: True)
    threads = ThreadPoolExecutor(1)
    with dmf.Network(CHAIN, 0, len(CHAIN)) as network:
        network.solve()
        cases: list[Any] = [[("close", arc)] for arc in network.arcs]
        results = dmf.sweep(network, cases, None if how == "Ctrl-C here" else threads, jobs=1)
        if how == "closed":
            assert next(results).value == 0
        with slow_call(monkeypatch, "losses", Ranked.ARCS) as (begun, until):
            if how == "closed":
                results.close()
            else:
                with pytest.raises(KeyboardInterrupt), interrupted_when(begun.is_set):
                    list(results)
            assert not until.is_set()
        monkeypatch.undo()
        assert network.solve().value == 1
    threads.shutdown(wait=False, cancel_futures=True)


class Dying(ThreadPoolExecutor):
    """An executor whose third task is lost with its worker, as executors of processes say."""

    count = 0

    def submit(self, *words: Any, **named: Any) -> Any:
        self.count += 1
        if self.count != 3:
            return super().submit(*words, **named)
        lost: Future[Any] = Future()
        lost.set_exception(type("BrokenExecutor", (RuntimeError,), {})("a worker died"))
        return lost


def test_a_worker_that_dies() -> None:
    with beside() as network, Dying(1) as threads, asked() as counts:
        assert [it.value for it in dmf.sweep(network, closings(), threads)] == LEFT
        assert sum(counts) == len(LEFT) and threads.count > 3


def test_a_cluster_of_which_a_worker_is_killed() -> None:
    random = Random("asked")
    rows = [(random.randrange(40), random.randrange(40), random.randrange(99)) for _ in range(400)]
    with dmf.Network(rows, 0, 39, nodes=range(40)) as network:
        network.solve()
        cases: list[Any] = [[("close", arc)] for arc in network.arcs] * 3
        tried = [it.value for it in dmf.sweep(network, cases, want_cut=True, jobs=1)]
        with distributed.LocalCluster(
            n_workers=2, threads_per_worker=1, dashboard_address=None, silence_logs=50
        ) as cluster, distributed.Client(cluster) as client:
            workers = [worker.pid for worker in cluster.workers.values()]
            client.run(ask_always)
            found = []
            for result in dmf.sweep(network, cases, client.get_executor()):
                found.append(result.value)
                if len(found) == 20:
                    os.kill(workers[0], 9)
    assert found == tried


def ask_always() -> None:
    """Has the copies of this process ask for all cases that they can ask for."""
    from dmf.sweeps import case_losses

    case_losses.Seconds.is_asking_sooner = lambda *_, **__: True  # type: ignore[assignment]
