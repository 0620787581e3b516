"""Sweeps of a network that changes meanwhile, and with cases that fail. Worked by hand: over the
arcs side by side flows what all of them carry together."""

from __future__ import annotations

import os
import threading
from collections.abc import Iterator
from concurrent.futures import Executor, Future, ProcessPoolExecutor, ThreadPoolExecutor
from operator import length_hint
from pathlib import Path
from queue import Queue
from typing import Any

import pytest
from client_shared import BUILT, dmf, pipes, script
from dmf.sweeps.copies import CaseAnswer
from limits import SECONDS

BESIDE = [("a", "b", 3, "x"), ("a", "b", 4, "y"), ("a", "b", 5, "z")]


def beside(**options: Any) -> dmf.Network[str]:
    network = dmf.Network(BESIDE, "a", "b", **options)
    network.solve()
    return network


@pytest.mark.parametrize("is_there", [False, True])
def test_a_sweep_is_of_the_network_as_it_was_asked_for(is_there: bool) -> None:
    """Whatever becomes of it before the first result is taken: names, capacities, the value and the
    cut are those of then."""
    with beside() as network, ThreadPoolExecutor(1) as threads:
        raised = dmf.sweep(
            network, dmf.each_capacity_raised(2), threads if is_there else None, want_cut=True
        )
        closed = dmf.sweep(
            network,
            [[("close", "x")], [("cap", "y", 0)], [("close", "new")]],
            threads if is_there else None,
        )
        network.cap("y", 100)
        network.close("x")
        network.add("a", "b", 9, "new")
        network.solve()
        results = list(raised)
        assert [(result.value, result.difference) for result in results] == [(14, 2)] * 3
        assert [[arc.number for arc in result.cut or ()] for result in results] == [[1, 2, 3]] * 3
        assert [(result.value, str(result.refusal)) for result in closed] == [
            (9, "None"),
            (8, "None"),
            (None, "no such arc: 'new'"),
        ]
        assert network.value == 114


@pytest.mark.parametrize("history", [0, 1, 2, None])
def test_a_sweep_needs_no_history(history: int | None) -> None:
    with beside(history=history) as network, ThreadPoolExecutor(1) as threads:
        case = [("close", "x"), ("cap", "y", 1), ("add", "a", "b", 2)]
        for executor in None, threads:
            assert [result.value for result in dmf.sweep(network, [case, case], executor)] == [8, 8]


def test_an_error_comes_after_the_results_before_it() -> None:
    def broken(count: int) -> Iterator[Any]:
        for turn in range(count):
            yield [("cap", "x", turn)]
        raise ZeroDivisionError

    with beside() as network, ThreadPoolExecutor(1) as threads:
        for count in 0, 1, 5, 40:
            for executor in None, threads:
                results = dmf.sweep(network, broken(count), executor, jobs=1)
                assert [next(results).value for _ in range(count)] == [
                    9 + turn for turn in range(count)
                ]
                with pytest.raises(ZeroDivisionError):
                    next(results)


@pytest.mark.parametrize("make", [ThreadPoolExecutor, ProcessPoolExecutor])
def test_the_program_over_an_executor(make: Any) -> None:
    """It is the one that the network was made with; where a process of the executor has none of
    this name, the sweep ends."""
    with script(f'echo >>"$0.ran"; exec {BUILT} "$@"') as program:
        with beside(program=program) as network:
            with make(1) as executor:
                assert [
                    result.value for result in dmf.sweep(network, dmf.each_arc_closed(), executor)
                ] == [9, 8, 7]
            # It was asked for its version once, and then ran for the network itself and for its
            # copy.
            assert Path(f"{program}.ran").read_text() == "\n\n\n"
            network.close("x")
            network.solve()
            os.remove(program)
            with make(1) as executor, pytest.raises(FileNotFoundError, match=program):
                list(dmf.sweep(network, dmf.each_arc_closed(), executor))


class Counting(ThreadPoolExecutor):
    """An executor of one thread that notes for each piece of cases whether the network was sent
    with it."""

    def submit(self, call: Any, /, *arguments: Any, **named: Any) -> Any:
        sent.append(arguments[1] is not None)
        return super().submit(call, *arguments, **named)


sent: list[bool] = []


def test_how_often_the_network_is_sent() -> None:
    """With the cases that came before it was there, which are those of the piece that is begun
    first. Later ones find it."""
    sent.clear()
    # No other test has this network, which this process would know of it.
    with dmf.Network([("a", "b", 3, "sent"), ("a", "b", 9)], "a", "b") as network, Counting(
        1
    ) as executor:
        network.solve()
        cases = [[("cap", "sent", turn)] for turn in range(16 * 10)]
        assert [result.value for result in dmf.sweep(network, cases, executor)] == [
            9 + turn for turn in range(160)
        ]
        assert (sent[:2], sent.count(True)) == ([False, True], 1)


class ByHand(Executor):
    """An executor of so many workers, whose tasks a test answers itself."""

    def __init__(self, workers: int) -> None:
        self._max_workers = workers
        self.given: Queue[tuple[bool, Future[Any]]] = Queue()

    def submit(self, call: Any, /, *arguments: Any, **named: Any) -> Any:
        future: Future[Any] = Future()
        self.given.put((arguments[1] is not None, future))
        return future


def test_all_workers_begin_at_once() -> None:
    """None of them has the network, and each is sent it before another one has answered. An error
    of one comes in its turn."""
    with beside() as network:
        executor = ByHand(4)
        cases = [[("cap", "x", turn)] for turn in range(16 * 4)]
        told: list[Any] = []

        def take() -> None:
            try:
                told.extend(result.value for result in dmf.sweep(network, cases, executor))
            except ZeroDivisionError as error:
                told.append(error)

        thread = threading.Thread(target=take, daemon=True)
        thread.start()
        for has_network in False, True:
            given = [executor.given.get(timeout=SECONDS) for _ in range(4)]
            assert [is_sent for is_sent, _ in given] == [has_network] * 4
            if not has_network:
                # The last one is the first to say that it has none.
                for _, future in reversed(given):
                    future.set_result(None)
        futures = [future for _, future in given]
        futures[2].set_exception(ZeroDivisionError("of a worker"))
        for place in 1, 0, 3:
            answers = [CaseAnswer(16 * place + turn) for turn in range(16)]
            futures[place].set_result((answers, 0.1, 0.0))
        thread.join(SECONDS)
        assert (told[:-1], type(told[-1])) == (list(range(32)), ZeroDivisionError)


READY: list[tuple[Any, int]] = [
    (dmf.each_arc_closed(), 5),
    (dmf.each_arc_closed([("lake", "mill"), "nothing"]), 2),
    (dmf.each_node_shut(), 2),
    (dmf.each_node_shut(["lake"]), 1),
    (dmf.each_capacity_raised(2), 5),
    (dmf.each_pair_added([("lake", "sea"), ("sea", "lake"), ("mill", "town")], 7), 3),
    # How many these are is not known.
    (dmf.each_arc_closed(arc for arc in [("lake", "mill")]), 0),
]


@pytest.mark.parametrize(("cases", "count"), READY)
def test_how_many_cases_are_left(cases: Any, count: int) -> None:
    """It is known of ready-made cases, before one is taken and after."""
    with pipes() as network:
        made = cases(network)
        for left in range(count, 0, -1):
            assert length_hint(made) == left
            next(made)
        assert (length_hint(made), len(list(made))) == (0, 0 if count else 1)


def test_a_bar(capsys: pytest.CaptureFixture[str]) -> None:
    """It tells of how many cases it is, ready-made ones and others, where that is known."""
    with pipes() as network:
        told: list[tuple[Any, str]] = [
            (dmf.each_arc_closed(), "5/5"),
            (dmf.each_node_shut(), "2/2"),
            ([[("close", ("lake", "mill"))]] * 7, "7/7"),
        ]
        for cases, bar in [*told, (map(list, ["", ""]), "2case")]:
            list(dmf.sweep(network, cases, progress=True))
            assert bar in capsys.readouterr().err


MALFORMED: list[tuple[Any, str]] = [
    (5, "unknown command: 5 in a sweep"),
    ([5], "unknown command: 5 in a sweep"),
    ([()], "unknown command: () in a sweep"),
    ([("close", "x"), ("cap", "x")], "unknown command: ('cap', 'x') in a sweep"),
    ([("solve",)], "unknown command: ('solve',) in a sweep"),
    ("close x", "unknown command: 'c' in a sweep"),
    ([(["close"], "x")], "unknown command: [(['close'], 'x')] in a sweep"),
    ([("cap", ["x"], 1)], "no such arc: ['x']"),
    (
        [("cap", "x", "much")],
        "not a number: 'much' in <Arc 1: 'a' to 'b', 'x'>: a capacity is a whole number from 0 to "
        "2^64 - 1",
    ),
    ([("shut", {})], "no such node: {}"),
    ([("add", "a", ["b"], 1)], "no such node: ['b']"),
]


@pytest.mark.parametrize(("case", "said"), MALFORMED)
def test_a_malformed_case_is_refused_by_itself(case: Any, said: str) -> None:
    with beside() as network:
        refused, after = dmf.sweep(network, [case, [("close", "x")]], jobs=1)
        assert (refused.value, refused.difference, str(refused.refusal)) == (None, None, said)
        assert after.value == 9


def test_jobs() -> None:
    with beside() as network, ThreadPoolExecutor(1) as threads:
        wrong: list[Any] = [0, -1, 2.5, "3", False]
        for jobs in wrong:
            for executor in None, threads:
                with pytest.raises(dmf.JobsOutOfRange) as caught:
                    dmf.sweep(network, [], executor, jobs=jobs)
                wanted = f"jobs out of range: {jobs!r} is not a whole number of at least 1"
                assert (str(caught.value), isinstance(caught.value, ValueError)) == (wanted, True)
        assert [result.value for result in dmf.sweep(network, dmf.each_arc_closed(), jobs=1)] == [
            9,
            8,
            7,
        ]
