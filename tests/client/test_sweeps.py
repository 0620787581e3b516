"""Sweeps: each value comes from the second implementation, which solves each case from scratch."""

import os
import signal
from collections.abc import Callable
from concurrent.futures import ProcessPoolExecutor, ThreadPoolExecutor
from random import Random
from typing import Any

import pytest
from client_shared import dmf, interrupted_when, is_running, pipes, process_of, stop
from oracle.network import smallest_side
from oracle.session import Session, SolveReply
from oracle.texts import LARGEST, Fault
from packages import load
from random_cases import fitting
from random_cases import network as random_network

distributed = load("distributed")


def children() -> set[int]:
    """The programs that this process began and that have not ended."""
    with open(f"/proc/self/task/{os.getpid()}/children") as of_main:
        found = {int(child) for child in of_main.read().split()}
    for task in os.listdir("/proc/self/task"):
        try:
            with open(f"/proc/self/task/{task}/children") as file:
                found |= {int(child) for child in file.read().split()}
        except FileNotFoundError:
            continue
    return {child for child in found if is_running(child)}


def close_mill(network: dmf.Network[Any]) -> None:
    network.close(("lake", "mill"))


def command(state: Any, random: Random) -> tuple[Any, ...]:
    """A random command of a case on a network whose nodes are n1, n2 and so on; it may be
    refused."""
    arcs = len(state.arcs)
    nodes = [f"n{random.randint(1, state.nodes)}" for _ in range(2)]
    word = random.choice(["cap", "close", "shut", "add"] if arcs else ["shut", "add"])
    if word in ("cap", "close"):
        arc = random.randint(1, arcs)
        return (word, arc, random.choice([0, 1, 4, 9, 2**63])) if word == "cap" else (word, arc)
    return (word, nodes[0]) if word == "shut" else (word, *nodes, random.choice([0, 1, 5, 2**63]))


def solved_from_scratch(state: Any, commands: list[tuple[Any, ...]]) -> tuple[int, int] | str:
    """The value and the capacity of the cut of a case that is solved from scratch, or why it is
    refused."""
    session = Session(state, SolveReply(False, True))
    try:
        for word, *rest in commands:
            session.reply(
                word, *(int(part[1:]) if isinstance(part, str) else part for part in rest)
            )
        session.reply("solve")
    except Fault as fault:
        return str(fault)
    return session.present().value(), smallest_side(session.present())[1]


def capacity_after(
    network: dmf.Network[Any], commands: list[tuple[Any, ...]], numbers: set[int]
) -> int:
    """What the arcs of these numbers carry together once a case was made."""
    with network.try_out():
        for word, *rest in commands:
            getattr(network, word)(*rest)
        return sum(arc.capacity for arc in network.arcs if arc.number in numbers)


@pytest.mark.parametrize("seed", range(40))
def test_random_sweeps(seed: int) -> None:
    random = Random(f"sweep {seed}")
    state = random_network(random, 12)
    if state.capacity_sum() > LARGEST:
        state = fitting(state)
    # The keys are the arcs' numbers.
    rows = [
        (f"n{arc.tail}", f"n{arc.head}", arc.cap, place) for place, arc in enumerate(state.arcs, 1)
    ]
    nodes = [f"n{node}" for node in range(1, state.nodes + 1)]
    asked = [[command(state, random) for _ in range(random.randint(0, 3))] for _ in range(15)]
    with dmf.Network(rows, f"n{state.source}", f"n{state.sink}", nodes=nodes) as network:
        before = network.solve().value if random.random() < 0.5 else 0
        # Without cuts cases are sent together, and an executor has many of them at once.
        want_cut, jobs = random.random() < 0.5, random.choice([1, 3])
        with ThreadPoolExecutor(jobs) as threads:
            results = list(
                dmf.sweep(network, asked, random.choice([None, threads]), want_cut, jobs=jobs)
            )
        for result, commands in zip(results, asked):
            wanted = solved_from_scratch(state, commands)
            if isinstance(wanted, str):
                assert getattr(result.refusal, "text", None) == wanted
                continue
            value, capacity = wanted
            assert (result.refusal, result.value, result.cut is not None) == (None, value, want_cut)
            if result.cut is None:
                continue
            told = (
                result.value,
                result.difference,
                capacity_after(network, commands, {arc.number for arc in result.cut}),
            )
            assert told == (value, value - before, capacity)
        assert (len(results), network.value) == (15, before)


def test_ready_cases() -> None:
    with pipes() as network:
        network.solve()
        values: dict[str, list[int]] = {
            "close": [2, 3, 4, 3, 2],
            "shut": [2, 2],
            "raise": [6, 6, 5, 5, 5],
            "pair": [12, 5],
        }
        # Worked by hand: the network has its limit at the lake.
        sweeps = {
            "close": dmf.each_arc_closed(),
            "shut": dmf.each_node_shut(),
            "pair": dmf.each_pair_added([("lake", "sea"), ("sea", "lake")], 7),
        }
        for name, cases in sweeps.items():
            assert [result.value for result in dmf.sweep(network, cases)] == values[name], name
        raised = dmf.each_capacity_raised(2, arcs=[("lake", "mill"), "nothing"])
        with pytest.raises(dmf.NoSuchArc):
            list(dmf.sweep(network, raised))
        some = list(
            dmf.sweep(
                network, dmf.each_arc_closed([("lake", "mill"), ("lake", "pond")]), want_cut=True
            )
        )
        assert [result.value for result in some] == [2, None]
        assert isinstance(some[1].refusal, dmf.NoSuchArc)
        assert some[0].cut == (network.arc(("lake", "town")),)


def test_closed_and_added_arcs() -> None:
    """A sweep is of the network as it is, and its handles name arcs in functions too."""
    with pipes() as network:
        network.close(("lake", "town"))
        canal = network.add("lake", "sea", 7, "canal")
        network.solve()
        closed: list[Callable[[dmf.Network[Any]], object]] = [
            lambda copy: copy.close(canal),
            lambda copy: copy.open(("lake", "town")),
        ]
        results = list(
            dmf.sweep(
                network,
                [*closed, [("open", ("lake", "town"))], [("close", "canal")]],
                want_cut=True,
            )
        )
        assert [result.value for result in results] == [3, 12, 12, 3]
        assert (results[0].difference, canal in (results[3].cut or ())) == (-7, False)


def test_it_is_lazy_and_leaves_nothing() -> None:
    before = children()
    taken: list[int] = []

    def endless() -> Any:
        for turn in range(10**9):
            taken.append(turn)
            yield [("cap", ("lake", "mill"), turn)]

    with pipes() as network:
        results = dmf.sweep(network, endless(), jobs=2)
        assert [next(results).value for _ in range(5)] == [2, 3, 4, 5, 5]
        assert len(taken) < 30
        results.close()
    # Networks of earlier tests may be collected meanwhile.
    assert children() <= before


@pytest.mark.pipe
def test_a_program_that_is_killed() -> None:
    before = children()
    with pipes() as network:
        mine = children() - before
        # Each sweep is hit once: a case that is hit at both of its tries has no value.
        for hit in 5, 20:
            values = []
            for turn, result in enumerate(
                dmf.sweep(
                    network, ([("cap", ("lake", "mill"), turn % 4)] for turn in range(60)), jobs=2
                )
            ):
                values.append(result.value)
                if turn == hit:
                    for child in children() - before - mine:
                        os.kill(child, signal.SIGKILL)
            assert values == [2, 3, 4, 5] * 15

        # One that dies at each try is told.
        def kill(copy: dmf.Network[Any]) -> None:
            process_of(copy).kill()
            copy.solve()

        results = list(dmf.sweep(network, [kill, [("close", ("lake", "mill"))]], jobs=1))
        assert isinstance(results[0].refusal, dmf.SessionEnded)
        assert results[1].value == 2


@pytest.mark.pipe
def test_an_interrupt_ends_all() -> None:
    before = children()
    with pipes() as network:
        stopped = []

        def wait(copy: dmf.Network[Any]) -> None:
            stop(process_of(copy).pid)
            stopped.append(copy)
            copy.solve()

        with pytest.raises(KeyboardInterrupt), interrupted_when(lambda: bool(stopped)):
            list(dmf.sweep(network, [wait, wait], jobs=2))
        assert network.solve().value == 5
    # Networks of earlier tests may be collected meanwhile.
    assert children() <= before


def test_errors_of_the_caller() -> None:
    with pipes() as network:
        with pytest.raises(ZeroDivisionError):
            list(dmf.sweep(network, [lambda copy: 1 // 0]))
        assert isinstance(list(dmf.sweep(network, [[("wash", 1)]]))[0].refusal, dmf.UnknownCommand)
        assert list(dmf.sweep(network, [])) == []


def test_names_are_no_commands() -> None:
    for name in "undo 3", "a\nsolve", 'x"', "\t", "close 1\nclose 2":
        with dmf.Network([("s", name, 3, name), (name, "t", 2)], "s", "t") as network:
            network.solve()
            results = list(
                dmf.sweep(
                    network,
                    [
                        [("shut", name)],
                        [("close", name)],
                        [("cap", (name, "t"), 9)],
                        [("close", "solve")],
                    ],
                )
            )
            assert [result.value for result in results] == [0, 0, 3, None]
            assert network.value == 2


def test_executors() -> None:
    cases: list[Any] = [[("cap", ("lake", "mill"), turn % 5)] for turn in range(40)] + [
        [("close", "pond")],
        close_mill,
    ]
    with pipes() as network:
        network.close(("mill", "town"))
        network.add("mill", "town", 5, "again")
        network.solve()
        wanted = list(dmf.sweep(network, cases, want_cut=True, jobs=1))
        for make in ThreadPoolExecutor, ProcessPoolExecutor:
            with make(2) as executor:
                results = list(dmf.sweep(network, cases, executor, want_cut=True))
            for result, one in zip(results, wanted):
                assert (result.value, result.cut, str(result.refusal)) == (
                    one.value,
                    one.cut,
                    str(one.refusal),
                )
            assert len(results) == 42


def test_a_cluster() -> None:
    """With two workers, of which one is killed: each result is that of one process, refusals and
    cuts among them."""
    cases: list[Any] = [[("cap", ("lake", "mill"), turn % 5)] for turn in range(300)]
    cases += [
        [("close", ("lake", "pond"))],
        [("shut", "mill"), ("add", "lake", "sea", 4)],
        close_mill,
    ] * 30
    with pipes() as network:
        network.solve()
        wanted = [
            (result.value, result.difference, result.cut, str(result.refusal))
            for result in dmf.sweep(network, cases, None, True, jobs=1)
        ]
        with distributed.LocalCluster(
            n_workers=2, threads_per_worker=1, dashboard_address=None, silence_logs=50
        ) as cluster:
            with distributed.Client(cluster) as client:
                results = []
                workers = [worker.pid for worker in cluster.workers.values()]
                for turn, result in enumerate(
                    dmf.sweep(network, cases, client.get_executor(), True)
                ):
                    results.append(result)
                    if turn == 20:
                        os.kill(workers[0], signal.SIGKILL)
        for place, (result, one) in enumerate(zip(results, wanted)):
            told = (result.value, result.difference, result.cut, str(result.refusal))
            # An arc that a case added is one of its copy alone.
            assert (told[:2], told[3], len(told[2] or ())) == (
                one[:2],
                one[3],
                len(one[2] or ()),
            ), place
            assert [arc for arc in told[2] or () if arc.number <= 5] == [
                arc for arc in one[2] or () if arc.number <= 5
            ]
        assert len(results) == len(cases)
