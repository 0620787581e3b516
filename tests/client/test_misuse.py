"""What a network refuses by itself, before the program is asked: rows, bounds, copies, and calls
from two sides at once."""

import copy
import os
import pickle
import re
import threading
import time
from collections.abc import Callable, Iterator
from typing import Any

import pytest
from client_shared import WANTED, answering, dmf, pipes, process_of
from limits import SECONDS


def program_of(network: dmf.Network[Any]) -> str:
    """The path of the program that a network runs."""
    words: Any = process_of(network).args
    return str(words[0])


def test_rows_of_another_form() -> None:
    rows: list[Any] = [
        ("a", "b"),
        (),
        ("a", "b", 1, "key", 2),
        7,
        None,
        (["a"], "b", 1),
        ("a", {}, 1),
        ("a", "b", 1, []),
    ]
    for row in rows:
        with pytest.raises(dmf.NotAnArc) as caught:
            dmf.Network([("a", "b", 3), row], "a", "b")
        assert str(caught.value) == f"not an arc: {row!r}: {WANTED}"
        assert isinstance(caught.value, ValueError)


def test_numbers_that_python_does_not_write() -> None:
    for number, kind in (10**5000, dmf.NumberTooLarge), (-(10**5000), dmf.NotANumber):
        with pytest.raises(kind, match="<tuple with a number of more than 4,300 digits>"):
            dmf.Network([("a", "b", number)], "a", "b")
    with pytest.raises(dmf.HistoryOutOfRange, match="4,300 digits"):
        pipes(history=10**5000)


def test_history() -> None:
    bounds: list[Any] = [-1, 1_000_001, 2.5, "7", "--help"]
    for bound in bounds:
        with pytest.raises(dmf.HistoryOutOfRange) as caught:
            # No program is started.
            pipes(history=bound, program="/nowhere/dmf")
        wanted = f"history out of range: {bound!r} is not a whole number from 0 to 1,000,000"
        assert (str(caught.value), isinstance(caught.value, ValueError)) == (wanted, True)
        with pytest.raises(dmf.HistoryOutOfRange):
            dmf.read("/nowhere.max", history=bound)
    for bound in 0, 1, 1_000_000:
        with pipes(history=bound) as network:
            assert network.solve().value == 5


class Graph:
    """What stands in for a graph of networkx, with two edges of which the second has no
    capacity."""

    def __init__(self, is_multigraph: bool) -> None:
        self.is_multigraph = lambda: is_multigraph
        self.is_directed = lambda: True

    def __iter__(self) -> Iterator[str]:
        return iter("abc")

    def edges(self, data: bool, keys: bool = False) -> list[tuple[Any, ...]]:
        key = ("old",) if keys else ()
        return [("a", "b", *key, {"capacity": 3}), ("b", "c", *key, {"room": 2})]


def test_an_edge_without_capacity() -> None:
    for graph, edge in (Graph(False), "('b', 'c')"), (Graph(True), "('b', 'c', 'old')"):
        with pytest.raises(dmf.NoCapacity) as caught:
            dmf.from_networkx(graph, "a", "c")
        assert str(caught.value) == f"no capacity: the edge {edge} has no attribute 'capacity'"
        with pytest.raises(dmf.NoCapacity, match=r"the edge \('a', 'b'.* has no attribute 'room'$"):
            dmf.from_networkx(graph, "a", "c", capacity="room")


def test_copies() -> None:
    calls: list[Callable[[Any], Any]] = [
        copy.copy,
        copy.deepcopy,
        pickle.dumps,
        lambda network: copy.deepcopy([network]),
    ]
    with pipes() as network:
        for call in calls:
            with pytest.raises(
                TypeError,
                match="^a network cannot be copied or pickled, since it is a running program",
            ):
                call(network)
        assert network.solve().value == 5


def test_copies_of_what_a_network_gives() -> None:
    """A copy of an arc is that arc, so that copies of flows and cuts are equal, and name arcs of
    the network."""
    with pipes() as network:
        plan = network.solve()
        for again in copy.copy(plan), copy.deepcopy(plan):
            assert (again, again.value, network.capacity(next(iter(again)))) == (plan, 5, 3)
        assert copy.deepcopy(network.cut()) == network.cut()


def test_a_solution_in_another_process() -> None:
    """It is pickled with its arcs, but without the network, which is a running program."""
    with dmf.Network(
        [("a", "b", 3, "x"), ("a", "b", 4), ("b", "c", 5, "out")], "a", "c"
    ) as network:
        network.solve()
        network.close("x")
        network.add("b", "c", 1, "new")
        plan = network.solve()
        pickled = pickle.dumps(plan)
    for again in pickle.loads(pickled), pickle.loads(pickle.dumps(plan)):
        # The arc that is left carries 4, and the way out 5 + 1.
        assert (
            again.value,
            len(again),
            again["a", "b"],
            again["out"] + again["new"],
            again.between("b", "c"),
        ) == (4, 3, 4, 4, 4)
        told = [(arc.number, arc.tail, arc.head, arc.given_key) for arc in again]
        assert told == [(2, "a", "b", None), (3, "b", "c", "out"), (4, "b", "c", "new")]
        assert [again[arc] for arc in again] == list(again.values())
        with pytest.raises(dmf.NoSuchArc):
            again["x"]
        with pytest.raises(dmf.SessionEnded):
            next(iter(again)).flow


def test_a_call_beside_another() -> None:
    """Each call is refused while another thread waits for its answer, which comes once the file
    `go` is there."""
    wait = 'touch "$0.got"; while [ ! -e "$0.go" ]; do sleep 0.01; done; echo c undo value 9'
    with answering(wait) as network:
        program = program_of(network)
        values: list[int] = []
        thread = threading.Thread(target=lambda: values.append(network.undo(0)), daemon=True)
        thread.start()
        deadline = time.monotonic() + SECONDS
        while not os.path.exists(f"{program}.got") and time.monotonic() < deadline:
            time.sleep(0.01)
        calls: list[Callable[[], object]] = [
            network.solve,
            network.flow,
            network.cut,
            network.undo,
            network.redo,
            network.end,
        ]
        calls += [
            network.problem,
            lambda: network.cap(("lake", "mill"), 1),
            lambda: network.close(("lake", "mill")),
        ]
        calls += [lambda: network.shut("mill"), lambda: network.add("lake", "sea", 1)]
        for call in calls:
            with pytest.raises(dmf.UsedByTwoThreads, match="^used by two threads at once: "):
                call()
        # What is kept can be read.
        assert (network.value, len(network.arcs), network.capacity(("lake", "mill"))) == (0, 5, 3)
        with open(f"{program}.go", "w"):
            thread.join(SECONDS)
        assert (values, network.undo(0)) == ([9], 9)


def test_four_threads() -> None:
    """Whatever is refused: the changes that are counted are those that were made."""
    with pipes() as network:
        made, others = [], []

        def change(number: int) -> None:
            for turn in range(200):
                try:
                    network.cap(("mill", "sea"), 10 * turn + number)
                    made.append(10 * turn + number)
                except dmf.UsedByTwoThreads:
                    time.sleep(0.0001)
                except Exception as other:
                    others.append(other)

        threads = [threading.Thread(target=change, args=(number,)) for number in range(4)]
        for thread in threads:
            thread.start()
        for thread in threads:
            thread.join()
        assert others == []
        assert len(made) >= 4
        # The capacity that is kept is the one that the program has.
        capacity = network.capacity(("mill", "sea"))
        assert f"\na 2 4 {capacity}\n" in network.problem()
        with pytest.raises(dmf.NothingToUndo):
            network.undo(len(made) + 1)
        network.undo(len(made))
        assert (network.capacity(("mill", "sea")), network.solve().value) == (2, 5)


def test_a_forked_process() -> None:
    """A process that is forked off asks nothing, and ends nothing."""
    with pipes() as network:
        read, write = os.pipe()
        child = os.fork()
        if child == 0:
            try:
                with network:
                    network.solve()
            except BaseException as error:
                os.write(write, f"{type(error).__name__}: {error}".encode())
            os._exit(0)
        os.close(write)
        os.waitpid(child, 0)
        with open(read) as told:
            assert re.search("^UsedByTwoProcesses: used by two processes at once: ", told.read())
        assert network.solve().value == 5


def test_names_that_cannot_be_hashed() -> None:
    with pipes() as network:
        name: Any = ["lake"]
        for call in network.arc, network.close, network.open, network.capacity:
            with pytest.raises(dmf.NoSuchArc, match=r"^no such arc: \['lake'\]$"):
                call(name)
        changes: list[Callable[[], object]] = [
            lambda: network.shut(name),
            lambda: network.add(name, "sea", 1),
            lambda: network.add("lake", name, 1),
        ]
        for change in changes:
            with pytest.raises(dmf.NoSuchNode, match=r"^no such node: \['lake'\]$"):
                change()
        plan = network.solve()
        for key in name, ("lake", name):
            assert plan.get(key) is None and key not in plan
        with pytest.raises(dmf.NoSuchNode, match=r"^no such node: \['lake'\]$"):
            plan.between("mill", name)
