"""Sessions whose values were worked out by hand."""

import tempfile
from typing import Any

import pytest
from client_shared import PIPES, dmf, ends, pipes

LARGEST = 2**64 - 1


def flows(solution: dmf.Solution[Any]) -> list[int]:
    return list(solution.values())


def test_solve() -> None:
    with pipes() as network:
        plan = network.solve()
        assert (plan.value, flows(plan), network.value) == (5, [3, 2, 1, 2, 3], 5)
        assert ends(plan) == [row[:2] for row in PIPES]
        assert plan["mill", "town"] == 1


def test_cut() -> None:
    with pipes() as network:
        network.solve()
        cut = network.cut()
        assert (cut.capacity, cut.side, ends(cut.arcs)) == (
            5,
            frozenset({"lake"}),
            [("lake", "mill"), ("lake", "town")],
        )
        network.cap(("town", "sea"), 1)
        network.solve()
        cut = network.cut()
        assert (cut.capacity, cut.side) == (3, frozenset({"lake", "mill", "town"}))
        assert ends(cut.arcs) == [("mill", "sea"), ("town", "sea")]


def test_changes() -> None:
    with pipes() as network:
        first = network.solve()
        assert network.close(("lake", "mill")) == 2
        assert flows(network.flow()) == [2, 0, 0, 2]
        assert ends(network.arcs) == [row[:2] for row in PIPES[1:]]
        assert network.undo() == 5
        assert network.flow() == first
        assert network.redo() == 2
        assert network.capacity(("lake", "town")) == 2
        with pytest.raises(dmf.ArcIsClosed):
            network.capacity(("lake", "mill"))


def test_an_added_arc_goes_and_comes_back() -> None:
    with pipes() as network:
        canal = network.add("lake", "sea", 7)
        assert (canal.number, network.solve()[canal]) == (6, 7)
        network.undo(2)
        with pytest.raises(dmf.NoSuchArc):
            network.cap(canal, 1)
        network.redo()
        assert network.arc(("lake", "sea")) is canal
        network.undo()
        other = network.add("lake", "sea", 9)
        assert (other.number, network.capacity(other)) == (6, 9)
        # The number is the same, but it is another arc.
        with pytest.raises(dmf.NoSuchArc):
            network.close(canal)
        with pytest.raises(dmf.NothingToRedo):
            network.redo()


def test_parallel_arcs() -> None:
    rows: list[dmf.Row[str]] = [
        ("a", "b", 3),
        ("a", "b", 4),
        ("a", "b", 1, "bypass"),
        ("b", "c", 6),
    ]
    with dmf.Network(rows, "a", "c") as network:
        plan = network.solve()
        with pytest.raises(dmf.AmbiguousArc):
            network.cap(("a", "b"), 1)
        with pytest.raises(dmf.AmbiguousArc):
            plan.__getitem__(("a", "b"))
        assert (plan.between("a", "b"), flows(plan), plan["bypass"]) == (6, [3, 3, 0, 6], 0)
        assert network.close("bypass") == 6
        first, second = network.arcs[:2]
        assert network.close(first) == 3
        # One of the two is open, and so the key names it.
        assert network.cap(("a", "b"), 2) == 2
        assert network.capacity(second) == 2


def test_a_named_arc_by_its_ends() -> None:
    with dmf.Network(
        [("a", "b", 3, "main"), ("b", "c", 4, "out"), ("c", "c", 1)], "a", "c"
    ) as network:
        main, out, _ = network.arcs
        plan = network.solve()
        assert (network.arc(("a", "b")), network.arc("main"), plan["a", "b"], plan["main"]) == (
            main,
            main,
            3,
            3,
        )
        assert (network.cap(("b", "c"), 2), network.capacity("out")) == (2, 2)
        # A second arc has the same ends, so that they name neither; each is still named by its key.
        other = network.add("a", "b", 5, "other")
        message = (
            "2 open arcs have the key or the ends ('a', 'b'): <Arc 1: 'a' to 'b', 'main'>, <Arc 4: "
            "'a' to 'b', 'other'>"
        )
        with pytest.raises(dmf.AmbiguousArc) as caught:
            network.close(("a", "b"))
        assert str(caught.value) == message
        with pytest.raises(dmf.AmbiguousArc):
            network.flow().get(("a", "b"))
        assert (network.arc("other"), network.close("main")) == (other, 0)
        assert (network.arc(("a", "b")), network.undo(2), network.arc(("a", "b"))) == (
            other,
            2,
            main,
        )


def test_a_named_arc_beside_one_without_a_name() -> None:
    """The ends name neither, so that nobody takes the flow of one for all that flows."""
    with dmf.Network([("a", "b", 3), ("a", "b", 4, "bypass"), ("b", "c", 9)], "a", "c") as network:
        plan = network.solve()
        with pytest.raises(dmf.AmbiguousArc):
            plan.__getitem__(("a", "b"))
        with pytest.raises(dmf.AmbiguousArc):
            network.cap(("a", "b"), 1)
        assert (plan.between("a", "b"), plan["bypass"], plan[network.arcs[0]]) == (7, 4, 3)


def test_a_key_that_is_the_ends() -> None:
    with dmf.Network([("a", "b", 3, ("a", "b")), ("b", "a", 4, "back")], "a", "b") as network:
        assert (network.solve()["a", "b"], network.arc(("a", "b"))) == (3, network.arcs[0])
        # The key of this one is the ends of another.
        network.add("a", "a", 1, ("b", "a"))
        with pytest.raises(dmf.AmbiguousArc):
            network.arc(("b", "a"))


def test_between() -> None:
    with pipes() as network:
        plan = network.solve()
        assert (
            plan.between("mill", "town"),
            plan.between("town", "mill"),
            plan.between("lake", "sea"),
        ) == (1, 0, 0)
        with pytest.raises(dmf.NoSuchNode):
            plan.between("lake", "see")
        assert (plan.get("canal"), plan.get("canal", 0), plan.get(("mill", "town"), 9)) == (
            None,
            0,
            1,
        )


def test_any_names() -> None:
    rows = [(0, (1, 2), 3), ((1, 2), None, 2), (frozenset([1]), 0, 9), (0, "0", 1), ("0", None, 4)]
    with dmf.Network(rows, 0, None) as network:
        assert network.solve().value == 3
        assert network.cut().side == {0, (1, 2)}


def test_a_node_without_arcs() -> None:
    with dmf.Network([("a", "b", 1)], "a", "c", nodes=["c"]) as network:
        assert (network.nodes, network.solve().value) == (["c", "a", "b"], 0)
        network.add("b", "c", 5)
        assert network.solve().value == 1


def test_no_arcs() -> None:
    with dmf.Network([], "a", "b", nodes="ab") as network:
        assert (network.solve().value, network.cut()) == (0, dmf.Cut(0, frozenset("a"), ()))


def test_problem_has_names() -> None:
    with pipes() as network:
        network.add("lake", "sea", 7, "the canal")
        network.close(("lake", "town"))
        wanted = (
            "c node 1 lake\nc node 2 mill\nc node 3 town\nc node 4 sea\nc arc 5 the canal\np max 4 "
            "5\nn 1 s\nn 4 t\n"
        )
        wanted += "a 1 2 3\na 2 3 5\na 2 4 2\na 3 4 3\na 1 4 7\n"
        assert network.problem() == wanted


def test_read() -> None:
    text = "c node 1 the lake\nc node 3 x\nc node 2 x\nc arc 2  Mill Street \nc node names\n"
    text += "p max 4 2\nn 1 s\nn 2 t\na 1 2 5\na 3 2 007\n"
    with tempfile.NamedTemporaryFile("w", suffix=".max") as file:
        file.write(text)
        file.flush()
        with dmf.read(file.name) as network:
            # Two nodes have the same name, so both are called by their numbers.
            assert (network.nodes, network.source, network.sink) == (
                ["the lake", 2, 3, 4],
                "the lake",
                2,
            )
            assert (network.solve().value, network.capacity("Mill Street")) == (5, 7)


def test_whole_floats_are_capacities() -> None:
    with dmf.Network([("a", "b", 3.0)], "a", "b") as network:
        assert (network.solve().value, network.cap(("a", "b"), 2.0)) == (3, 2)


def test_the_largest_capacity() -> None:
    with dmf.Network([("a", "b", LARGEST)], "a", "b") as network:
        assert network.solve().value == LARGEST


def test_shut() -> None:
    with pipes() as network:
        first = network.solve()
        assert network.shut("mill") == 2
        assert (ends(network.arcs), flows(network.flow())) == (
            [("lake", "town"), ("town", "sea")],
            [2, 2],
        )
        assert (network.undo(), network.flow()) == (5, first)
        assert (network.redo(), network.undo()) == (2, 5)
        assert (network.shut("town"), flows(network.flow())) == (2, [2, 2])
        with pytest.raises(dmf.NoSuchNode):
            network.shut("Mill")


def test_history() -> None:
    with pipes(history=1) as network:
        network.cap(("lake", "mill"), 4)
        network.close(("lake", "town"))
        with pytest.raises(dmf.NothingToUndo):
            network.undo(2)
        assert (network.undo(), len(network.arcs)) == (0, 5)
        with pytest.raises(dmf.NothingToUndo):
            network.undo()
        assert (network.redo(), len(network.arcs)) == (0, 4)
        # The oldest change is forgotten, and stays.
        assert network.capacity(("lake", "mill")) == 4
    with pipes(history=0) as network:
        network.solve()
        with pytest.raises(dmf.NothingToUndo):
            network.undo()
        assert network.flow().value == 5
