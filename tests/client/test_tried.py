"""What is tried out and taken back, arcs that are opened, histories that are bounded, arcs that
tell of themselves, and notebooks."""

import contextlib

import pytest
from client_shared import PIPES, dmf, ends, pipes


def test_it_is_taken_back() -> None:
    with pipes() as network:
        first = network.solve()
        with network.try_out() as tried:
            assert tried is network
            network.close(("lake", "mill"))
            assert network.solve().value == 2
        assert (network.value, network.flow(), len(network.arcs)) == (5, first, 5)
        # What was there before can be taken back still, and what was tried made again.
        assert (network.redo(2), network.undo(2), network.undo()) == (2, 5, 0)


def test_the_block_raises() -> None:
    with pipes() as network:
        network.solve()
        for error in ZeroDivisionError, KeyboardInterrupt, dmf.NoSuchArc:
            with pytest.raises(error):
                with network.try_out():
                    network.shut("mill")
                    raise error
            assert (network.value, len(network.arcs)) == (5, 5)


def test_the_block_takes_back_itself() -> None:
    with pipes() as network:
        network.solve()
        network.cap(("lake", "mill"), 2)
        network.undo()
        with network.try_out():
            # What is before the block stays, whatever the block does.
            with pytest.raises(dmf.NothingToUndo):
                network.undo()
            assert network.redo() == 4
            network.close(("lake", "mill"))
            assert network.undo() == 4
            with pytest.raises(dmf.NothingToUndo):
                network.undo(2)
        assert (network.value, network.capacity(("lake", "mill")), network.redo()) == (5, 3, 4)


@pytest.mark.parametrize("is_killed", [False, True])
def test_a_session_that_ends_in_the_block(is_killed: bool) -> None:
    """What is kept of the network is as it was before the block, so that a sweep is still of that
    network."""
    network = pipes()
    network.solve()
    with pytest.raises(dmf.SessionEnded):
        with network.try_out(), network.try_out():
            network.shut("mill")
            network.add("lake", "sea", 7)
            if is_killed:
                network._session.break_off("it was killed")
            else:
                network.end()
                network.solve()
    assert (network.value, ends(network.arcs)) == (5, [row[:2] for row in PIPES])
    # Each pipe closed in turn, worked by hand.
    assert [result.value for result in dmf.sweep(network, dmf.each_arc_closed())] == [2, 3, 4, 3, 2]


def test_blocks_in_blocks() -> None:
    with pipes() as network:
        network.solve()
        with network.try_out():
            network.close(("lake", "mill"))
            with network.try_out():
                network.close(("lake", "town"))
                with pytest.raises(dmf.NothingToUndo):
                    network.undo(2)
            assert (network.value, network.undo()) == (2, 5)


def test_a_bounded_history() -> None:
    with pipes(history=2) as network:
        network.solve()
        with network.try_out():
            network.close(("lake", "mill"))
            network.solve()
            with pytest.raises(dmf.HistoryOutOfRange):
                network.solve()
            with pytest.raises(dmf.HistoryOutOfRange):
                network.cap(("lake", "town"), 1)
        assert (network.value, len(network.arcs)) == (5, 5)
        for _ in range(50):
            network.solve()
        network.flow()
        # Of a change that cannot be undone the command alone is kept.
        assert [
            change if isinstance(change, tuple) else change.command
            for change in network._kept._changes
        ] == [("solve",)] * 51
        assert [isinstance(change, tuple) for change in network._kept._changes] == [True] * 49 + [
            False
        ] * 2


@pytest.mark.parametrize("bound", range(4))
@pytest.mark.parametrize("blocks", [(1, 2), (0, 2, 2), (1, 1, 1, 1), (2, 0, 1), (0, 3)])
def test_a_bounded_history_of_blocks_in_blocks(bound: int, blocks: tuple[int, ...]) -> None:
    """Blocks in blocks, each with some changes at its beginning: the bound counts them from the
    outermost block on, so that all of them can be taken back."""
    with pipes(history=bound) as network:
        for _ in range(3):
            network.solve()
        with contextlib.ExitStack() as stack:
            made = 0
            for changes in blocks:
                stack.enter_context(network.try_out())
                for _ in range(changes):
                    if made < bound:
                        network.add("lake", "sea", 1)
                        made += 1
                        continue
                    with pytest.raises(dmf.HistoryOutOfRange):
                        network.add("lake", "sea", 1)
                assert len(network.arcs) == 5 + made
            assert network.value == 5
        assert (network.value, ends(network.arcs)) == (5, [row[:2] for row in PIPES])
        # What was tried can be made once more, and the session goes on.
        if made:
            assert network.redo(made) == 5
        assert (len(network.arcs), network.solve().value) == (5 + made, 5 + made)


def test_a_block_that_undid_has_room_again() -> None:
    with pipes(history=2) as network:
        with network.try_out():
            network.solve()
            with network.try_out():
                network.close(("lake", "mill"))
                with pytest.raises(dmf.HistoryOutOfRange):
                    network.close(("lake", "town"))
                network.undo()
                network.close(("lake", "town"))
                assert network.value == 3
            assert network.value == 5
            network.undo()
            network.shut("mill")
            assert network.solve().value == 2
        assert (network.value, len(network.arcs)) == (0, 5)


@pytest.mark.parametrize("how", ["go on", "begin again", "copy"])
def test_what_is_forgotten_stays_so(how: str) -> None:
    """Also in a session that was restarted, of which the last changes are others."""
    with pipes(history=2) as network:
        network.close(("lake", "mill"))
        network.close(("lake", "town"))
        network.solve()
        network.solve()
        network.undo(2)
        network.cap(("mill", "town"), 7)
        if how == "begin again":
            network._session.kill("the session was ended by a test")
            network.begin_again()
        chosen: contextlib.AbstractContextManager[dmf.Network[str]] = contextlib.nullcontext(
            network
        )
        if how == "copy":
            chosen = network.copy()
        with chosen as tried:
            with pytest.raises(dmf.NothingToUndo, match="^nothing to undo: undo 2$"):
                tried.undo(2)
            assert (len(tried.arcs), tried.undo(), tried.capacity(("mill", "town"))) == (3, 0, 5)
            assert [line for line in tried.problem().splitlines() if line[0] == "a"] == [
                "a 2 3 5",
                "a 2 4 2",
                "a 3 4 3",
            ]


def test_the_session_ends_inside() -> None:
    network = pipes()
    with network.try_out():
        network.solve()
        network.end()
    with pytest.raises(dmf.SessionEnded):
        network.solve()


def test_open() -> None:
    with dmf.Network([("a", "b", 3, "main"), ("b", "c", 9)], "a", "c") as network:
        old = network.arc("main")
        network.cap(old, 5)
        with pytest.raises(dmf.ArcIsOpen):
            network.open("main")
        network.close("main")
        assert network.solve().value == 0
        new = network.open("main")
        assert (new.number, new.key, new.capacity, network.solve().value) == (3, "main", 5, 5)
        # The key and the ends name the new arc, and the old handle the closed one.
        assert (network.arc("main"), network.arc(("a", "b"))) == (new, new)
        with pytest.raises(dmf.ArcIsClosed):
            network.cap(old, 1)
        assert (network.undo(2), network.undo(2), old.is_open, new.is_open) == (0, 0, True, False)
        with pytest.raises(dmf.NoSuchArc):
            network.open(new)


def test_open_one_of_several_by_their_ends() -> None:
    """The ends of closed arcs side by side name none of them, until all but one were opened
    again."""
    with dmf.Network([("a", "b", 3, "x"), ("a", "b", 4, "y")], "a", "b") as network:
        one, other = network.arcs
        network.close("x")
        # One arc is open, so that the ends name it.
        with pytest.raises(dmf.ArcIsOpen):
            network.open(("a", "b"))
        network.close("y")
        several = (
            "2 closed arcs have the key or the ends ('a', 'b'): <Arc 1: 'a' to 'b', 'x'>, <Arc 2: "
            "'a' to 'b', 'y'>"
        )
        for call in network.open, network.arc, network.capacity:
            with pytest.raises(dmf.AmbiguousArc) as caught:
                call(("a", "b"))
            assert (str(caught.value), network.arcs) == (several, [])
        new = network.open(one)
        network.close(new)
        # The closed arcs are the one that was opened in the place of the first, and the second: the
        # first is past.
        assert (network.arc("x"), network.arc("y")) == (new, other)
        with pytest.raises(dmf.AmbiguousArc, match="^2 closed arcs .*: <Arc 2: .*>, <Arc 3: .*>$"):
            network.open(("a", "b"))
        # What is taken back and made again names what it named.
        network.undo(2)
        assert network.arc("x") == one
        network.redo(2)
        assert (
            network.arc("x"),
            network.open("x").number,
            network.open("y").number,
            network.solve().value,
        ) == (new, 4, 5, 7)


def test_an_arc_tells_of_itself() -> None:
    with pipes() as network:
        mill, town = network.arcs[:2]
        assert (mill.capacity, mill.is_open, mill.flow) == (3, True, 0)
        network.solve()
        assert [arc.flow for arc in network.arcs] == [3, 2, 1, 2, 3]
        network.close(mill)
        assert (mill.is_open, mill.flow, town.flow) == (False, 0, 2)
        with pytest.raises(dmf.ArcIsClosed):
            mill.capacity
        canal = network.add("lake", "sea", 7)
        network.undo()
        assert not canal.is_open
        with pytest.raises(dmf.NoSuchArc):
            canal.flow
    del network
    with pytest.raises(dmf.SessionEnded):
        mill.capacity


def test_flows_are_those_of_their_time() -> None:
    """Each solution is looked at when the network is another one, and the last when it has
    ended."""
    with pipes() as network:
        before, solved = network.flow(), network.solve()
        network.close(("lake", "mill"))
        canal = network.add("lake", "sea", 7)
        after = network.solve()
        network.undo(2)
        network.add("sea", "lake", 1)
    assert [list(plan.values()) for plan in (before, solved, after)] == [
        [0] * 5,
        [3, 2, 1, 2, 3],
        [2, 0, 0, 2, 7],
    ]
    assert (after[canal], after["lake", "sea"], after.get(("sea", "lake"))) == (7, 7, None)
    assert ends(after)[-1] == ("lake", "sea")


def test_tables() -> None:
    with dmf.Network([("<a>", "b", 3, "x & y"), ("b", "c", 2)], "<a>", "c") as network:
        network.solve()
        cut = network.cut()
        for shown in network._repr_html_(), network.flow()._repr_html_():
            assert "<td>x &amp; y</td><td>&lt;a&gt;</td><td>b</td><td>2</td>" in shown
        assert "cut of capacity 2" in cut._repr_html_()
        assert "<td>2</td><td>b</td><td>c</td>" in cut._repr_html_()


def test_a_large_network_is_a_table() -> None:
    with dmf.Network([(node, node + 1, 1) for node in range(400)], 0, 400) as network:
        assert network._repr_svg_() is None
        assert "and 380 more" in network._repr_html_()


def test_pictures() -> None:
    with pipes() as network:
        network.solve()
        cut = network.cut()
        for shown in network._repr_svg_(), cut._repr_svg_():
            assert shown is not None
            assert "<svg" in shown
            assert "1/5" in shown
        # The cut alone has arcs that are red.
        assert [
            (look or "").count("#c62828") > 0 for look in (network._repr_svg_(), cut._repr_svg_())
        ] == [False, True]
