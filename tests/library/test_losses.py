"""What each arc and each node of a session's network is worth: on a network that was worked by
hand, on random ones beside the second implementation and beside closing or shutting in the session
itself, and for each answer what is written."""

from __future__ import annotations

from random import Random

import pytest
import random_cases
from c_library import (
    BAD_LENGTH,
    NO_SUCH_ARC,
    NO_SUCH_NODE,
    NOT_GREATEST,
    CSession,
    Library,
    Refused,
    library_folder,
)
from c_losses import arcs_at, changed, left, present

# The answer to a number that is none.
PARTS = {"arc": NO_SUCH_ARC, "node": NO_SUCH_NODE}
FEW, MANY, BATCHES = 200, 20_000, 4


@pytest.fixture(scope="module")
def library() -> Library:
    return Library(library_folder())


def of_all(session: CSession, part: str) -> tuple[int, ...]:
    """The losses of all arcs or nodes."""
    count = session.number(f"{part}s")
    return session.losses(part, range(1, count + 1), count)


def losses(session: CSession) -> tuple[tuple[int, ...], tuple[int, ...]]:
    """The losses of the arcs and of the nodes. The session is as it was."""
    before = session.state()
    found = of_all(session, "arc"), of_all(session, "node")
    assert session.state() == before
    return found


def test_by_hand(library: Library) -> None:
    """Of the 5 that arrive, 2 go by arcs 1 and 4, 2 by arcs 2 and 5, and 1 by arcs 1, 3 and 5.
    Without arc 1 or node 2 only the two of arc 2 are left, and without arc 5 or node 3 those of arc
    4; without arc 4 arc 5 is full, and without arc 2 arc 1 is; without arc 3 one is lost."""
    with library.example() as session:
        session.step("solve")
        assert losses(session) == ((3, 2, 1, 2, 3), (0, 3, 3, 0))
        # Three are left, by arc 5. Arc 1 alone can bring them, and arc 2 only two.
        session.step("close", 4)
        session.step("solve")
        assert losses(session) == ((1, 0, 1, 0, 3), (0, 1, 3, 0))
        session.step("undo", 2)
        # Node 3 has no arc any more, and two go by arcs 1 and 4.
        session.step("shut", 3)
        session.step("solve")
        assert losses(session) == ((2, 0, 0, 2, 0), (0, 2, 0, 0))


def test_a_loop_and_arcs_into_the_source_and_out_of_the_sink(library: Library) -> None:
    arcs = [(1, 2, 4), (2, 2, 9), (2, 3, 3), (2, 1, 5), (3, 2, 6), (1, 3, 7)]
    with library.open(3, (1, 3), arcs) as session:
        session.step("solve")
        assert losses(session) == ((3, 0, 3, 0, 0, 7), (0, 3, 0))


def test_a_network_without_arcs(library: Library) -> None:
    with library.open(2, (2, 1), []) as session:
        assert losses(session) == ((), (0, 0))


def test_the_largest_capacity(library: Library) -> None:
    most = 2**64 - 1
    with library.open(3, (1, 3), [(1, 2, most - 9), (2, 3, 9)]) as session:
        session.step("solve")
        assert losses(session) == ((9, 9), (0, 9, 0))
    with library.open(2, (1, 2), [(1, 2, most)]) as session:
        session.step("solve")
        assert losses(session) == ((most,), (0, 0))


def test_the_largest_sum_at_a_node(library: Library) -> None:
    """All arcs are at node 3. Those that enter it carry as much as those that leave it, together
    2^64 - 2, and with a loop at both of its ends 2^64. Then another way leads past node 3."""
    half = 2**63 - 1
    entering, leaving = [half // 3, half // 2, half - half // 3 - half // 2], [half - 7, 7]
    arcs = [(1, 3, cap) for cap in entering] + [(3, 2, cap) for cap in leaving] + [(3, 3, 1)]
    with library.open(3, (1, 2), arcs) as session:
        session.step("solve")
        assert losses(session) == ((*entering, *leaving, 0), (0, 0, half))
    with library.open(3, (1, 2), [*arcs[:3], (3, 2, half - 9), (1, 2, 8)]) as session:
        session.step("solve")
        assert session.number("value") == half - 1
        assert losses(session)[1] == (0, 0, half - 9)


def test_chosen_ones(library: Library) -> None:
    """In the order in which they are asked for, also more than once."""
    with library.example() as session:
        session.step("solve")
        before = session.state()
        assert session.losses("arc", [3, 5, 3, 4], 4) == (1, 3, 1, 2)
        assert session.losses("node", [3, 1, 2], 3) == (3, 0, 3)
        assert session.losses("arc", [], 0) == session.losses("node", [], 0) == ()
        assert session.state() == before


def refused(session: CSession, status: int, part: str, numbers: list[int], count: int) -> None:
    before = session.state()
    with pytest.raises(Refused) as told:
        session.losses(part, numbers, count)
    assert told.value.status == status and session.state() == before


@pytest.mark.parametrize("part", PARTS)
@pytest.mark.parametrize("count", [0, 1, 3])
def test_an_array_of_another_length(library: Library, part: str, count: int) -> None:
    """Of a flow that is not greatest, and of numbers that are not there, too: the length is judged
    first."""
    with library.example() as session:
        for _ in range(2):
            refused(session, BAD_LENGTH, part, [1, 2], count)
            refused(session, BAD_LENGTH, part, [0, 9], count)
            session.step("solve")


@pytest.mark.parametrize(("part", "status"), PARTS.items())
def test_an_arc_or_a_node_that_is_not_there(library: Library, part: str, status: int) -> None:
    """Of a flow that is not greatest too: the numbers are judged before it."""
    with library.example() as session:
        last = session.number(f"{part}s")
        for _ in range(2):
            for number in 0, last + 1, 2**32 - 1:
                refused(session, status, part, [number], 1)
                refused(session, status, part, [1, number, 2], 3)
            session.step("solve")


@pytest.mark.parametrize("part", PARTS)
def test_a_flow_that_is_not_greatest(library: Library, part: str) -> None:
    with library.example() as session:
        for step in None, ("solve",), ("cap", 1, 9), ("cap", 4, 9):
            if step:
                session.step(*step)
            # A larger arc 1 alone brings no more.
            if step in (("solve",), ("cap", 1, 9)):
                assert len(of_all(session, part)) == session.number(f"{part}s")
                continue
            refused(session, NOT_GREATEST, part, [1, 2], 2)


def by_steps(session: CSession, word: str, count: int) -> list[int]:
    """How much less the session's value is after each of these steps and a solve."""
    value, found = session.number("value"), []
    for number in range(1, count + 1):
        try:
            session.step(word, number)
        except Refused:
            # The arc is closed.
            found.append(0)
            continue
        session.step("solve")
        found.append(value - session.number("value"))
        session.step("undo", 2)
    return found


@pytest.mark.seconds(3)
@pytest.mark.parametrize("batch", range(BATCHES))
def test_random_sessions(library: Library, batch: int, request: pytest.FixtureRequest) -> None:
    random = Random(f"losses {request.config.getoption('--seed')} {batch}")
    count = (MANY if request.config.getoption("--long") else FEW) // BATCHES
    some_lost = 0
    for _ in range(count):
        wanted = random_cases.fitting(random_cases.network(random, 8))
        if wanted.source == wanted.sink:
            continue
        ends = wanted.source, wanted.sink
        with library.open(wanted.nodes, ends, [arc[:3] for arc in wanted.arcs]) as session:
            changed(session, random, wanted)
            now = present(session, wanted)
            value = session.number("value")
            of_arcs, of_nodes = losses(session)
            assert list(of_arcs) == [
                value - left(now, {arc}) for arc in range(1, len(now.arcs) + 1)
            ]
            assert list(of_nodes) == [
                0 if node in ends else value - left(now, arcs_at(now, node))
                for node in range(1, now.nodes + 1)
            ]
            assert by_steps(session, "close", len(now.arcs)) == list(of_arcs)
            shut = by_steps(session, "shut", now.nodes)
            shut[ends[0] - 1] = shut[ends[1] - 1] = 0
            assert shut == list(of_nodes)
            some_lost += any(of_nodes)
    assert some_lost > count // 4
