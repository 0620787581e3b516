"""What second arcs and new arcs would bring to a session's network: on a network that was worked by
hand, on random ones beside the second implementation and beside adding in the session itself, and
for each answer what is written."""

from __future__ import annotations

from collections.abc import Sequence
from contextlib import suppress
from random import Random

import pytest
import random_cases
from c_library import (
    BAD_LENGTH,
    NO_SUCH_ARC,
    NO_SUCH_NODE,
    NOT_GREATEST,
    SUM_TOO_LARGE,
    CSession,
    Library,
    Refused,
    library_folder,
)
from c_losses import NewArc, changed, gain, present

NODES, ARCS = 4, 5
FEW, MANY, BATCHES = 120, 12_000, 4


@pytest.fixture(scope="module")
def library() -> Library:
    return Library(library_folder())


def second(session: CSession, arcs: Sequence[int]) -> list[int]:
    """What second arcs beside these bring. The session is as it was."""
    before = session.state()
    found = session.second_gains(arcs, len(arcs))
    assert session.state() == before
    return list(found)


def new(session: CSession, arcs: Sequence[NewArc]) -> list[int]:
    """What these new arcs bring. The session is as it was."""
    before = session.state()
    tails, heads, capacities = ([arc[at] for arc in arcs] for at in range(3))
    found = session.new_arc_gains(tails, heads, capacities, len(arcs))
    assert session.state() == before
    return list(found)


def test_by_hand(library: Library) -> None:
    """The arcs that leave the source carry 5, and so do those that enter the sink: no second arc
    alone brings more. With 1 on arc 5, three enter the sink. A wider arc 4 gets the three of arc 1,
    and so one more; an arc beside arc 5 gets what arc 4 cannot take of the five."""
    with library.example() as session:
        session.step("solve")
        assert second(session, range(1, ARCS + 1)) == [0] * ARCS
        assert new(session, [(1, 4, 7), (4, 1, 7), (2, 2, 7), (1, 4, 0)]) == [7, 0, 0, 0]
        session.step("cap", 5, 1)
        session.step("solve")
        assert second(session, [5, 4, 5, 1, 2, 3]) == [1, 1, 1, 0, 0, 0]
        assert new(session, [(3, 4, 9), (2, 4, 9), (3, 4, 1), (3, 2, 9)]) == [2, 1, 1, 0]
        # Without arc 4 only arc 5 arrives; nothing goes beside a closed arc.
        session.step("close", 4)
        session.step("solve")
        assert second(session, [4, 5]) == [0, 1]


def test_networks_without_arcs(library: Library) -> None:
    most = 2**64 - 1
    with library.open(2, (2, 1), []) as session:
        assert second(session, []) == [] and new(session, []) == []
        assert new(session, [(2, 1, 9), (1, 2, 9)]) == [9, 0]
        refused(session, NO_SUCH_ARC, [1])
    with library.open(2, (1, 2), [(1, 2, most)]) as session:
        session.step("solve")
        refused(session, SUM_TOO_LARGE, [1])
        assert new(session, [(1, 2, 0)]) == [0]


def refused(session: CSession, status: int, arcs: Sequence[int]) -> None:
    before = session.state()
    with pytest.raises(Refused) as told:
        session.second_gains(arcs, len(arcs))
    assert told.value.status == status and session.state() == before


def new_refused(
    session: CSession, status: int, columns: Sequence[Sequence[int]], count: int
) -> None:
    before = session.state()
    with pytest.raises(Refused) as told:
        tails, heads, capacities = columns
        session.new_arc_gains(tails, heads, capacities, count)
    assert told.value.status == status and session.state() == before


@pytest.mark.parametrize("number", [0, ARCS + 1, 2**32 - 1])
def test_an_arc_or_a_node_that_is_not_there(library: Library, number: int) -> None:
    """Of a flow that is not greatest too: the numbers are judged first."""
    node = number - 1 if number == ARCS + 1 else number
    assert not 1 <= node <= NODES
    with library.example() as session:
        for _ in range(2):
            refused(session, NO_SUCH_ARC, [number])
            refused(session, NO_SUCH_ARC, [1, 2, number])
            for ends in ([node], [1]), ([1], [node]):
                new_refused(session, NO_SUCH_NODE, (*ends, [1]), 1)
                new_refused(
                    session, NO_SUCH_NODE, ([1, *ends[0]], [2, *ends[1]], [0, 2**64 - 1]), 2
                )
            session.step("solve")


@pytest.mark.parametrize("lengths", [(2, 3, 3, 3), (3, 2, 3, 3), (3, 3, 2, 3), (3, 3, 3, 2)])
def test_lengths_that_differ(library: Library, lengths: Sequence[int]) -> None:
    with library.example() as session:
        for _ in range(2):
            columns = [[9] * length for length in lengths[:3]]
            new_refused(session, BAD_LENGTH, columns, lengths[3])
            with pytest.raises(Refused) as told:
                session.second_gains([9] * lengths[0], lengths[0] + 1)
            assert told.value.status == BAD_LENGTH
            session.step("solve")


def test_a_flow_that_is_not_greatest(library: Library) -> None:
    with library.example() as session:
        for _ in range(2):
            refused(session, NOT_GREATEST, [])
            refused(session, NOT_GREATEST, [1, 5])
            new_refused(session, NOT_GREATEST, ([1], [4], [1]), 1)
            session.step("solve")
            assert new(session, [(1, 4, 3)]) == [3]
            # Arcs 1 and 4 can carry more.
            session.step("cap", 1, 9)
            session.step("cap", 4, 9)


def test_capacities_that_are_too_large(library: Library) -> None:
    """The 15 of the example leave 2^64 - 16 for one more arc."""
    most = 2**64 - 1
    with library.example() as session:
        session.step("solve")
        for cap in most, most - 14:
            new_refused(session, SUM_TOO_LARGE, ([1], [4], [cap]), 1)
        assert new(session, [(1, 4, most // 8)]) == [most // 8]


def added(session: CSession, arcs: Sequence[NewArc]) -> list[int]:
    """How much greater the session's value is after adding each of these arcs and a solve."""
    value, past, found = session.number("value"), session.number("past"), []
    for arc in arcs:
        session.step("add", *arc)
        session.step("solve")
        found.append(session.number("value") - value)
        session.step("undo", session.number("past") - past)
    return found


@pytest.mark.seconds(5)
@pytest.mark.parametrize("batch", range(BATCHES))
def test_random_sessions(library: Library, batch: int, request: pytest.FixtureRequest) -> None:
    random = Random(f"gains {request.config.getoption('--seed')} {batch}")
    count = (MANY if request.config.getoption("--long") else FEW) // BATCHES
    some_gained = 0
    for _ in range(count):
        wanted = random_cases.fitting(random_cases.network(random, 7))
        if wanted.source == wanted.sink:
            continue
        ends = wanted.source, wanted.sink
        with library.open(wanted.nodes, ends, [arc[:3] for arc in wanted.arcs]) as session:
            changed(session, random, wanted)
            now = present(session, wanted)
            beside = [arc[:3] for arc in now.arcs]
            with suppress(Refused):
                numbers = range(1, len(beside) + 1)
                gains = second(session, numbers)
                assert gains == added(session, beside)
                some_gained += any(gains)
                chosen = [random.choice(numbers) for _ in beside[:5]]
                assert second(session, chosen) == [gains[number - 1] for number in chosen]
            node = range(1, wanted.nodes + 1)
            arcs = [
                (random.choice(node), random.choice(node), random.choice([0, 1, 2, 5, 9]))
                for _ in range(9)
            ]
            with suppress(Refused):
                assert new(session, arcs) == added(session, arcs)
                at = random.choice(arcs)
                assert new(session, [at]) == [gain(now, at)]
    assert some_gained > count // 4
