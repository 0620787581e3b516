"""Pairs of arcs of a session's network, and its arcs, nodes and pairs whose loss is greatest: on a
network that was worked by hand, on random ones beside the second implementation and beside closing
in the session itself, and for each answer what is written."""

from __future__ import annotations

from collections.abc import Mapping, Sequence
from itertools import combinations
from random import Random

import pytest
import random_cases
from c_library import (
    BAD_LENGTH,
    NO_SUCH_ARC,
    NOT_GREATEST,
    CSession,
    Library,
    Refused,
    library_folder,
)
from c_losses import Numbers, Rows, among, arcs_at, changed, left, listed, present
from oracle.network import State

NODES, ARCS = 4, 5
FEW, MANY, BATCHES = 120, 12_000, 4
# Of the example: the numbers, and what is lost of the 5 that arrive. Without arcs 1 and 2 nothing
# leaves the source, and without arcs 4 and 5 nothing arrives; without arcs 1 and 5 node 3 has the
# two of arc 2, and no way on. Without arcs 2 and 4 three go by arcs 1, 3 and 5. Without any other
# two a way is left that carries two.
WORST_ARCS: Rows = [(1, 3), (5, 3), (2, 2), (4, 2), (3, 1)]
WORST_NODES: Rows = [(2, 3), (3, 3)]
WORST_PAIRS: Rows = [
    *((1, 2, 5), (1, 5, 5), (4, 5, 5), (1, 3, 3), (1, 4, 3)),
    *((2, 3, 3), (2, 5, 3), (3, 4, 3), (3, 5, 3), (2, 4, 2)),
]
WORST = {"arcs": WORST_ARCS, "nodes": WORST_NODES, "pairs": WORST_PAIRS}


@pytest.fixture(scope="module")
def library() -> Library:
    return Library(library_folder())


def worst(session: CSession, parts: str, most: int, among: Sequence[int] = ()) -> Rows:
    """The worst of these, at most so many. The session is as it was."""
    before = session.state()
    found = session.worst(parts, [most] * (3 if parts == "pairs" else 2), among)
    assert session.state() == before
    return found


def losses(session: CSession, pairs: list[tuple[int, int]]) -> tuple[int, ...]:
    """What is lost without each pair. The session is as it was."""
    before = session.state()
    found = session.pair_losses([i for i, _ in pairs], [j for _, j in pairs], len(pairs))
    assert session.state() == before
    return found


def refused(session: CSession, status: int, pairs: tuple[list[int], list[int]], count: int) -> None:
    before = session.state()
    with pytest.raises(Refused) as told:
        session.pair_losses(*pairs, count)
    assert told.value.status == status and session.state() == before


@pytest.mark.parametrize("parts", WORST)
def test_the_worst_by_hand(library: Library, parts: str) -> None:
    with library.example() as session:
        session.step("solve")
        for most in range(len(WORST[parts]) + 3):
            assert worst(session, parts, most) == WORST[parts][:most]


@pytest.mark.parametrize("parts", ["arcs", "pairs"])
def test_chosen_arcs_by_hand(library: Library, parts: str) -> None:
    """A mark of 1 to 255 chooses an arc, and a pair needs two of them."""
    with library.example() as session:
        session.step("solve")
        for marks in [1, 0, 0, 255, 2], [0, 1, 1, 0, 0], [0] * ARCS, [7] * ARCS:
            chosen = {arc for arc, mark in enumerate(marks, 1) if mark}
            rows = [row for row in WORST[parts] if chosen.issuperset(row[:-1])]
            for most in range(len(rows) + 2):
                assert worst(session, parts, most, marks) == rows[:most]


@pytest.mark.parametrize("parts", ["arcs", "pairs"])
@pytest.mark.parametrize("count", [1, ARCS - 1, ARCS + 1])
def test_marks_of_another_number(library: Library, parts: str, count: int) -> None:
    """Of a flow that is not greatest too: the lengths are judged first."""
    with library.example() as session:
        for _ in range(2):
            before = session.state()
            with pytest.raises(Refused) as told:
                session.worst(parts, [2] * (3 if parts == "pairs" else 2), [1] * count)
            assert told.value.status == BAD_LENGTH and session.state() == before
            session.step("solve")


def test_pairs_by_hand(library: Library) -> None:
    with library.example() as session:
        session.step("solve")
        assert losses(session, []) == ()
        pairs = [(i, j) for i, j, _ in WORST_PAIRS]
        assert losses(session, pairs) == tuple(loss for *_, loss in WORST_PAIRS)
        # In the other order, twice, and an arc with itself, which is lost alone.
        assert losses(session, [(5, 4), (5, 4), (4, 5), (5, 5), (3, 3)]) == (5, 5, 5, 3, 1)
        # Three are left, by arc 5; a closed arc is not lost again.
        session.step("close", 4)
        session.step("solve")
        assert losses(session, [(4, 1), (1, 4), (4, 4), (4, 5), (1, 3)]) == (1, 1, 0, 3, 1)
        assert worst(session, "pairs", 3) == [(1, 2, 3), (1, 5, 3), (2, 3, 3)]
        assert worst(session, "arcs", 9) == [(5, 3), (1, 1), (3, 1), (2, 0), (4, 0)]


def test_networks_without_pairs(library: Library) -> None:
    with library.open(2, (2, 1), []) as session:
        assert [worst(session, parts, 3) for parts in WORST] == [[], [], []]
        refused(session, NO_SUCH_ARC, ([1], [1]), 1)
    most = 2**64 - 1
    with library.open(2, (1, 2), [(1, 2, most)]) as session:
        session.step("solve")
        assert [worst(session, parts, 3) for parts in WORST] == [[(1, most)], [], []]
        assert losses(session, [(1, 1)]) == (most,)


@pytest.mark.parametrize("numbers", [(0, 1), (1, 0), (6, 1), (1, 6), (2**32 - 1, 2)])
def test_an_arc_that_is_not_there(library: Library, numbers: tuple[int, int]) -> None:
    """Of a flow that is not greatest too: the numbers are judged first, and the lengths before."""
    with library.example() as session:
        for _ in range(2):
            refused(session, NO_SUCH_ARC, ([numbers[0]], [numbers[1]]), 1)
            refused(session, NO_SUCH_ARC, ([1, 2, numbers[0]], [2, 3, numbers[1]]), 3)
            refused(session, BAD_LENGTH, ([numbers[0]], [numbers[1]]), 2)
            session.step("solve")


LENGTHS = [(2, 3, 3), (3, 2, 3), (3, 3, 2), (0, 3, 3), (3, 0, 3), (3, 3, 0), (0, 0, 1), (1, 1, 0)]


@pytest.mark.parametrize("lengths", LENGTHS)
def test_lengths_that_differ(library: Library, lengths: tuple[int, int, int]) -> None:
    with library.example() as session:
        for _ in range(2):
            refused(session, BAD_LENGTH, ([1] * lengths[0], [2] * lengths[1]), lengths[2])
            before = session.state()
            for parts, counts in ("pairs", lengths), ("arcs", lengths[1:]), ("nodes", lengths[1:]):
                if len({*counts}) == 1:
                    continue
                with pytest.raises(Refused) as told:
                    session.worst(parts, counts)
                assert told.value.status == BAD_LENGTH and session.state() == before
            session.step("solve")


def test_a_flow_that_is_not_greatest(library: Library) -> None:
    with library.example() as session:
        # Without arcs 2 and 4 three are left of 5, and then of 11.
        for lost in 2, 8:
            refused(session, NOT_GREATEST, ([1], [2]), 1)
            refused(session, NOT_GREATEST, ([], []), 0)
            for parts in WORST:
                for most in 0, 3:
                    with pytest.raises(Refused) as told:
                        worst(session, parts, most)
                    assert told.value.status == NOT_GREATEST
            session.step("solve")
            assert losses(session, [(2, 4)]) == (lost,)
            # Arcs 1 and 4 can carry more.
            session.step("cap", 1, 9)
            session.step("cap", 4, 9)


def closed_in_session(session: CSession, pairs: list[tuple[int, int]]) -> list[int]:
    """How much less the session's value is after closing both arcs of each pair and a solve."""
    value, found = session.number("value"), []
    past = session.number("past")
    for pair in pairs:
        for arc in {*pair}:
            try:
                session.step("close", arc)
            except Refused:
                continue
        session.step("solve")
        found.append(value - session.number("value"))
        session.step("undo", session.number("past") - past)
    return found


def judge_lists(
    session: CSession,
    now: State,
    pairs: Mapping[Numbers, int],
    most: int,
    marks: Sequence[int],
) -> int:
    """Compare each list with all losses, also of the marked arcs alone; return how many losses that
    of pairs has that are not 0."""
    value = session.number("value")
    inner = sorted({*range(1, now.nodes + 1)} - {now.source, now.sink})
    of_arcs: dict[Numbers, int] = {
        (arc,): value - left(now, {arc}) for arc in range(1, len(now.arcs) + 1)
    }
    of_nodes: dict[Numbers, int] = {
        (node,): value - left(now, arcs_at(now, node)) for node in inner
    }
    assert worst(session, "arcs", most) == listed(of_arcs, most)
    assert worst(session, "nodes", most) == listed(of_nodes, most)
    assert worst(session, "arcs", most, marks) == listed(among(of_arcs, marks), most)
    assert worst(session, "pairs", most, marks) == listed(among(pairs, marks), most)
    found = worst(session, "pairs", most)
    assert found == listed(pairs, most)
    return sum(row[-1] > 0 for row in found)


@pytest.mark.seconds(5)
@pytest.mark.parametrize("batch", range(BATCHES))
def test_random_sessions(library: Library, batch: int, request: pytest.FixtureRequest) -> None:
    random = Random(f"pairs {request.config.getoption('--seed')} {batch}")
    count = (MANY if request.config.getoption("--long") else FEW) // BATCHES
    some_lost = 0
    for _ in range(count):
        wanted = random_cases.fitting(random_cases.network(random, 7))
        if wanted.source == wanted.sink:
            continue
        ends = wanted.source, wanted.sink
        with library.open(wanted.nodes, ends, [arc[:3] for arc in wanted.arcs]) as session:
            changed(session, random, wanted)
            now = present(session, wanted)
            numbers = range(1, len(now.arcs) + 1)
            pairs = list(combinations(numbers, 2))
            of_pairs = closed_in_session(session, pairs)
            losses_of: dict[Numbers, int] = dict(zip(pairs, of_pairs))
            value = session.number("value")
            for at in random.sample(range(len(pairs)), min(len(pairs), 8)):
                assert of_pairs[at] == value - left(now, pairs[at])
            assert list(losses(session, pairs)) == of_pairs
            chosen = [(random.choice(numbers), random.choice(numbers)) for _ in pairs[:9]]
            assert list(losses(session, chosen)) == closed_in_session(session, chosen)
            most = random.choice([0, 1, 2, 3, 5, 8, 13, 1_000])
            marks = [random.choice([0, 1, 1, 200]) for _ in numbers]
            some_lost += judge_lists(session, now, losses_of, most, marks) > 0
    assert some_lost > count // 4
