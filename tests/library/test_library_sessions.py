"""Sessions of the C library beside the second implementation, which keeps whole states."""

from __future__ import annotations

from collections import Counter
from collections.abc import Callable, Sequence
from pathlib import Path
from random import Random

import pytest
import random_cases
from c_library import CSession, Library, Refused, library_folder
from c_sessions import CODES, Step, compare, moved_rows, random_step, status_of, wanted_status
from oracle.network import State, is_greatest, smallest_side
from oracle.problem import problem_text
from oracle.session import Session, SolveReply
from oracle.solution import solution_text

STEPS, BATCHES = 20_000, 20
# Sessions whose solves begin near a cut, in the gate and by --long, and the steps of each.
NEAR, MANY_NEAR, NEAR_STEPS, NEAR_BATCHES = 400, 200_000, 30, 4


@pytest.fixture(scope="module")
def library() -> Library:
    return Library(library_folder())


def step_near_a_cut(session: Session, random: Random) -> Step:
    """Mostly a change of an arc that is full, or of one that carries nothing: some of these in a
    row, and then a solve. So many links lead out of the side that the solve before closed, from
    several nodes and to several, and some paths come back into it.
    """
    state = session.present()
    arcs = [
        number
        for number, (arc, flow) in enumerate(zip(state.arcs, state.flows), 1)
        if not arc.is_closed and flow in (0, arc.cap)
    ]
    arc = random.choice(arcs or [1])
    flow, capacity = (state.flows[arc - 1], state.arcs[arc - 1].cap) if state.arcs else (0, 0)
    higher = min(capacity + random.randint(1, 9), 2**64 - 1 - state.capacity_sum() + capacity)
    steps = [
        (8, Step("solve")),
        (8, Step("cap", (arc, higher))),
        (3, Step("cap", (arc, flow // 2))),
        (4, Step("close", (arc,))),
        (
            3,
            Step(
                "add",
                (
                    random.randint(1, state.nodes),
                    random.randint(1, state.nodes),
                    random.randint(0, 9),
                ),
            ),
        ),
        (1, Step("shut", (random.randint(1, state.nodes),))),
        (3, Step("undo", (random.randint(1, 4),))),
        (
            8 if session.place + 1 < len(session.states) else 1,
            Step("redo", (random.randint(1, 2),)),
        ),
    ]
    return random.choices([step for _, step in steps], [weight for weight, _ in steps])[0]


def compare_what_moved(given: CSession, wanted: Session, lengths: Sequence[int]) -> None:
    """Compare the arcs whose flow differs between the state before the present one and that one."""
    moved = moved_rows(wanted)
    if moved is None:
        with pytest.raises(Refused) as refused:
            given.moved(lengths)
        assert refused.value.status == CODES["nothing to undo"]
        return
    count, columns = given.moved(lengths)
    assert count == len(moved)
    for part, (column, length) in enumerate(zip(columns, lengths)):
        assert column == tuple(row[part] for row in moved[:length])


def compare_texts_and_side(given: CSession, state: State) -> None:
    assert given.array("capacities") == tuple(arc.cap for arc in state.arcs)
    compare_a_range(given, state)
    assert given.text("problem") == problem_text(state)
    assert given.text("solution") == solution_text(state)
    if is_greatest(state):
        assert given.side() == sorted(smallest_side(state)[0])
        given.check(state.flows)
        return
    with pytest.raises(Refused) as of_side:
        given.side()
    with pytest.raises(Refused) as of_check:
        given.check(state.flows)
    assert of_side.value.status == of_check.value.status == 9


def compare_a_range(given: CSession, state: State) -> None:
    """Compare the middle half of the arcs, whose bounds vary with their number."""
    rows = [
        (arc.tail, arc.head, arc.cap, flow, int(arc.is_closed))
        for arc, flow in zip(state.arcs, state.flows)
    ]
    begin, count = len(rows) // 4, len(rows) // 2
    columns = given.arc_range(begin + 1, count, [count] * 5)
    assert list(zip(*columns)) == rows[begin : begin + count]


def run_session(
    library: Library,
    random: Random,
    steps: int,
    next_step: Callable[[Session, Random], Step] = random_step,
    most_nodes: int = 10,
) -> Counter[str]:
    """So many steps on one network, each compared. Counts the steps that are taken and those that
    are refused."""
    state = random_cases.network(random, most_nodes)
    if state.capacity_sum() >= 2**64 or state.source == state.sink:
        return Counter()
    bound = random.choice([0, 1, 3, 1_000_000])
    wanted = Session(state, SolveReply(), bound)
    seen: Counter[str] = Counter()
    with library.open(
        state.nodes, (state.source, state.sink), [arc[:3] for arc in state.arcs], bound
    ) as given:
        for at in range(steps):
            step = next_step(wanted, random)
            status = wanted_status(wanted, step)
            assert status_of(given, step) == status, step
            compare(given, wanted)
            lengths = [random.choice([0, 1, 3, len(wanted.present().arcs)]) for _ in range(3)]
            compare_what_moved(given, wanted, lengths)
            seen[f"{step.word} {status}"] += 1
            if at % 10 == 0:
                compare_texts_and_side(given, wanted.present())
    return seen


@pytest.mark.seconds(3)
@pytest.mark.parametrize("batch", range(BATCHES))
def test_random_sessions(library: Library, batch: int, request: pytest.FixtureRequest) -> None:
    random = Random(f"library {request.config.getoption('--seed')} {batch}")
    seen: Counter[str] = Counter()
    while sum(seen.values()) < STEPS // BATCHES:
        seen += run_session(library, random, 50)
    for kind in (
        "solve 0",
        "cap 0",
        "cap 3",
        "close 0",
        "close 4",
        "shut 0",
        "shut 2",
        "add 0",
        "add 2",
        "undo 0",
        "undo 7",
        "redo 0",
        "redo 8",
    ):
        assert seen[kind] > 0, kind


@pytest.mark.seconds(3)
@pytest.mark.parametrize("batch", range(NEAR_BATCHES))
def test_solves_near_a_cut(library: Library, batch: int, request: pytest.FixtureRequest) -> None:
    random = Random(f"near {request.config.getoption('--seed')} {batch}")
    sessions = (MANY_NEAR if request.config.getoption("--long") else NEAR) // NEAR_BATCHES
    seen: Counter[str] = Counter()
    for _ in range(sessions):
        seen += run_session(
            library, random, NEAR_STEPS, step_near_a_cut, random.choice([6, 10, 14, 20])
        )
    for kind in ("solve 0", "cap 0", "close 0", "shut 0", "add 0", "undo 0", "redo 0"):
        assert seen[kind] > 0, kind


def test_the_first_bad_arc(library: Library) -> None:
    arcs = [(1, 2, 5), (2, 3, 5), (3, 4, 5), (0, 1, 5)]
    cases: list[tuple[int, tuple[int, int], list[tuple[int, int, int]], int, int, int]] = [
        (3, (1, 3), arcs, 9, 2, 2),
        (4, (1, 4), arcs, 9, 2, 3),
        (4, (1, 4), [(1, 2, 2**64 - 1), (2, 4, 1)], 9, 6, 1),
        (1, (1, 1), [], 9, 11, 0),
        (4, (2, 2), [], 9, 11, 0),
        (4, (0, 2), [], 9, 11, 0),
        (4, (1, 5), [], 9, 11, 0),
        (2**24 + 1, (1, 2), [], 9, 11, 0),
        (4, (1, 4), [], 1_000_001, 11, 0),
    ]
    for nodes, ends, some, past, status, place in cases:
        with pytest.raises(Refused) as told:
            library.open(nodes, ends, some, past)
        assert (told.value.status, told.value.place) == (status, place)


def test_a_text(library: Library) -> None:
    text = Path("examples/a.max").read_bytes()
    with library.read(text) as session:
        session.step("solve")
        assert (
            session.number("value"),
            session.number("nodes"),
            session.number("source"),
            session.number("sink"),
        ) == (5, 4, 1, 4)
        assert session.array("flows") == (3, 2, 1, 2, 3)
    with pytest.raises(Refused) as told:
        library.read(text.replace(b"a 2 3 5", b"a 2 9 5"))
    # No such node, on line 6.
    assert (told.value.status, told.value.place) == (12, 6_009)
    with pytest.raises(Refused) as told:
        library.read(text, 1_000_001)
    assert told.value.status == 11


def test_flows_that_are_checked(library: Library) -> None:
    with library.open(
        4, (1, 4), [(1, 2, 3), (1, 3, 2), (2, 3, 5), (2, 4, 2), (3, 4, 3)]
    ) as session:
        for flows, status, place in [
            ((3, 2, 1, 2, 3), 0, 0),
            ((4, 2, 2, 2, 3), 13, 1),
            ((3, 2, 1, 1, 3), 14, 2),
            ((0, 0, 0, 0, 0), 9, 0),
            ((0,) * 4, 10, 0),
        ]:
            if status == 0:
                session.check(flows)
                continue
            with pytest.raises(Refused) as told:
                session.check(flows)
            assert (told.value.status, told.value.place) == (status, place)
    with library.open(3, (1, 3), [(2, 1, 5), (3, 2, 5)]) as session, pytest.raises(Refused) as told:
        session.check((4, 4))
    assert told.value.status == 15
