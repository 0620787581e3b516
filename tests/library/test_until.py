"""Questions that another thread ends: the calls of dmf.h whose names end with _until. What they
must answer is what the second implementation finds, as without a stop; tests/library/test_stop.py
is about solves."""

from __future__ import annotations

import time
from collections import Counter
from collections.abc import Callable, Iterator, Sequence
from random import Random
from threading import Timer, get_ident
from typing import NamedTuple

import pytest
import random_cases
from c_library import (
    BAD_LENGTH,
    NO_SUCH_ARC,
    NO_SUCH_NODE,
    NOT_GREATEST,
    CSession,
    Library,
    library_folder,
)
from c_losses import changed, present
from c_questions import Refusal, answer_of, gains, losses, pairs, worst
from c_stops import QUESTIONS, STOPPED, Stop, Stoppable
from make_network import problem_of

FEW, MANY, BATCHES = 400, 40_000, 4


@pytest.fixture(scope="module")
def library() -> Library:
    return Library(library_folder())


@pytest.fixture
def stop(library: Library) -> Iterator[Stop]:
    made = Stop(library)
    yield made
    made.set("free")


@pytest.fixture
def shared(library: Library, stop: Stop) -> Iterator[Stop]:
    made = Stop(library, stop)
    yield made
    made.set("free")


@pytest.mark.seconds(3)
@pytest.mark.parametrize("batch", range(BATCHES))
def test_random_networks(
    library: Library, stop: Stop, shared: Stop, batch: int, request: pytest.FixtureRequest
) -> None:
    """What is written is written as without a stop. A flag that is raised ends each call that has
    something to find, and nothing is written then; a fault is answered whether or not it is."""
    random = Random(f"until {request.config.getoption('--seed')} {batch}")
    count = (MANY if request.config.getoption("--long") else FEW) // BATCHES
    stopped: Counter[str] = Counter()
    for _ in range(count):
        wanted = random_cases.fitting(random_cases.network(random, 7))
        if wanted.source == wanted.sink:
            continue
        ends = wanted.source, wanted.sink
        with library.open(wanted.nodes, ends, [arc[:3] for arc in wanted.arcs]) as session:
            changed(session, random, wanted)
            if random.random() < 0.1:
                session.step("add", *ends, 3)
            now, before, it = present(session, wanted), session.state(), Stoppable(session, stop)
            for kind in losses, pairs, worst, gains:
                asked = kind(now, random)
                assert answer_of(lambda: asked.ask(it)) == asked.answer, asked
                shared.set("raise")
                ended = answer_of(lambda: asked.ask(it))
                shared.set("clear")
                answers = [asked.answer, Refusal(STOPPED)]
                if asked.answer:
                    # With nothing to find, a raised flag may go unseen.
                    answers = answers[not isinstance(asked.answer, Refusal) :][:1]
                assert ended in answers, asked
                stopped[asked.call] += ended == Refusal(STOPPED)
                assert answer_of(lambda: asked.ask(it)) == asked.answer, asked
            assert session.state() == before
    assert {*stopped} == QUESTIONS and all(stopped.values())


Ask = Callable[[CSession], object]
FAULTS: list[tuple[Ask, int]] = [
    (lambda it: it.losses("arc", [1, 2], 1), BAD_LENGTH),
    (lambda it: it.losses("node", [1, 2], 3), BAD_LENGTH),
    (lambda it: it.pair_losses([1, 2], [1], 2), BAD_LENGTH),
    (lambda it: it.worst("arcs", [2, 1]), BAD_LENGTH),
    (lambda it: it.worst("arcs", [2, 2], [1] * 4), BAD_LENGTH),
    (lambda it: it.worst("nodes", [1, 2]), BAD_LENGTH),
    (lambda it: it.worst("pairs", [2, 2, 1]), BAD_LENGTH),
    (lambda it: it.second_gains([1, 2], 1), BAD_LENGTH),
    (lambda it: it.new_arc_gains([1, 2], [3, 4], [5], 2), BAD_LENGTH),
    (lambda it: it.losses("arc", [1, 6], 2), NO_SUCH_ARC),
    (lambda it: it.losses("node", [5, 1], 2), NO_SUCH_NODE),
    (lambda it: it.pair_losses([1, 0], [1, 1], 2), NO_SUCH_ARC),
    (lambda it: it.second_gains([0], 1), NO_SUCH_ARC),
    (lambda it: it.new_arc_gains([1], [5], [5], 1), NO_SUCH_NODE),
]
# Each of the calls, with something to find.
ASKED: dict[str, Ask] = {
    "arc_losses": lambda it: it.losses("arc", [1, 2], 2),
    "node_losses": lambda it: it.losses("node", [2], 1),
    "pair_losses": lambda it: it.pair_losses([1], [2], 1),
    "worst_arcs": lambda it: it.worst("arcs", [2, 2]),
    "worst_nodes": lambda it: it.worst("nodes", [2, 2]),
    "worst_pairs": lambda it: it.worst("pairs", [2, 2, 2]),
    "second_gains": lambda it: it.second_gains([5], 1),
    "new_arc_gains": lambda it: it.new_arc_gains([1], [4], [7], 1),
}


@pytest.mark.parametrize("is_raised", [False, True])
def test_faults(library: Library, stop: Stop, is_raised: bool) -> None:
    """They are answered whether or not the flag is raised, before the flow is judged."""
    if is_raised:
        stop.set("raise")
    with library.example() as session:
        it = Stoppable(session, stop)
        for _ in range(2):
            for ask, status in FAULTS:
                assert answer_of(lambda: ask(it)) == Refusal(status)
            if not session.number("past"):
                for ask in ASKED.values():
                    assert answer_of(lambda: ask(it)) == Refusal(NOT_GREATEST)
                session.step("solve")


def test_nothing_to_find(library: Library, stop: Stop) -> None:
    """A raised flag may go unseen."""
    stop.set("raise")
    with library.example() as session:
        session.step("solve")
        it = Stoppable(session, stop)
        nothing: list[tuple[Ask, object]] = [
            (lambda it: it.losses("arc", [], 0), ()),
            (lambda it: it.pair_losses([], [], 0), ()),
            (lambda it: it.worst("arcs", [0, 0]), []),
            (lambda it: it.worst("pairs", [2, 2, 2], [0, 0, 1, 0, 0]), []),
            (lambda it: it.new_arc_gains([], [], [], 0), ()),
        ]
        for ask, answer in nothing:
            assert answer_of(lambda: ask(it)) in (answer, Refusal(STOPPED))


def test_the_flag_stays_raised_until_it_is_taken_down(
    library: Library, stop: Stop, shared: Stop
) -> None:
    assert {*ASKED} == {*LONG} == QUESTIONS
    with library.example() as session:
        session.step("cap", 5, 1)
        session.step("solve")
        it, state = Stoppable(session, stop), session.state()
        wanted = [ask(session) for ask in ASKED.values()]
        for _ in range(2):
            shared.set("raise")
            for _ in range(2):
                for ask in ASKED.values():
                    assert answer_of(lambda: ask(it)) == Refusal(STOPPED)
            assert stop.solve(session) == STOPPED
            shared.set("clear")
            assert [ask(it) for ask in ASKED.values()] == wanted
            assert session.state() == state


class Long(NamedTuple):
    """A solved network of 67,350 arcs, in which each of these questions takes seconds: the arcs and
    the nodes, arcs of the minimum cut, again and again, and new arcs that lead over it."""

    session: CSession
    arcs: Sequence[int]
    nodes: Sequence[int]
    cut: Sequence[int]
    new: tuple[Sequence[int], Sequence[int]]


@pytest.fixture(scope="module")
def long(library: Library) -> Iterator[Long]:
    with library.read(problem_of(150, 150, 3, 1_000_000, 1990).encode()) as session:
        session.step("solve")
        arcs, nodes = (range(1, session.number(name) + 1) for name in ("arcs", "nodes"))
        tails, heads, *_ = session.arc_range(1, len(arcs), [len(arcs), len(arcs), 0, 0, 0])
        side = {*session.side()}
        ends = list(zip(arcs, tails, heads))
        cut = [arc for arc, tail, head in ends if tail in side and head not in side]
        outside = [node for node in nodes if node not in side]
        new = [*sorted(side)] * 9, outside * 9
        count = min(map(len, new))
        yield Long(session, arcs, nodes, cut * 100, (new[0][:count], new[1][:count]))


LONG: dict[str, Callable[[CSession, Long], object]] = {
    "arc_losses": lambda it, of: it.losses("arc", of.arcs, len(of.arcs)),
    "node_losses": lambda it, of: it.losses("node", of.nodes, len(of.nodes)),
    "pair_losses": lambda it, of: it.pair_losses(of.arcs, of.arcs[::-1], len(of.arcs)),
    "worst_arcs": lambda it, of: it.worst("arcs", [len(of.arcs)] * 2),
    "worst_nodes": lambda it, of: it.worst("nodes", [len(of.nodes)] * 2),
    "worst_pairs": lambda it, of: it.worst("pairs", [1_000] * 3),
    "second_gains": lambda it, of: it.second_gains(of.cut, len(of.cut)),
    "new_arc_gains": lambda it, of: it.new_arc_gains(*of.new, [9] * len(of.new[0]), len(of.new[0])),
}


@pytest.mark.seconds(3)
@pytest.mark.parametrize("call", LONG)
def test_a_long_call_is_ended(
    library: Library, stop: Stop, shared: Stop, long: Long, call: str
) -> None:
    """Within half a second of processor time after the flag is raised. The session is as it was,
    and its next answers are those of the plain call."""
    it, before = Stoppable(long.session, stop), long.session.state()
    raised: list[float] = []
    clock = time.pthread_getcpuclockid(get_ident())

    def put_up() -> None:
        raised.append(time.clock_gettime(clock))
        shared.set("raise")

    timer = Timer(0.3, put_up)
    timer.start()
    assert answer_of(lambda: LONG[call](it, long)) == Refusal(STOPPED)
    ended = time.clock_gettime(clock)
    timer.join()
    assert ended - raised[0] < 0.5
    assert long.session.state() == before
    stop.set("clear")
    few = long._replace(
        arcs=long.arcs[:9],
        nodes=long.nodes[5:9],
        cut=long.cut[:9],
        new=(long.new[0][:9], long.new[1][:9]),
    )
    if not call.startswith("worst"):
        assert LONG[call](it, few) == LONG[call](long.session, few)
    assert it.worst("arcs", [5, 5]) == long.session.worst("arcs", [5, 5])
