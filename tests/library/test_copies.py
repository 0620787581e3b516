"""Copies of sessions: each has the states of the first, and shares nothing with it."""

from __future__ import annotations

import copy
from collections import Counter
from random import Random

import pytest
import random_cases
from c_library import CSession, Library, library_folder
from c_sessions import compare, random_step, status_of, wanted_status
from library.test_library_sessions import compare_texts_and_side
from oracle.session import Session, SolveReply

NETWORKS, MANY_NETWORKS, BATCHES = 200, 20_000, 4
# The most sessions of one network that are open at once, and the steps on them.
MOST_SESSIONS, STEPS = 4, 60


@pytest.fixture(scope="module")
def library() -> Library:
    return Library(library_folder())


def compare_all_states(given: CSession, wanted: Session) -> None:
    """Step back to the oldest state and forward to the newest, and compare each on the way."""
    place = wanted.place
    for word, last in ("undo", 0), ("redo", len(wanted.states) - 1):
        while wanted.place != last:
            given.step(word, 1)
            wanted.move(word, 1)
            compare(given, wanted)
            compare_texts_and_side(given, wanted.present())
    given.step("undo", wanted.place - place)
    wanted.move("undo", wanted.place - place)


def run_copies(library: Library, random: Random) -> Counter[str]:
    """Step on a session and its copies in turn, each beside whole states of its own. Count the
    steps."""
    state = random_cases.network(random, 8)
    if state.capacity_sum() >= 2**64 or state.source == state.sink:
        return Counter()
    bound = random.choice([0, 1, 3, 1_000_000])
    first = library.open(
        state.nodes, (state.source, state.sink), [arc[:3] for arc in state.arcs], bound
    )
    pairs = [(first, Session(state, SolveReply(), bound))]
    seen: Counter[str] = Counter()
    for _ in range(STEPS):
        given, wanted = random.choice(pairs)
        step = random_step(wanted, random)
        assert status_of(given, step) == wanted_status(wanted, step), step
        seen[step.word] += 1
        for each in pairs:
            compare(*each)
        if random.random() < 0.2:
            before = given.state()
            pairs.append((given.copy(), copy.deepcopy(wanted)))
            compare(*pairs[-1])
            assert given.state() == before
            seen["copy with a future"] += wanted.place + 1 < len(wanted.states)
            seen["copy with a past"] += wanted.place > 0
            if len(pairs) > MOST_SESSIONS:
                pairs.pop(random.randrange(len(pairs)))[0].__exit__()
    for each in pairs:
        compare_all_states(*each)
        each[0].__exit__()
    return seen


@pytest.mark.seconds(3)
@pytest.mark.parametrize("batch", range(BATCHES))
def test_copies(library: Library, batch: int, request: pytest.FixtureRequest) -> None:
    random = Random(f"copies {request.config.getoption('--seed')} {batch}")
    networks = MANY_NETWORKS if request.config.getoption("--long") else NETWORKS
    seen: Counter[str] = Counter()
    for _ in range(networks // BATCHES):
        seen += run_copies(library, random)
    for word in "solve", "cap", "close", "shut", "add", "undo", "redo":
        assert seen[word] > 0, word
    assert seen["copy with a past"] > 0 and seen["copy with a future"] > 0


def test_the_first_session_is_freed_before_its_copy(library: Library) -> None:
    with library.example() as first:
        first.step("solve")
        first.step("close", 4)
        first.step("undo", 1)
        second = first.copy()
    with second:
        assert (second.number("value"), second.array("flows")) == (5, (3, 2, 1, 2, 3))
        second.step("redo", 1)
        assert second.array("flows") == (1, 2, 1, 0, 3)
        second.step("undo", 2)
        assert (second.number("past"), second.number("value")) == (0, 0)
