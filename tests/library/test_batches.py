"""Many commands in one call, beside the second implementation, which takes them one by one."""

from __future__ import annotations

from collections import Counter
from random import Random

import pytest
import random_cases
from c_library import BAD_LENGTH, COMMANDS, NO_SUCH_ARC, Library, Refused, library_folder
from c_sessions import Step, compare, random_step, wanted_status
from oracle.session import Session, SolveReply

NETWORKS, MANY_NETWORKS, BATCHES = 400, 40_000, 4
BAD_NUMBER = 11
# What stands for a command of no kind.
NO_KIND = [0, 8, 2**32 - 1]


@pytest.fixture(scope="module")
def library() -> Library:
    return Library(library_folder())


def carry_out(wanted: Session, steps: list[Step]) -> tuple[int, list[int]]:
    """Carry the steps out up to the first that is refused. Return its status and the values."""
    values: list[int] = []
    for step in steps:
        status = BAD_NUMBER if step.word == "none" else wanted_status(wanted, step)
        if status != 0:
            return status, values
        values.append(wanted.present().value())
    return 0, values


def run_batches(library: Library, random: Random) -> Counter[str]:
    """Some batches on one network. Count how each ends."""
    state = random_cases.network(random, 8)
    if state.capacity_sum() >= 2**64 or state.source == state.sink:
        return Counter()
    bound = random.choice([0, 1, 3, 1_000_000])
    wanted = Session(state, SolveReply(), bound)
    seen: Counter[str] = Counter()
    with library.open(
        state.nodes, (state.source, state.sink), [arc[:3] for arc in state.arcs], bound
    ) as given:
        for _ in range(8):
            steps = [random_step(wanted, random) for _ in range(random.randint(0, 7))]
            if random.random() < 0.1:
                steps.insert(random.randint(0, len(steps)), Step("none"))
            rows = [
                (COMMANDS.get(step.word) or random.choice(NO_KIND), *step.numbers) for step in steps
            ]
            expected = carry_out(wanted, steps)
            assert given.run(rows, random) == expected, steps
            compare(given, wanted)
            seen[f"status {expected[0]}"] += 1
            seen["stopped on the way"] += 0 < len(expected[1]) < len(steps)
    return seen


@pytest.mark.seconds(3)
@pytest.mark.parametrize("batch", range(BATCHES))
def test_batches(library: Library, batch: int, request: pytest.FixtureRequest) -> None:
    random = Random(f"batches {request.config.getoption('--seed')} {batch}")
    networks = MANY_NETWORKS if request.config.getoption("--long") else NETWORKS
    seen: Counter[str] = Counter()
    for _ in range(networks // BATCHES):
        seen += run_batches(library, random)
    for status in 0, 2, 3, 4, 7, 8, BAD_NUMBER:
        assert seen[f"status {status}"] > 0, status
    assert seen["stopped on the way"] > 0


def test_a_batch_that_is_refused_on_the_way(library: Library) -> None:
    """What was carried out before the refused command stays."""
    solve, close, undo = COMMANDS["solve"], COMMANDS["close"], COMMANDS["undo"]
    with library.example() as session:
        rows = [(solve,), (close, 1), (solve,), (undo, 2), (close, 6), (solve,)]
        assert session.run(rows, Random(1)) == (NO_SUCH_ARC, [5, 2, 2, 5])
        assert (session.number("past"), session.number("future")) == (1, 2)


@pytest.mark.parametrize("which", range(5))
@pytest.mark.parametrize("length", [0, 1, 3])
def test_an_array_of_another_length(library: Library, which: int, length: int) -> None:
    """Nothing is done, also if a command would be refused."""
    lengths = [2] * 5
    lengths[which] = length
    with library.example() as session:
        before = session.state()
        with pytest.raises(Refused) as refused:
            session.run([(COMMANDS["solve"],), (0,)], Random(1), lengths)
        assert refused.value.status == BAD_LENGTH
        assert session.state() == before
