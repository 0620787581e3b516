"""The fuzz target: the built program against the second implementation, on the cases of
tests/corpus and on others that small changes make of them. A case that fails is reduced, and put
into tests/cases/found.py. By hand,

    /usr/bin/python3 -m pytest --write --cases 20000 --seed 2 tests/program/test_fuzz.py

tries more cases, and puts into the corpus those that show new behaviour, reduced as far as they
show it."""

from __future__ import annotations

from collections.abc import Callable
from pathlib import Path
from random import Random

import built
import corpus
import pytest
from built import Case
from compared import compared, judge_seeded, with_arcs_left, with_later_path
from kept import Found
from reduced import reduced

# So many cases are tried in the gate, and by --long. A case is reduced in so many tries.
GATE_CASES, LONG_CASES, MOST_TRIES = 300, 500_000, 150
# Longer cases are not tried: they take long, and show little that shorter ones do not.
LONGEST = 20_000


def behaviour(case: Case) -> frozenset[object]:
    built.put_problem(case)
    return corpus.judged(case)[1]


def newly_shown(seed: str, count: int, kept: list[Case]) -> dict[Case, frozenset[object]]:
    """Tries so many cases that are made of these, and of those that show new behaviour. Gives these
    last, with what was new."""
    kept = [*kept]
    seen = frozenset[object]().union(*map(behaviour, kept))
    new: dict[Case, frozenset[object]] = {}
    for number in range(count):
        case = corpus.mutated(
            kept, f"case {number} of fuzz seed {seed}", Random(f"fuzz/{seed}/{number}")
        )
        if corpus.size(case) > LONGEST:
            continue
        built.put_problem(case)
        wanted, shown = corpus.judged(case)
        run = built.run(case)
        judge_seeded(Found(case), "", not wanted.allows(*run) and run)
        if more := shown - seen:
            seen |= more
            new[case] = more
            kept.append(case)
    return new


def reduced_to(case: Case, more: frozenset[object]) -> Case:
    """A case that still shows this behaviour."""
    return reduced(case, lambda it: more <= behaviour(it), MOST_TRIES)


@pytest.mark.seconds(2)
@pytest.mark.usefixtures("case_folder")
def test_replay() -> None:
    for case in corpus.cases():
        run, wrong = compared(case)
        judge_seeded(Found(case), "", wrong)


@pytest.mark.seconds(5)
@pytest.mark.usefixtures("case_folder")
def test_fuzz(request: pytest.FixtureRequest, writes: bool) -> None:
    count = request.config.getoption("--cases") or (
        LONG_CASES if request.config.getoption("--long") else GATE_CASES
    )
    kept = corpus.cases()
    new = newly_shown(str(request.config.getoption("--seed")), int(count), kept)
    if writes:
        kept += [reduced_to(case, more) for case, more in new.items()]
        corpus.write(corpus.least((case, behaviour(case)) for case in kept))


@pytest.mark.seconds(2)
@pytest.mark.usefixtures("case_folder")
def test_corpus() -> None:
    """The corpus is small, and each of its cases shows what those that show more do not."""
    kept = corpus.cases()
    assert 50 <= len(kept) <= corpus.MOST_FILES and sum(map(corpus.size, kept)) <= corpus.MOST_BYTES
    assert {*corpus.least((case, behaviour(case)) for case in kept)} == {*kept}


def test_write(tmp_path: Path, monkeypatch: pytest.MonkeyPatch) -> None:
    """What is written is what is read, and a case that is left out goes."""
    kept = corpus.cases()[:3]
    monkeypatch.setattr(corpus, "CORPUS", tmp_path)
    corpus.write(kept)
    corpus.write(kept[1:])
    assert sorted(it[1:] for it in corpus.cases()) == sorted(it[1:] for it in kept[1:])


@pytest.mark.usefixtures("case_folder")
def test_new_behaviour() -> None:
    """Of a corpus of one case the changes show new behaviour."""
    assert len(newly_shown("one case", 20, [min(corpus.cases(), key=corpus.size)])) > 3


@pytest.mark.seconds(2)
@pytest.mark.usefixtures("case_folder")
@pytest.mark.parametrize("put", [with_later_path, with_arcs_left])
def test_fault(monkeypatch: pytest.MonkeyPatch, put: Callable[[pytest.MonkeyPatch], None]) -> None:
    """A fault in the second implementation differs from the program on some case of the corpus."""
    put(monkeypatch)
    # Names of their own, since the outcomes of the second implementation are kept.
    assert any(
        compared(case._replace(name=f"{put.__name__} {case.name}"))[1] for case in corpus.cases()
    )
