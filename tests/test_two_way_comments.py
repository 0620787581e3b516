"""The pairs of arcs that comments of a problem call one pipe, and which of them are one."""

from __future__ import annotations

from random import Random

import pytest
from dmf.text.both_ways import TwoWayArcs, in_comments, of_pairs, partners


@pytest.mark.parametrize("seed", range(20))
def test_comments(seed: int) -> None:
    """Pairs are read as they were written, in runs or alone."""
    random = Random(f"comments {seed}")
    numbers = list(range(1, 41))
    if seed % 2:
        random.shuffle(numbers)
    pairs = list(zip(numbers[::2], numbers[1::2]))[: random.randint(0, 20)]
    said = of_pairs(pairs)
    text = "".join(f"{line}\n" for line in said.comments())
    assert list(in_comments(text).pairs()) == list(said.pairs()) == pairs
    assert seed % 2 or len(said.runs) <= 1
    most = random.randint(0, 40)
    assert list(said.within(most).pairs()) == [pair for pair in pairs if max(pair) <= most]
    kept = random.sample(range(1, 41), 25)
    assert {*said.among(kept).pairs()} == {
        (kept.index(one) + 1, kept.index(other) + 1)
        for one, other in pairs
        if one in kept and other in kept
    }


@pytest.mark.parametrize(
    "text",
    [
        "c both ways 1 1\n",
        "c both ways 1 to 3\n",
        "c both ways 0 1\n",
        "c both ways 2\n",
        "c both ways",
    ],
)
def test_no_pairs(text: str) -> None:
    assert in_comments(text) == TwoWayArcs()


def test_what_makes_a_pair() -> None:
    """Two arcs are one pipe only if they join the same places in opposite directions and neither is
    part of another pipe."""
    tails, heads = [1, 2, 1, 3, 2], [2, 1, 3, 2, 1]

    def found(*pairs: tuple[int, int], inner: tuple[int, ...] = ()) -> list[int]:
        return [*partners(of_pairs(pairs), tails, heads, inner, int)]

    assert found((1, 2)) == [0, 2, 1, 0, 0, 0]
    assert found((1, 2), (1, 5)) == [0, 2, 1, 0, 0, 0]
    assert found((1, 2), (3, 4)) == [0, 2, 1, 0, 0, 0]
    assert found((1, 5)) == [0, 5, 0, 0, 0, 1]
    assert found((1, 2), inner=(2,)) == found((1, 9)) == [0] * 6
    assert found() == []
