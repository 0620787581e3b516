"""The arcs of a desk beside a list of them, and how names are shown, typed and compared, together
and one by one."""

from __future__ import annotations

from array import array
from decimal import Decimal
from random import Random

import pytest
from dmf.columns import Columns
from dmf.desk.arc_lines import ArcLines
from dmf.desk.steps import DeskArc
from dmf.quantity import Measure
from dmf.text.lexical import AMOUNTS, NODES, display
from dmf.text.spelling import cleaned, folded, folded_names, shown_names, typed_names


def judge(lines: ArcLines, model: list[DeskArc], names: list[str | None]) -> None:
    count = len(model)
    assert len(lines) == count and [*lines] == model
    assert [lines[place] for place in range(-count, count)] == [*model, *model]
    assert lines[1:-1] == model[1:-1]
    assert [*lines.ends()] == [it[:2] for it in model]
    assert lines.of([count, 1, count]) == [model[-1], model[0], model[-1]]
    numbers = range(1, count + 1)
    assert [lines.ends_and_key(number) for number in numbers] == [
        (*it[:2], name) for it, name in zip(model, names)
    ]
    assert lines.given_names == {number: f"pipe {number}" for number in (2, 3, 7)}
    present = [(number, it) for number, it in enumerate(model, 1) if not it.is_replaced]
    assert lines.present(numbers) == [number for number, _ in present]
    for tail, head in {it[:2] for it in model} | {(1, 1), (1, 10)}:
        found = [number for number, it in present if it[:2] == (tail, head)]
        assert lines.between(tail, head) == found
    for nodes in {3}, {1, 9}:
        first = enumerate(model[:12], 1)
        at_nodes = [number for number, it in first if not nodes.isdisjoint(it[:2])]
        assert [*lines.given_at(nodes)] == at_nodes
    for place in count, -count - 1:
        with pytest.raises(IndexError):
            lines[place]


@pytest.mark.parametrize("scale", [1, 100])
def test_arcs_beside_a_list(scale: int) -> None:
    random = Random(f"arcs {scale}")
    measure = Measure(Decimal(scale))
    ends = [(random.randint(1, 9), random.randint(1, 9)) for _ in range(12)]
    capacities = array(AMOUNTS, [random.randrange(1000) for _ in ends])
    named = {number: f"pipe {number}" for number in (2, 3, 7)}
    columns: Columns[int | str] = Columns(
        {number: number for number in range(1, 10)},
        array(NODES, [tail for tail, _ in ends]),
        array(NODES, [head for _, head in ends]),
        lambda: {**named},
    )
    lines = ArcLines(columns, capacities, measure)
    model = [DeskArc(*them, measure.quantity(it)) for them, it in zip(ends, capacities)]
    names: list[str | None] = [named.get(number) for number in range(1, 13)]
    model.append(DeskArc(1, 10, 5))
    names.append("new")
    lines.append(model[-1], names[-1])
    # The network's own capacities change.
    capacities[0] += 1
    for _ in range(300):
        kind = random.choice(["set", "set", "add", "drop"])
        if kind == "set":
            place = random.randrange(len(model))
            line = model[place]._replace(
                is_closed=random.random() < 0.5, is_replaced=random.random() < 0.2
            )
            lines[place] = model[place] = line
        elif kind == "add":
            model.append(DeskArc(random.randint(1, 9), random.randint(1, 9), random.randrange(99)))
            names.append(random.choice([None, f"new {len(model)}"]))
            lines.append(model[-1], names[-1])
        elif len(model) > 13:
            # One that was added is left, without which none is replaced.
            lines.pop()
            del model[-1], names[-1]
        judge(lines, model, names)


def test_names_together() -> None:
    random = Random("names")
    signs = ["a", "b", "B", " ", "  ", "\t", "é", "\x1b", "\\", "\u200f", "\ufeff", "-", "\n"]
    for plain in (True, False) * 200:
        pool = signs[:3] if plain else signs
        given = ["".join(random.choices(pool, k=random.randrange(4))) for _ in range(12)]
        given = given[: random.choice([0, 1, 2, 12])]
        assert [*typed_names(given)] == [cleaned(display(name)) for name in given]
        assert [*shown_names(given)] == [*map(display, given)]
        assert folded_names(given) == [*map(folded, given)]
