"""Tests the planner's desk: steps, names and sweeps."""

from __future__ import annotations

import random
import subprocess
from collections.abc import Callable
from pathlib import Path
from typing import cast

import pytest
from desk_shared import PIPES, ROOT, Pipe, desk_of, greatest, run, swept, water, water_problem
from dmf.desk.analysis import trials_of
from dmf.desk.plan.arguments import capped
from dmf.desk.plan.shell import Shell
from dmf.desk.steps import DeskFault, Place
from limits import SECONDS

WATER = water_problem()
# With the Mill's two nodes as comments tell them.
LIMITED = (
    b"c inner node 10 half 5\nc inner arc 15 limit 5\n"
    + subprocess.run(
        [
            ROOT / "tools/dmf-problem",
            "--node-limits",
            "examples/water/pumps.csv",
            "--table",
            PIPES,
            "Reservoir",
            "Harbour",
        ],
        capture_output=True,
        check=True,
        timeout=SECONDS,
        cwd=ROOT,
    ).stdout
)
ALIKE = b"""c node 1 A
c node 2 B-C
c node 3 D
c node 4 A-B
c node 5 C
c arc 4 A-D
p max 5 5
n 1 s
n 3 t
a 1 2 3
a 4 5 4
a 1 3 1
a 2 3 9
a 1 3 2
"""


def refused(make: Callable[[], object]) -> str:
    """Why the desk refuses a call, or nothing where it does not."""
    try:
        made = make()
    except DeskFault as fault:
        return str(fault)
    return f"not refused: {made}"


def test_sweep() -> None:
    desk = desk_of(WATER)
    wanted = swept()
    found = {
        desk.network.names.arc_name(it.arc): (it.closed, it.doubled)
        for it in trials_of(desk, range(1, 15))
    }
    assert found == wanted, f"a sweep: {found}, and not {wanted}"
    assert (desk.value, desk.at, list(desk.cut_arcs())) == (
        165,
        1,
        [3, 9, 14],
    ), f"after a sweep: {desk.value}, {desk.cut_arcs()}"
    desk.end()
    idle = desk_of(WATER, with_solve=False)
    told = refused(lambda: list(trials_of(idle, [1])))
    assert "solve" in told, f"a sweep before a solve: {told}"
    idle.end()


def test_random() -> None:
    """Random steps, undone and made again, give what all sets of places give of the pipes that are
    open then."""
    chance = random.Random(35)
    desk = desk_of(WATER)
    pipes = water()
    names = sorted({place for pipe in pipes for place in pipe[:2]})
    seen = [165]

    def opened() -> list[int]:
        return [number for number, line in enumerate(desk.network.lines, 1) if not line.is_closed]

    def value() -> int:
        node = desk.network.names.node
        lines = (desk.network.lines[number - 1] for number in opened())
        return greatest(
            [
                pipes[0]._replace(tail=node(it.tail), head=node(it.head), capacity=int(it.capacity))
                for it in lines
            ]
        )

    acts: list[Callable[[], object]] = [
        lambda: desk.close(chance.choice(opened())),
        lambda: desk.cap(chance.choice(opened()), chance.randrange(120)),
        lambda: desk.double(chance.choice(opened())),
        lambda: desk.add(
            desk.network.names.place(chance.choice(names)),
            desk.network.names.place(chance.choice(names)),
            chance.randrange(80),
        ),
        lambda: desk.shut(desk.network.names.place(chance.choice(names[1:]))),
        lambda: desk.open_place(desk.network.names.place(chance.choice(names))),
        lambda: desk.open(
            chance.choice(
                [
                    n
                    for n, it in enumerate(desk.network.lines, 1)
                    if it.is_closed and not it.is_replaced
                ]
                or [1]
            )
        ),
        lambda: list(trials_of(desk, opened()[:2])),
        lambda: desk.go_to(chance.randrange(1, len(desk.steps) + 1)),
    ]
    for turn in range(150):
        place = desk.at
        try:
            chance.choice(acts)()
        except (DeskFault, IndexError):
            assert desk.at == place, f"turn {turn}: a refused step was made"
            continue
        wanted = value()
        seen.append(wanted)
        assert (
            desk.value == wanted
        ), f"turn {turn}, {desk.steps[desk.at - 1].text}: {desk.value}, and not {wanted}"
    assert len(set(seen)) >= 10, f"the random steps reach {len(set(seen))} values alone"
    steps, at, lines = (
        [(it.text, it.value) for it in desk.steps[: desk.at]],
        desk.at,
        list(desk.network.lines),
    )
    desk.begin_again()
    again = [(it.text, it.value) for it in desk.steps[: desk.at]]
    assert (again, desk.at, [*desk.network.lines]) == (
        steps,
        at,
        lines,
    ), f"begun again: {again}, and not {steps}"
    desk.go_to(1)
    assert (
        desk.value,
        len(desk.network.lines),
        any(it.is_closed for it in desk.network.lines),
    ) == (165, 14, False)
    desk.end()


@pytest.mark.parametrize("seed", range(3))
def test_random_decimals(seed: int) -> None:
    """The same by commands, with amounts of up to five decimals and shares of amounts: whatever
    scale they take, each step has the value of all sets of places, and what is only tried, or
    undone, leaves the others as they were."""
    chance = random.Random(seed)
    plan = Shell(desk_of(WATER), is_typed=False, write=lambda _: None)
    desk = plan.desk

    def amount() -> str:
        return f"{chance.randrange(90)}.{chance.randrange(10 ** chance.choice((1, 2, 4, 5)))}"

    def value() -> int:
        node = desk.network.names.node
        lines = (line for line in desk.network.lines if not line.is_closed)
        return greatest(
            [Pipe(node(it.tail), node(it.head), cast(int, it.capacity), "") for it in lines]
        )

    for turn in range(50):
        number = chance.choice(
            [number for number, line in enumerate(desk.network.lines, 1) if not line.is_closed]
        )
        steps, lines = [(it.text, it.value) for it in desk.steps], list(desk.network.lines)
        line = chance.choice(
            (
                f"cap #{number} {amount()}",
                f"cap #{number} {chance.choice('+-')}{amount()} %",
                f"what-if cap #{number} +{amount()}",
                "undo",
                "undo 2",
                "redo 2",
                "shut Mill",
                "open",
                "try",
                "keep",
                "drop",
            )
        )
        plan.onecmd(line)
        assert desk.value == value(), f"turn {turn}, {line}: {desk.value}, and not {value()}"
        if line.startswith("what-if"):
            assert ([(it.text, it.value) for it in desk.steps], list(desk.network.lines)) == (
                steps,
                lines,
            ), line
    assert desk.network.measure.scale >= 1000
    desk.end()


def test_sweep_past_64_bits(tmp_path: Path) -> None:
    """An arc of 2^63 that is closed and opened again, and a sweep: whatever comes of that, the
    steps stand."""
    problem = tmp_path / "large.max"
    problem.write_text(f"c arc 1 k\np max 2 2\nn 1 s\nn 2 t\na 1 2 {2**63}\na 1 2 1\n")
    ran = run("dmf-plan", str(problem), typed="close k\nopen k\nsolve\nwhat-if each arc\nsteps\n")
    assert "Traceback" not in ran.stderr and ran.returncode in (0, 1), ran
    assert [line.split()[0] for line in ran.stdout.splitlines()[-4:]] == ["0", "1", "2", "3"], ran


def test_names() -> None:
    desk = desk_of(ALIKE)
    for text, wanted in {
        "A-B-C": "'A-B-C' may be #1 (A -> B-C), #2 (A-B -> C); choose one by its number",
        "A-D": "'A-D' may be #3 (A -> D), #4 (A-D, B-C -> D), #5 (A -> D); "
        "choose one by its number",
        "D-A": "no arc leads from 'D' to 'A'",
        "4": "no arc is called '4'; is it #4, A-D, B-C -> D?",
        "#9": "no arc is called '#9'",
        # Of arcs #4 alone has a name.
        "a-d": "no arc is called 'a-d'; is it 'A-D'?",
    }.items():
        told = refused(lambda: desk.network.the_arc(text))  # noqa: B023
        assert told == wanted, f"the arc {text}: {told}"
    for words in ["A-D", "12"], ["A-D", "+10", "%"]:
        told = refused(lambda: capped(desk, words))  # noqa: B023
        assert told.startswith("'A-D' may be #3"), f"cap {words}: {told}"
    assert desk.network.the_arc("A -> B-C") == 1
    assert desk.network.the_arc("#2") == 2
    told = refused(lambda: desk.network.names.place("b-c"))
    assert told == "no place is called 'b-c'; is it 'B-C'?", f"a place of another case: {told}"
    desk.end()
    mill = desk_of(LIMITED)
    place = mill.network.names.place("Mill")
    assert place == Place(5, 10), f"a place with a limit: {place}"
    mill.add(mill.network.names.place("Reservoir"), place, 7)
    mill.add(place, mill.network.names.place("Station"), 25)
    ends = [tuple(it[:2]) for it in mill.network.lines[-2:]]
    assert ends == [(1, 5), (10, 8)], f"arcs at a place with a limit: {ends}"
    mill.shut(place)
    is_open = [
        line
        for line in mill.network.lines
        if not line.is_closed and {5, 10} & {line.tail, line.head}
    ]
    assert not is_open, f"open at a place that is shut: {is_open}"
    mill.open_place(place)
    assert mill.steps[-1].value == mill.steps[-3].value, f"opened again: {mill.value}"
    mill.end()
