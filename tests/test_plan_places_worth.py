"""Tests `worst places` and `worth PLACE` of tools/dmf-plan, by the library and by the program,
beside values that are found by trying all sets of places, by shutting and solving, or by hand."""

from __future__ import annotations

import json
import os
import re
from pathlib import Path
from random import Random
from typing import Any

import pytest
from desk_shared import PIPES, desk_of, greatest, run, water
from dmf.desk.steps import DeskFault
from dmf.desk.worth import losses, losses_of_places, worst, worst_places
from dmf.session.base import Part
from dmf.session.runners import program_of

ROW = re.compile("^ +([0-9.]+) +([0-9.]+)  (.*)$", re.MULTILINE)


def left_of() -> dict[str, int]:
    """What is left without each place of the story, in the order of their numbers."""
    pipes = water()
    places = dict.fromkeys(place for pipe in pipes for place in pipe[:2])
    return {place: greatest([it for it in pipes if place not in it[:2]]) for place in places}


def test_the_story() -> None:
    left = left_of()
    inner = [it for it in left if it not in ("Reservoir", "Harbour") and left[it] < 165]
    assert left["Mill"] == 110 and len(inner) == 7
    typed = "".join(f"worth {place}\n" for place in left)
    ran = run("dmf-plan", PIPES, typed=f"solve\nworst places\nworst places 2\n{typed}steps\n")
    told = [(int(closed), int(loss), name) for closed, loss, name in ROW.findall(ran.stdout)]
    wanted = [
        (left[name], 165 - left[name], name) for name in sorted(inner, key=lambda it: left[it])
    ]
    assert told == [*wanted, *wanted[:2]]
    assert "\n  and 5 more\n" in ran.stdout
    for place, closed in left.items():
        line = f"shutting {place}: 165 to {closed} litres per second, {165 - closed} less"
        assert f"\n{line}\n" in ran.stdout
    # Nothing has changed.
    assert ran.stdout.count("solve: value 165") == 1


def test_json() -> None:
    """One object an answer; a place goes by its name."""
    typed = "solve\nworst places 1\nworth place Mill\nworth Mill Lane\n"
    ran = run("dmf-plan", PIPES, "--json", typed=typed)
    worst_told, place, arc = [
        it for it in map(json.loads, ran.stdout.splitlines()) if it["event"] == "worth"
    ]

    def row(place: str, without: int) -> dict[str, Any]:
        told = {"without": without, "loss": 165 - without}
        return {"place": place, **{it: {"told": str(n), "raw": n} for it, n in told.items()}}

    assert worst_told["losses"] == [row("Upper Works", left_of()["Upper Works"])]
    assert place["losses"] == [row("Mill", left_of()["Mill"])]
    assert (worst_told["more"], worst_told["together"], place["more"]) == (6, None, 0)
    assert place["together"] == place["losses"][0]["without"]
    assert set(arc["losses"][0]) == {"arc", "without", "loss"}


def table_of(random: Random, is_both: bool) -> str:
    """A table with loops, parallel arcs and arcs of capacity 0, some of which lead both ways."""
    rows = ["from,to,capacity,name,direction"]
    for number in range(random.randrange(8, 16)):
        tail, head = (random.choice("ABCDEF") for _ in range(2))
        way = "<->" if is_both and tail != head and random.randrange(2) else "->"
        rows.append(f"{tail},{head},{random.randrange(6)}.5,p{number},{way}")
    return "\n".join([*rows, "A,B,3,in,->", "A,C,2,by,->", "D,F,3,out,->", "E,F,4,last,->", ""])


ENDS = [
    "--source A --sink F",
    "--source A=4 --sink F",
    "--source A --source B=2 --sink F=5 --sink E",
]


@pytest.mark.parametrize("seed", range(12))
def test_beside_shutting(seed: int, tmp_path: Path) -> None:
    """The same as by shutting each place and solving: with several sources and sinks that have a
    limit or none, places with a limit, pipes that lead both ways, and after changes."""
    random = Random(f"places {seed}")
    path = tmp_path / "net.csv"
    path.write_text(table_of(random, seed % 2 > 0))
    words = random.choice(ENDS).split()
    limits = random.choice(["", "D,2\nA,6\n", "E,1\nF,4\nB,3\n"])
    if limits:
        (tmp_path / "limits.csv").write_text(f"place,limit\n{limits}")
        words += ["--node-limits", f"{tmp_path}/limits.csv"]
    typed = random.choice(["", "close in\n", "add B D 7 new\n", "shut C\n", "close by\nopen by\n"])
    places = "ABCDEF"
    asked = "".join(f"worth place {it}\n" for it in places)
    trials = "".join(f"what-if shut {it}\n" for it in places)
    ran = run("dmf-plan", str(path), *words, typed=f"{typed}solve\n{asked}{trials}")
    told = re.findall("^shutting (.): ([0-9.]+) to ([0-9.]+)", ran.stdout, re.MULTILINE)
    tried = re.findall("^it would be ([0-9.]+)", ran.stdout, re.MULTILINE)
    closed = [it for it in places if f"no arc is open at '{it}'" in ran.stderr]
    assert [it[0] for it in told] == [*places], ran.stderr
    assert [left for name, _, left in told if name not in closed] == tried
    assert {value == left for name, value, left in told if name in closed} <= {True}


def test_names_of_both(tmp_path: Path) -> None:
    """A name that an arc and a place have is not guessed; one that several places have neither."""
    path = tmp_path / "net.csv"
    path.write_text("from,to,capacity,name\nA,Main,4,one\nMain,B,3,Main\nA,B,1,place B\n")
    typed = "solve\nworth Main\nworth place Main\nworth #2\nworth place B\nworth B\nworth Mian\n"
    ran = run("dmf-plan", str(path), typed=typed)
    assert ran.stdout.splitlines()[1:] == [
        "shutting Main: 4 to 1, 3 less",
        "closing Main: 4 to 1, 3 less",
        "shutting B: 4 to 0, 4 less",
    ]
    first, second, third = ran.stderr.splitlines()[3:]
    assert "'Main' is a place, and also #2 (Main, Main -> B); `worth place Main`" in first
    assert "this can mean several things; put the name in quotes" in second
    assert "no arc is called 'Mian'; is it 'Main'" in third
    ran = run("dmf-plan", str(path), typed='solve\nworth "place B"\nworth Bb\nworth place Nn\n')
    assert ran.stdout.splitlines()[1:] == ["closing place B: 4 to 3, 1 less"]
    assert "no place is called 'Nn'" in ran.stderr


def test_nothing_is_lost(tmp_path: Path) -> None:
    (tmp_path / "net.csv").write_text("from,to,capacity\nA,B,4\nA,C,1\n")
    ran = run("dmf-plan", f"{tmp_path}/net.csv", "A", "B", typed="solve\nworst places\nworth C\n")
    assert ran.stdout.splitlines()[1:] == [
        "  no place alone costs anything to lose",
        "shutting C: 4 to 4, no change",
    ]


# Place 2 has a limit, and the half of it that arcs leave is node 5; one arc enters that half.
HALVES = b"""c inner node 5 half 2
c inner arc 2 limit 2
p max 5 5
n 1 s
n 4 t
a 1 2 5
a 2 5 3
a 5 4 9
a 1 5 4
a 1 4 1
"""


def test_an_arc_into_the_second_node_of_a_place() -> None:
    desk = desk_of(HALVES)
    assert desk.value == 8
    (loss,) = losses_of_places(desk, [2])
    # Without its first node alone 5 would be left.
    assert (loss.left, loss.loss) == (1, 7)
    assert [it.number for it in worst_places(desk, 9)[0]] == [2]
    assert (desk.value, len(desk.steps)) == (8, 1)


def test_what_is_asked(monkeypatch: pytest.MonkeyPatch) -> None:
    """Where the library runs the session no program begins, and each state is asked once."""
    desk = desk_of(HALVES)
    asked: list[Any] = []
    session = desk.network.network._session
    found = session.values_without

    def noted(part: Part) -> Any:
        asked.append(part)
        return found(part)

    monkeypatch.setattr(session, "values_without", noted)
    if os.environ["DMF_LIBRARY"]:
        monkeypatch.setenv("DMF", "/nowhere")
    else:
        assert program_of(None)
    for _ in range(2):
        worst(desk, 3)
        losses(desk, [1])
        worst_places(desk, 3)
    assert asked == [Part.ARC, Part.NODE]
    desk.close(5)
    # Then nothing is left without the arc that all flow comes by.
    assert worst(desk, 1)[0][0][:2] == (3, 0) and asked == [Part.ARC, Part.NODE, Part.ARC]


def test_a_flow_that_is_not_greatest() -> None:
    with pytest.raises(DeskFault, match="the flow is not greatest"):
        worst_places(desk_of(HALVES, with_solve=False), 3)
