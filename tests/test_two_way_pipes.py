"""A pipe that leads both ways is one thing on the desk, in dmf-plan and in a project. Values are
worked out by hand."""

from __future__ import annotations

import json
import shutil
from pathlib import Path

import pytest
from client_shared import dmf
from desk_shared import ROOT, run
from dmf.desk.project.comparison import compare
from dmf.desk.project.opener import project_desk
from dmf.desk.project.report import report
from dmf.desk.project.scenarios import BASE, project_of
from dmf.desk.steps import DeskFault
from project_shared import new_project
from two_way_shared import MAIN, desk_of


def told(tmp_path: Path, typed: str, *words: str) -> list[str]:
    """Return what dmf-plan tells of the table of `Main`."""
    (tmp_path / "main.csv").write_text(MAIN)
    ran = run("dmf-plan", *words, f"{tmp_path}/main.csv", "A", "D", typed=typed)
    assert ran.returncode == 0, ran.stderr
    return ran.stdout.splitlines()


def test_both_ways_in_python() -> None:
    """The name of a pipe stands for two arcs in Python, and the refusal says how to name each."""
    table = {"from": ["A", "B"], "to": ["B", "C"], "capacity": [3, 4], "name": ["P1", "P2"]}
    with dmf.read_table(table, both_ways=True, source="A", sink="C") as network:
        with pytest.raises(dmf.AmbiguousArc) as caught:
            network.close("P2")
        assert str(caught.value) == (
            "2 open arcs have the key or the ends 'P2': <Arc 3: 'B' to 'C', 'P2'>, <Arc 4: 'C' to "
            "'B', 'P2'>; they are the two ways of one pipe: change each by its ends, ('B', 'C') "
            "and ('C', 'B')"
        )
        for ends in ("B", "C"), ("C", "B"):
            network.close(ends)
        assert network.solve().value == 0


def test_steps_of_both_ways_in_python() -> None:
    """Each way is one change, so the pipe is never half closed by its name: that changes nothing,
    and `undo(2)` takes back both ways, all or none."""
    table = {"from": ["A", "B"], "to": ["B", "C"], "capacity": [3, 4], "name": ["P1", "P2"]}
    with dmf.read_table(table, both_ways=True, source="A", sink="C", history=2) as network:
        with pytest.raises(dmf.AmbiguousArc):
            network.close("P2")
        with pytest.raises(dmf.AmbiguousArc):
            network.cap("P2", 1)
        assert [network.capacity(arc) for arc in network.arcs] == [3, 3, 4, 4]
        with pytest.raises(dmf.NothingToUndo):
            network.undo()
        for ends in ("B", "C"), ("C", "B"):
            network.cap(ends, 1)
        assert [network.capacity(arc) for arc in network.arcs] == [3, 3, 1, 1]
        with pytest.raises(dmf.NothingToUndo):
            network.undo(3)
        assert [network.capacity(arc) for arc in network.arcs] == [3, 3, 1, 1]
        network.undo(2)
        assert [network.capacity(arc) for arc in network.arcs] == [3, 3, 4, 4]


def test_plan(tmp_path: Path) -> None:
    """5 can be sent: 3 over Main, back from its head, and 2 beside it."""
    assert told(tmp_path, "solve\npipes\ncut\nfrom B\npipes where from ~ b and flow > 2\nplaces\n")[
        1:
    ] == [
        "  #1 one, A -> B: 3 of 5",
        "  #2 Main, C <-> B: 3 of 3 to C, full, limit",
        "  #4 by, A -> C: 2 of 2, full, limit",
        "  #5 out, C <-> D: 5 of 7 to D",
        "limit 5",
        "  source's side: A, B",
        "  #2 Main, C <-> B: 3",
        "  #4 by, A -> C: 2",
        "  #2 Main, C <-> B: 3 of 3 to C, full, limit",
        "  #2 Main, C <-> B: 3 of 3 to C, full, limit",
        "  A: 0 in, 5 out, a source, before the limit",
        "  B: 3 in, 3 out, before the limit",
        "  C: 5 in, 5 out",
        "  D: 5 in, 0 out, a sink",
    ]


def test_steps(tmp_path: Path) -> None:
    """Without Main 2 are left, and with 4 on it 6, by its name, its ends or its number."""
    typed = (
        "solve\nclose Main\nopen\nsolve\nclose B-C\nundo\ncap #8 4\nsolve\nclose C <-> B\nsteps\n"
    )
    assert told(tmp_path, typed) == [
        "value 5, 5 more, the greatest",
        "value 2, 3 less, the greatest",
        "value 2; more can be sent: solve",
        "value 5, 3 more, the greatest",
        "value 2, 3 less, the greatest",
        "value 5, 3 more, the greatest",
        "value 5; more can be sent: solve",
        "value 6, 1 more, the greatest",
        "value 2, 4 less, the greatest",
        f"    0   {tmp_path}/main.csv: value 0",
        "    1   solve: value 5",
        "    2   close Main: value 2",
        "    3   open Main: value 2",
        "    4   solve: value 5",
        "    5   Main carries 4 each way: value 5",
        "    6   solve: value 6",
        "    7 * close Main: value 2",
    ]


def test_what_if(tmp_path: Path) -> None:
    """Each pipe is tried once, with both of its ways. A second Main brings the 2 more that `one`
    has left."""
    assert told(tmp_path, "solve\nwhat-if each arc\nwhat-if close Main\n")[1:] == [
        "  #5 out, C <-> D: closed 0 (5 less), a second one 5 (no change)",
        "  #1 one, A -> B: closed 2 (3 less), a second one 5 (no change)",
        "  #2 Main, C <-> B: closed 2 (3 less), a second one 7 (2 more)",
        "  #4 by, A -> C: closed 3 (2 less), a second one 7 (2 more)",
        "it would be 2: 3 less",
    ]


def test_json(tmp_path: Path) -> None:
    """A flow that goes back is below 0, and only such a pipe has a capacity back."""
    arcs = json.loads(told(tmp_path, "solve\nflow\n", "--json")[1])["arcs"]
    assert [
        (arc["number"], arc["flow"]["raw"], arc["capacity"]["raw"], arc.get("capacity_back"))
        for arc in arcs
    ] == [
        (1, 3, 5, None),
        (2, -3, 3, {"told": "3", "raw": 3}),
        (4, 2, 2, None),
        (5, 5, 7, {"told": "7", "raw": 7}),
    ]
    assert arcs[1]["flow"]["told"] == "-3"


def test_project(tmp_path: Path) -> None:
    """Closing it is a line of the journal and a step, there again after the project is opened; and
    a second one beside it is such a pipe too."""
    (tmp_path / "main.csv").write_text(MAIN)
    desk = new_project(tmp_path, "main.csv", "--source", "A", "--sink", "D")
    file = project_of(desk).file
    number = desk.network.the_arc("Main")
    desk.close(number)
    assert (desk.value, desk.at) == (2, 2)
    last = Path(file.path.replace(".json", ".journal")).read_text().splitlines()[-1]
    assert json.loads(last)["step"]["requests"] == [
        ["close", ["C", "B", "Main"]],
        ["close", ["B", "C", "Main"]],
    ]
    desk.undo()
    desk.double(number)
    assert desk.value == 7
    desk.end()
    desk = project_desk(file.path)
    second = desk.network.pictured()[-1]
    assert (desk.value, desk.network.names.arc(second)) == (7, "C <-> B")
    assert len(desk.network.pictured()) == 5
    desk.close(second)
    assert desk.value == 5
    desk.undo(2)
    assert (desk.value, len(desk.network.pictured())) == (5, 4)
    desk.redo(2)
    assert (desk.value, len(desk.network.pictured())) == (5, 5)
    desk.end()


def test_scenarios(tmp_path: Path) -> None:
    """Beside the network of the table, a scenario without Main has one row more, and less flows."""
    (tmp_path / "main.csv").write_text(MAIN)
    desk = new_project(tmp_path, "main.csv", "--source", "A", "--sink", "D")
    project = project_of(desk)
    desk.close(desk.network.the_arc("Main"))
    found = compare(project, BASE, project.scenario.name)
    assert [(it.arc, it.kind, it.first.told(), it.second.told()) for it in found.arcs] == [
        ("one, A -> B", "less", "3 of 5", "0 of 5"),
        ("Main, C <-> B", "gone", "3 of 3 to C, limit", "closed"),
        ("out, C <-> D", "less", "5 of 7 to D", "2 of 7 to D"),
    ]
    assert found.first.limit == ("Main, C <-> B", "by, A -> C")
    assert "Main, C &lt;-&gt; B" in report(desk)
    desk.end()


def test_one_way_of_it(tmp_path: Path) -> None:
    """A project of an older version may have closed one way of a pipe, or capped one way alone.
    That is told, and the next step on the pipe is of both."""
    (tmp_path / "main.csv").write_text(MAIN)
    desk = new_project(tmp_path, "main.csv", "--source", "A", "--sink", "D")
    path = Path(project_of(desk).file.path)
    desk.close(desk.network.the_arc("Main"))
    desk.cap(desk.network.the_arc("out"), 5)
    desk.end()
    kept = project_desk(str(path))
    kept.end()
    before = path.read_text()
    one = before.replace('["close", ["B", "C", "Main"]]', "").replace(
        ', ["cap", ["D", "C", "out"], "5"]', ""
    )
    path.write_text(one.replace('"Main"]], ]', '"Main"]]]'))
    assert path.read_text() != before
    desk = project_desk(str(path))
    network = desk.network
    main, out = map(network.the_arc, ("Main", "out"))
    # B to C is open, so that nothing has changed.
    assert (desk.value, network.told_amounts(main, desk.flow(main))) == (
        5,
        "3 of 3 to C; closed to B",
    )
    assert network.told_amounts(out, desk.flow(out)) == "5 of 5 to D; 7 to C"
    assert network.the_arc("Main", is_closed=True) == main
    desk.close(main)
    assert (desk.value, network.pipe(main).is_closed) == (2, True)
    desk.open(network.the_arc("Main", is_closed=True))
    assert desk.value == 5
    desk.cap(out, 6)
    assert network.told_amounts(out, desk.flow(out)) == "5 of 6 to D"
    desk.end()


def test_an_older_project(tmp_path: Path) -> None:
    """A project of an older version does not say which arcs are one pipe. It has the rows that it
    had."""
    folder = shutil.copytree(ROOT / "tests/earlier/valley", tmp_path / "valley")
    desk = project_desk(str(folder / "valley.dmf.json"))
    assert not desk.network.pipes.are_two_way
    names = [desk.network.names.arc(number) for number in desk.network.pictured()]
    assert names[:2] == ["Upper, Spring -> Mill", "Upper, Mill -> Spring"]
    desk.end()


def test_limits_of_places() -> None:
    """A place with a limit is two nodes, between which and another such place a pipe leads both
    ways: 3 pass through A, whichever way."""
    text = "from,to,capacity,name,direction,limit\nS,A,9,in,->,\nB,A,8,mid,<->,\nB,T,9,out,->,\n"
    text += "A,,,,,3\nB,,,,,4\n"
    desk = desk_of(text)
    mid = desk.network.the_arc("mid")
    assert (desk.value, desk.flow(mid), desk.network.names.arc(mid)) == (3, -3, "mid, B <-> A")
    desk.close(mid)
    assert (desk.value, len(desk.network.pictured())) == (0, 3)
    desk.end()


def test_refused() -> None:
    """What is closed is not closed again, and what is open is not opened."""
    desk = desk_of(MAIN, source="A", sink="D")
    number = desk.network.the_arc("Main")
    with pytest.raises(DeskFault, match="Main, C <-> B is open"):
        desk.open(number)
    desk.close(number)
    with pytest.raises(DeskFault, match="Main, C <-> B is closed"):
        desk.close(number)
    with pytest.raises(DeskFault, match="Main, C <-> B is closed"):
        desk.cap(number + 1, 3)
    desk.open(number)
    with pytest.raises(DeskFault, match="Main, C <-> B is closed"):
        desk.close(number)
    desk.end()
