"""Tests `worst` and `worth` of tools/dmf-plan beside values that are found by trying all sets of
places, or worked out by hand."""

from __future__ import annotations

import json
import re
from itertools import combinations
from pathlib import Path

import pytest
from desk_shared import PIPES, ROOT, greatest, run, swept, water
from dmf.desk.plan.grammar import completed
from dmf.desk.workspace import Desk
from dmf.tables.loader import read_subject
from project_shared import words

ROW = re.compile("^ +([0-9.]+) +([0-9.]+)  #([0-9]+) (.*?), .* -> .*$", re.MULTILINE)
# A pipe that leads both ways, of tenths: all that leads to the end comes by way of it or of `by`.
BOTH = """\
from,to,capacity (l/s),name,direction
A,B,5,one,->
B,C,3.5,Main,<->
A,C,2,by,->
C,D,7,out,->
"""


def rows(answer: str) -> list[tuple[str, ...]]:
    """The rows of `worst`: what is left, what is lost, the number and the name."""
    return [found.groups() for found in ROW.finditer(answer)]


@pytest.mark.parametrize(("words", "count"), [("", 10), (" 3", 3), (" 99", 13), (" 0", 0)])
def test_worst(words: str, count: int) -> None:
    numbers = {pipe.name: number for number, pipe in enumerate(water(), 1)}
    left = {name: closed for name, (closed, _) in swept().items() if closed < 165}
    assert len(left) == 13
    wanted = sorted(left, key=lambda name: (left[name], numbers[name]))[:count]
    ran = run("dmf-plan", PIPES, typed=f"solve\nworst{words}\nsteps\n")
    assert rows(ran.stdout) == [
        (str(left[name]), str(165 - left[name]), str(numbers[name]), name) for name in wanted
    ]
    assert (f"\n  and {13 - count} more\n" in ran.stdout) == (count < 13)
    assert ("\n  without (litres per second)  loss\n" in ran.stdout) == (count > 0)
    # Nothing has changed.
    assert ran.stdout.count("solve: value 165") == 1


def test_after_changes() -> None:
    """Both tell of the network as it is, with closed and added pipes."""
    pipes = [pipe for pipe in water() if pipe.name != "Bridge pipe"]
    added = water()[0]._replace(tail="Mill", head="Station", capacity=25, name="new")
    pipes.append(added)
    value = greatest(pipes)
    left = {pipe.name: greatest([it for it in pipes if it != pipe]) for pipe in pipes}
    typed = "close Bridge pipe\nadd Mill Station 25 new\nsolve\nworst 99\n"
    ran = run("dmf-plan", PIPES, typed=typed + "".join(f'worth "{name}"\n' for name in left))
    assert {name: int(closed) for closed, _, _, name in rows(ran.stdout)} == {
        name: closed for name, closed in left.items() if closed < value
    }
    told = dict(re.findall("^closing (.*): ([0-9]+ to [0-9]+) litres", ran.stdout, re.MULTILINE))
    assert told == {name: f"{value} to {closed}" for name, closed in left.items()}


def test_a_pipe_that_leads_both_ways(tmp_path: Path) -> None:
    """What is left without it, in the unit of the table: it is one pipe."""
    (tmp_path / "both.csv").write_text(BOTH)
    # Then 2 come by way of `by`, or 5.5 by both: never one for the other.
    typed = "solve\nworth Main\nworst\nclose by\nsolve\nworth #3\n"
    ran = run("dmf-plan", f"{tmp_path}/both.csv", "A", "D", typed=typed)
    assert ran.stdout.splitlines()[1:] == [
        "closing Main: 5.5 to 2 l/s, 3.5 less",
        "  without (l/s)  loss",
        "              0   5.5  #5 out, C -> D",
        "              2   3.5  #1 one, A -> B",
        "              2   3.5  #2 Main, B <-> C",
        "            3.5     2  #4 by, A -> C",
        "value 3.5 l/s, 2 less, the greatest",
        "value 3.5 l/s, the greatest",
        "closing Main: 3.5 to 0 l/s, 3.5 less",
    ]


def test_several_arcs_of_one_name(tmp_path: Path) -> None:
    """Of two pipes side by side, each can be spared, and both cannot."""
    (tmp_path / "two.csv").write_text("from,to,capacity,name\nA,B,4,twin\nA,B,4,twin\nB,C,4,out\n")
    typed = "solve\nworth twin\nworth #1\nworst\nundo\n"
    ran = run("dmf-plan", f"{tmp_path}/two.csv", typed=typed)
    assert ran.stdout.splitlines()[1:] == [
        "2 arcs have this name",
        "  closing #1 twin, A -> B: 4 to 4, no change",
        "  closing #2 twin, A -> B: 4 to 4, no change",
        "  closing both: 4 to 0, 4 less",
        "closing twin: 4 to 4, no change",
        "  without  loss",
        "        0     4  #3 out, B -> C",
        "value 0, 4 less; more can be sent: solve",
    ]


def test_two_arcs() -> None:
    """What is left without both is what trying all sets of places finds, and what is left when both
    are closed and the rest is solved."""
    pipes, typed, wanted = water(), "", []
    for one, other in combinations(pipes, 2):
        left = greatest([it for it in pipes if it not in (one, other)])
        wanted.append(f"  closing both: 165 to {left} litres per second, {165 - left} less")
        typed += f'worth {one.name} and "{other.name}"\n'
        typed += f"close {one.name}\nclose {other.name}\nsolve\nundo 3\n"
    ran = run("dmf-plan", PIPES, typed=f"solve\n{typed}")
    lines = ran.stdout.splitlines()
    assert [it for it in lines if it.startswith("  closing both")] == wanted, ran.stderr
    # After the first solve there are four values for a pair, of which the third is that of a solve.
    after = re.findall("^value ([0-9]+)", ran.stdout, re.MULTILINE)[3::4]
    assert [line.split(" litres")[0] for line in wanted] == [
        f"  closing both: 165 to {value}" for value in after
    ]
    alone = {name: f": 165 to {left} litres" for name, (left, _) in swept().items()}
    assert lines[1].startswith(
        f"  closing #1 Upper main, Reservoir -> Upper Works{alone['Upper main']}"
    )


def test_two_arcs_in_json() -> None:
    """Both arcs, each with what is left without it alone, and what is left without both."""
    ran = run("dmf-plan", PIPES, "--json", typed="solve\nworth #2 and Upper main\n")
    (told,) = (it for it in map(json.loads, ran.stdout.splitlines()) if it["event"] == "worth")
    found = [(it["arc"]["name"], it["without"]["raw"]) for it in told["losses"]]
    assert found == [("Lower main", 100), ("Upper main", 80)]
    assert (told["together"]["raw"], told["more"]) == (0, 0)


def test_two_pipes_that_lead_both_ways(tmp_path: Path) -> None:
    """Each is one thing, whichever of its arcs is named."""
    (tmp_path / "both.csv").write_text(BOTH)
    typed = "solve\nworth Main and by\nworth #3 and #4\n"
    ran = run("dmf-plan", f"{tmp_path}/both.csv", "A", "D", typed=typed)
    told = [
        "  closing #2 Main, B <-> C: 5.5 to 2 l/s, 3.5 less",
        "  closing #4 by, A -> C: 5.5 to 3.5 l/s, 2 less",
        "  closing both: 5.5 to 0 l/s, 5.5 less",
    ]
    assert ran.stdout.splitlines()[1:] == [*told, *told], ran.stderr
    ran = run("dmf-plan", f"{tmp_path}/both.csv", "A", "D", typed="solve\nworth #3 and Main\n")
    assert "both names mean #2 (Main, B <-> C)" in ran.stderr


def test_names_with_and(tmp_path: Path) -> None:
    """A name may have an `and`. If the words can mean several things, quotes or numbers decide."""
    rows = "S,T,1,A\nS,T,2,B\nS,T,4,A and B\nS,T,8,C and D\nS,T,16,B and A\n"
    path = tmp_path / "and.csv"
    path.write_text(f"from,to,capacity,name\n{rows}")
    # Each arc has its own bit, so a loss says which were closed: the last one is of all of a line.
    asked = {
        '"A and B"': [4],
        "#1 and #2": [1, 2, 3],
        "C and D": [8],
        "C and D and A": [8, 1, 9],
        '"A and B" and A': [4, 1, 5],
        '"B and A" and "A and B"': [16, 4, 20],
    }
    ran = run("dmf-plan", str(path), typed="solve\n" + "".join(f"worth {it}\n" for it in asked))
    told = [int(it) for it in re.findall(r"closing .*: 31 to .*, ([0-9]+) less$", ran.stdout, re.M)]
    assert told == [loss for losses in asked.values() for loss in losses], ran
    for line in "worth A and B", "worth A and B and A":
        ran = run("dmf-plan", str(path), typed=f"solve\n{line}\n")
        assert "this can mean several things; put a name with `and` in quotes" in ran.stderr


def test_two_arcs_completed() -> None:
    desk = Desk(read_subject(words(ROOT, PIPES)))
    assert completed(desk, "worth Mill Lane and Bri").texts == ['"Bridge pipe" ']
    assert completed(desk, "worth Mill Lane Bri").texts == []


def test_nothing_is_vital(tmp_path: Path) -> None:
    (tmp_path / "no.csv").write_text("from,to,capacity\nA,B,0\nB,C,4\n")
    ran = run("dmf-plan", f"{tmp_path}/no.csv", typed="solve\nworst\n")
    assert ran.stdout.splitlines()[1:] == ["  no arc alone costs anything to lose"]


def test_projects(tmp_path: Path) -> None:
    """In a project nothing is kept of what is only asked."""
    table, project = tmp_path / "pipes.csv", tmp_path / "pipes.dmf.json"
    table.write_text(Path(PIPES).read_text())
    ran = run("dmf-plan", str(table), "--keep", typed="close Bridge pipe\nworst 1\n")
    kept = project.read_bytes()
    again = run("dmf-plan", str(project), typed="worst 1\nworth Mill Lane\nsteps\n")
    assert rows(ran.stdout) == rows(again.stdout) != []
    assert again.stdout.count("value") == run(
        "dmf-plan", str(project), typed="steps\n"
    ).stdout.count("value")
    assert project.read_bytes() == kept


@pytest.mark.parametrize(
    ("line", "why"),
    [
        ("worth", "usage: worth ARC"),
        ("worth Mil Lane", "no arc is called 'Mil Lane'; is it 'Mill Lane'"),
        ("worth Mill Lane and Bridge", "no arc is called 'Bridge'; is it 'Bridge pipe'?"),
        ("worth Mill Lane and", "no arc is called 'Mill Lane and'"),
        ("worth #9 and Mill Lane", "both names mean #9 (Mill Lane, Mill -> Market)"),
        ("close Mill Lane\nsolve\nworth Bridge pipe and #9", "-> Market) is closed"),
        ("undo\nworth #1 and #2", "the flow is not greatest, so nothing can be compared with it"),
        ("worst 1.5", "'1.5' is not a number"),
        ("close Mill Lane\nsolve\nworth Mill Lane", "(Mill Lane, Mill -> Market) is closed"),
        ("undo\nworst", "the flow is not greatest, so nothing can be compared with it"),
        ("undo\nworth Mill Lane", "the flow is not greatest, so nothing can be compared with it"),
    ],
)
def test_refused(line: str, why: str) -> None:
    ran = run("dmf-plan", PIPES, typed=f"solve\n{line}\n")
    assert (ran.returncode, why in ran.stderr) == (1, True), ran.stderr
