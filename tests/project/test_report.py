"""Reports: the numbers of the stories, as a second computation gives them; and one file that needs
no other, in which names are text."""

from __future__ import annotations

import re
import shutil
from pathlib import Path

import dmf
import pytest
from client_shared import BUILT
from desk_shared import (
    ODD,
    PIPES,
    ROOT,
    STORY,
    desk_of,
    greatest,
    run,
    swept,
    water,
    water_problem,
    without,
    worst_pairs_of_water,
)
from dmf.desk.project.report import checked, findings, report
from dmf.desk.project.scenarios import project_of
from dmf.desk.steps import DeskFault
from dmf.desk.workspace import Desk
from project_shared import named, new_project, supply_project, water_project
from report_page import Page, judge_labels, limits, named_in, rows_below


def test_water(tmp_path: Path) -> None:
    """The values of the story, the limits that its page names, and the losses and gains of trying
    all sets of places."""
    desk = water_project(tmp_path)
    project_of(desk).rename("no bridge")
    desk.close(named(desk, "Bridge pipe"))
    project_of(desk).new("new pipe")
    desk.add(desk.network.names.place("Mill"), desk.network.names.place("Station"), 25, "New")
    project_of(desk).new("today")
    page = Page(report(desk))
    assert [row for row in page.rows if row[0] in ("base", "no bridge", "new pipe", "today")] == [
        ["base", "", "165", ""],
        ["no bridge", "close Bridge pipe", "155", "10 less"],
        ["new pipe", "add New, Mill -> Station, 25 litres per second", "180", "15 more"],
        ["today", "", "165", "no change"],
    ]
    assert {165, 155, 180} <= set(STORY)
    assert "and 1 scenario more, in the table alone" in page.text
    judge_scenarios(desk)
    wanted = swept()
    tried = {
        (row[0].partition(",")[0], row[1], row[2])
        for row in page.rows
        if len(row) == 3
        and row[0] not in ("closed", "", "with a second one beside it", "place that is shut")
    }
    losses = {
        (name, str(165 - closed), str(closed))
        for name, (closed, _) in wanted.items()
        if closed < 165
    }
    gains = {
        (name, str(doubled - 165), str(doubled))
        for name, (_, doubled) in wanted.items()
        if doubled > 165
    }
    # Ten pipes and five places are listed, those that cost most, and how many more there are.
    shown = {it for it in tried if it[1].isdigit()}
    pipes = water()
    left = {
        place: greatest([it for it in pipes if place not in it[:2]])
        for place in {name for pipe in pipes for name in pipe[:2]} - {"Reservoir", "Harbour"}
    }
    costly = sorted((it, name) for name, it in left.items() if it < 165)
    places = {(name, str(165 - it), str(it)) for it, name in costly[:5]}
    assert costly[4][0] < costly[5][0]
    pairs = {*worst_pairs_of_water()}
    assert shown <= losses | gains | places | pairs and shown >= gains | places | pairs
    assert f"and {len(costly) - 5} more" in page.text
    assert (
        "Each value is the most that can be sent with only this pipe closed, or only this place "
        f"shut; it was found for all {len(pipes)} pipes and {len(left)} places. The only source "
        "and the only sink are not among the places."
    ) in page.text
    listed = sorted((int(loss) for _, loss, _ in shown & losses - gains), reverse=True)
    assert listed == sorted((int(loss) for _, loss, _ in losses), reverse=True)[:10]
    assert f"and {len(losses) - 10} more" in page.text
    assert [*map(str, re.findall("c greatest ([0-9]+)", page.text))] == ["165", "155", "180", "165"]
    assert (project_of(desk).scenario.name, desk.value) == ("today", 165)
    desk.end()


# The bottleneck of each scenario of the story, as its page names it.
BOTTLENECKS = {
    "today": {"North rise": "60", "Mill Lane": "45", "South main": "60"},
    "no bridge": {"North rise": "60", "South rise": "50", "Mill Lane": "45"},
    "new pipe": {"North rise": "60", "Mill pipe": "40", "Canal pipe": "30", "South rise": "50"},
}


def judge_scenarios(desk: Desk) -> None:
    """A report of each scenario has its bottleneck, whose parts its picture names, with what it
    changed; what is closed is dashed, and each of the two other pictures is of a scenario."""
    for name, arcs in BOTTLENECKS.items():
        project_of(desk).go(name)
        page = Page(report(desk))
        [rows] = limits(page)
        assert {row[0].partition(",")[0]: row[1] for row in rows} == arcs
        assert f"together {sum(map(int, arcs.values()))} litres per second" in page.text
        present, base, other = page.pictures
        for picture in page.pictures:
            judge_labels(picture)
        assert arcs.keys() <= named_in(present) and BOTTLENECKS["today"].keys() <= named_in(base)
        is_closed = name == "no bridge"
        assert ["stroke-dasharray" in it for it in page.pictures] == [
            is_closed,
            False,
            not is_closed,
        ]
        assert {"Bridge pipe", "closed"} <= named_in(present if is_closed else other)
        assert ("New" in named_in(present)) == (name == "new pipe")
    project_of(desk).go("today")


def test_demands(tmp_path: Path) -> None:
    """What each place takes and gets, those that are short of most first, and how many are short:
    of places at one source, whose only ways are of these capacities."""
    (tmp_path / "ways.csv").write_text(
        "from,to,litres\nWell,North,5\nWell,South,9\nWell,East,2\nEast,West,1\n"
    )
    (tmp_path / "takes.csv").write_text("place,litres\nNorth,7\nSouth,9\nWest,8\n")
    words = ["--source", "Well", "--sinks", f"{tmp_path}/takes.csv", f"{tmp_path}/ways.csv"]
    ran = run("dmf-plan", *words, typed=f"solve\nreport {tmp_path}/report.html\n")
    assert ran.returncode == 0, ran.stderr
    page = Page((tmp_path / "report.html").read_text())
    assert [row for row in page.rows if row[0] in ("North", "South", "West") and len(row) == 4] == [
        ["West", "8", "1", "7 litres short"],
        ["North", "7", "5", "2 litres short"],
        ["South", "9", "9", "met"],
    ]
    assert "2 of 3 demands are short." in page.text


def test_alone(tmp_path: Path) -> None:
    """It takes nothing from elsewhere, and has no script; names and notes are text, whatever they
    have."""
    quoted = ODD.replace('"', '""')
    (tmp_path / "odd.csv").write_text(
        f'from,to,capacity,name\n"{quoted}",b,5,"{quoted}"\nb,c,4,x\n'
    )
    desk = new_project(tmp_path, "odd.csv")
    project_of(desk).rename("</h2><script>" + ODD)
    project_of(desk).note(ODD + "\nline two")
    desk.close(1)
    desk.undo()
    desk.cap(2, 3)
    page = Page(report(desk))
    assert str(tmp_path) not in page.text
    assert all(it.startswith("data:") for it in page.taken) and not page.tags & {
        "script",
        "link",
        "iframe",
        "b",
    }
    name = "</h2><script>" + ODD
    assert f"Worst to lose, best to have twice: {name}" in page.headings
    assert f" · {name} · " in page.text and ODD + "\nline two" in page.text
    desk.end()


def test_without_graphviz(tmp_path: Path, monkeypatch: pytest.MonkeyPatch) -> None:
    desk = water_project(tmp_path)
    # `./dmf` needs other programs too.
    monkeypatch.setenv("DMF", BUILT)
    monkeypatch.setenv("PATH", str(tmp_path))
    page = Page(report(desk))
    assert (
        not page.pictures
        and page.text.count("There is no picture: Graphviz, which draws it, is not installed") == 2
    )
    desk.end()


def test_nothing_can_be_sent(tmp_path: Path) -> None:
    desk = water_project(tmp_path)
    desk.shut(desk.network.names.place("Harbour"))
    assert "so nothing can be sent" in Page(report(desk)).text and desk.value == 0
    desk.end()


def test_a_roster(tmp_path: Path) -> None:
    """A report of a roster speaks of people and shifts, also from a project, and names each person
    and each shift of the bottleneck in its picture. The numbers are those of the story."""
    shutil.copy(ROOT / "examples/rota/rota.csv", tmp_path)
    words = ["--shift", "8", "--daily", "1", "--keep", f"{tmp_path}/rota.csv"]
    ran = run("dmf-plan", *words, typed=f"report {tmp_path}/report.html\n")
    assert ran.returncode == 0, ran.stderr
    page = Page((tmp_path / "report.html").read_text())
    for said in (
        "120 hours can be staffed",
        "10 people and 9 shifts",
        "Short: Sun night 8.",
        "All that is staffed counts against these 7, and together they allow 120 hours at most.",
        "1 of 9 shifts is short.",
        "Each value is the most that can be staffed with only this connection closed, or only this "
        "person, day or shift left out; it was found for all 53 connections and 42 people, days "
        "and shifts.",
    ):
        assert said in page.text, said
    for water_word in "sent", "carries", "widen", "demand", "place":
        assert not re.search(rf"\b{water_word}", page.text), water_word
    assert ["Sun night", "8", "0", "8 hours short"] in page.rows
    # Nobody else has the hours of those who are lost with the five shifts of the bottleneck.
    worst = rows_below(page, "person, day or shift")
    assert worst[0] == ["Sat late", "24", "96"]
    assert {(row[1], row[2]) for row in worst[1:]} == {("16", "104")} and len(worst) == 5
    for picture in page.pictures:
        judge_labels(picture)
        assert {"Cem", "Dora", "Sun early", "Fri late"} <= named_in(picture)


def test_the_table_has_its_arcs(tmp_path: Path) -> None:
    """All arcs of the table are counted, also one that was opened again, twice too, and none that
    was added."""
    desk = water_project(tmp_path)
    counted = len(water())
    assert findings(desk).arcs == counted
    for name in "Bridge pipe", "Mill Lane", "Bridge pipe":
        desk.close(named(desk, name))
        assert findings(desk).arcs == counted
        desk.open(named(desk, name))
        assert findings(desk).arcs == counted
    desk.add(desk.network.names.place("Mill"), desk.network.names.place("Station"), 25, "New")
    desk.close(named(desk, "New"))
    desk.open(named(desk, "New"))
    assert findings(desk).arcs == counted
    assert f"{counted} pipes between 9 places" in Page(report(desk)).text
    desk.end()


def test_the_check_is_one(monkeypatch: pytest.MonkeyPatch) -> None:
    """What `dmf check` does not find greatest is no report."""
    desk = desk_of(water_problem())
    assert checked(desk) == "c greatest 165"
    wrong = desk.arc_flows()[:]
    wrong[0] -= 1
    monkeypatch.setattr(Desk, "arc_flows", lambda self: wrong)
    with pytest.raises(DeskFault, match="dmf check does not confirm the flow"):
        checked(desk)
    monkeypatch.undo()
    desk.end()


def test_from_the_terminal_and_from_python(tmp_path: Path) -> None:
    """The same page but for its date; of a table without a project too, once it is solved; a file
    that is there is left."""
    desk = supply_project(tmp_path)
    desk.shut(desk.network.names.place("East Depot"))
    desk.end()
    ran = run(
        "dmf-plan",
        project_of(desk).file.path,
        typed=f"notes\nnotes What if the East Depot is flooded?\nreport {tmp_path}/one.html\n",
    )
    told = [
        "no notes",
        "notes: What if the East Depot is flooded?",
        f"written: {tmp_path}/one.html",
    ]
    assert (ran.stdout.splitlines(), ran.returncode) == (told, 0)
    with dmf.open_project(project_of(desk).file.path) as project:
        project.report(tmp_path / "two.html")
    one, two = ((tmp_path / name).read_text() for name in ("one.html", "two.html"))
    assert one == two and "What if the East Depot is flooded?" in one
    ran = run(
        "dmf-plan",
        PIPES,
        typed=f"report {tmp_path}/three.html\nsolve\nclose Bridge pipe\nsolve\nreport "
        f"{tmp_path}/three.html\nreport x.txt\n",
    )
    assert (
        "line 1: the flow is not greatest" in ran.stderr
        and "line 6: the name of the file ends with one of .html" in ran.stderr
    )
    assert f"c greatest {without('Bridge pipe')}" in (tmp_path / "three.html").read_text()
    assert (
        "already exists"
        in run("dmf-plan", project_of(desk).file.path, typed=f"report {tmp_path}/one.html\n").stderr
    )
