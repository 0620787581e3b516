"""A pipe that leads both ways may carry another amount each way: given in one command and one step,
told with the places, kept in a project, and set on the page. Values are worked out by hand, or
networkx's."""

from __future__ import annotations

import json
from collections import Counter
from decimal import Decimal
from pathlib import Path
from random import Random
from typing import Any

import dmf
import networkx
import pytest
from board_pages import Page
from board_running import board as running
from desk_shared import run
from dmf.desk.analysis import _widened, cheapest, prices
from dmf.desk.board.routes import Board
from dmf.desk.project.opener import project_desk
from dmf.desk.project.scenarios import project_of
from dmf.desk.steps import Close, DeskFault
from project_shared import new_project
from two_way_shared import MAIN, desk_of


def told(tmp_path: Path, typed: str, text: str = MAIN) -> list[str]:
    """Return what dmf-plan tells, and below it what it refuses."""
    (tmp_path / "main.csv").write_text(text)
    ran = run("dmf-plan", f"{tmp_path}/main.csv", "A", "D", typed=typed)
    refused = [line for line in ran.stderr.splitlines() if line.startswith("dmf-plan: line ")]
    return [*ran.stdout.splitlines(), *refused]


def test_plan(tmp_path: Path) -> None:
    """2 flow over `by`, and from B to C what Main carries there. A change is one of what it carries
    that way, also if there is one for both."""
    typed = (
        "solve\ncap Main 4 back 2\ncut\npipes where name ~ Main\ncap Main +1 back +50 %\nsolve\n"
        "cap Main +1\nsolve\nundo 2\ncap B-C 3 back 3\nwhat-if cap Main 9 back 1\nsteps\n"
    )
    assert told(tmp_path, typed)[1:] == [
        "Main carries 4 to B, 2 to C: value 4, 1 less, the greatest",
        "limit 4",
        "  source's side: A, B",
        "  #2 Main, C <-> B: 2 to C",
        "  #4 by, A -> C: 2",
        "  #2 Main, C <-> B: 2 of 2 to C; 4 to B, full, limit",
        "Main carries 5 to B, 3 to C: value 4; more can be sent: solve",
        "value 5, 1 more, the greatest",
        "value 5; more can be sent: solve",
        "value 6, 1 more, the greatest",
        "value 5, 1 less, the greatest",
        "Main carries 3 each way: value 5, the greatest",
        "it would be 3: 2 less",
        f"    0   {tmp_path}/main.csv: value 0",
        "    1   solve: value 5",
        "    2   Main carries 4 to B, 2 to C: value 4",
        "    3   Main carries 5 to B, 3 to C: value 4",
        "    4   solve: value 5",
        "    5 * Main carries 3 each way: value 5",
    ]


def test_refused(tmp_path: Path) -> None:
    """A pipe that leads one way has no capacity back, and one that is closed has none at all."""
    typed = (
        "cap one 5 back 3\ncap Main 5 back\ncap Main 5 back ten\ncap Main 5 back -9\n"
        "cap Nowhere 5 back 3\nclose Main\ncap Main 5 back 3\n"
    )
    assert told(tmp_path, typed)[1:] == [
        "dmf-plan: line 1: one, A -> B leads one way only, so it has no capacity back",
        "dmf-plan: line 2: usage: cap ARC NUMBER [back NUMBER]",
        "dmf-plan: line 3: 'ten' is not a number",
        "dmf-plan: line 4: '-9' changes 3 to -6, which is below 0",
        "dmf-plan: line 5: no arc is called 'Nowhere'",
        "dmf-plan: line 7: #2 (Main, C <-> B) is closed; `open` opens it",
    ]


def test_names(tmp_path: Path) -> None:
    """A name may have the word `back`; what can mean two pipes is refused."""
    text = MAIN + "A,D,1,Way back,<->\nA,D,1,Main 5 back,->\n"
    typed = (
        "cap Way back 1 200\ncap Way back 1 200 back 1 000\ncap Main 5 back 3\n"
        'cap "Main 5 back" 3\ncap Main 6 back 3\nsteps\n'
    )
    steps = [line[8:] for line in told(tmp_path, typed, text) if line[:5].strip().isdigit()]
    assert steps[1:] == [
        "Way back carries 1200 each way: value 0",
        "Way back carries 1200 to D, 1000 to A: value 0",
        "Main 5 back carries 3: value 0",
        "Main carries 6 to B, 3 to C: value 0",
    ]
    assert told(tmp_path, typed, text)[-1] == (
        "dmf-plan: line 3: this can mean several things; put the name in quotes"
    )


def test_project(tmp_path: Path) -> None:
    """It is one step of two requests, of which each is one that older versions read, and undone as
    one."""
    (tmp_path / "main.csv").write_text(MAIN)
    desk = new_project(tmp_path, "main.csv", "--source", "A", "--sink", "D")
    file = project_of(desk).file
    network = desk.network
    main = network.the_arc("Main")
    desk.cap_each(dict(zip(network.both_arcs(main), (4, 2))))
    assert (desk.value, desk.at) == (4, 2)
    last = Path(file.path.replace(".json", ".journal")).read_text().splitlines()[-1]
    step = json.loads(last)["step"]
    assert step["text"] == "Main carries 4 to B, 2 to C"
    assert step["requests"] == [
        ["cap", ["C", "B", "Main"], "4"],
        ["cap", ["B", "C", "Main"], "2"],
    ]
    desk.end()
    desk = project_desk(file.path)
    main = desk.network.the_arc("Main")
    assert desk.network.told_amounts(main, desk.flow(main)) == "2 of 2 to C; 4 to B"
    desk.undo()
    assert (desk.value, desk.at) == (5, 1)
    assert desk.network.told_amounts(main, desk.flow(main)) == "3 of 3 to C"
    # Finer numbers for one way alone.
    desk.cap_each(dict(zip(desk.network.both_arcs(main), (4, Decimal("1.5")))))
    assert desk.steps[-1].text == "Main carries 4 to B, 1.5 to C"
    assert str(desk.value) == "3.5"
    desk.end()
    with dmf.open_project(file.path) as project:
        assert (project.cap("Main", 3, "+0.5"), project.cap("Main", "+1")) == (4, 5)
        with pytest.raises(dmf.ProjectFault, match="one, A -> B leads one way only"):
            project.cap("one", 3, 4)


@pytest.mark.parametrize("seed", range(10))
def test_beside_networkx(seed: int) -> None:
    """The value is that of a graph with an edge for each way."""
    random = Random(f"two capacities {seed}")
    ends = [random.sample("ABCD", 2) for _ in range(7)]
    rows = "".join(f"{tail},{head},5,p{at},<->\n" for at, (tail, head) in enumerate(ends))
    desk = desk_of(f"from,to,capacity,name,direction\n{rows}A,D,1,last,->\n", source="A", sink="D")
    network = desk.network
    most = {f"p{at}": (5, 5) for at in range(len(ends))}
    try:
        for _ in range(8):
            name = random.choice([*most])
            most[name] = random.randint(0, 9), random.randint(0, 9)
            arcs = network.both_arcs(network.the_arc(name))
            desk.cap_each(dict(zip(arcs, most[name])))
            capacities = Counter({("A", "D"): 1})
            for (tail, head), (there, back) in zip(ends, most.values()):
                capacities[tail, head] += there
                capacities[head, tail] += back
            graph = networkx.DiGraph()
            graph.add_edges_from((*pair, {"capacity": it}) for pair, it in capacities.items())
            assert desk.value == networkx.maximum_flow_value(graph, "A", "D")
            for other, both in most.items():
                flow = desk.flow(network.the_arc(other))
                assert -both[1] <= flow <= both[0]
    finally:
        desk.end()


def test_many(tmp_path: Path) -> None:
    """A change of many pipes is one of what each carries each way."""
    typed = "cap Main 4 back 2\nsolve\ncap where name ~ a +50 %\npipes where name ~ Main\n"
    assert told(tmp_path, typed)[2:] == [
        "1 changed: value 4; more can be sent: solve",
        "  #2 Main, C <-> B: 2 of 3 to C; 6 to B",
    ]


def test_costs(tmp_path: Path) -> None:
    """One unit more from B to C is bought for 1, and no way of Main carries less for that."""
    text = "from,to,capacity,name,direction,cost\nA,B,5,one,->,\nC,B,3,Main,<->,1\nC,D,7,out,<->,\n"
    lines = told(tmp_path, "cap Main 9 back 2\nsolve\ncost to 3\n", text)
    assert lines[-1] == "  1: 3 (Main 1 wider: 1)"
    desk = desk_of(text, source="A", sink="D")
    desk.cap_each({2: 9, 3: 2})
    assert _widened(desk, 2, 3) == {2: 9, 3: 3}
    assert [it.value for it in cheapest(desk, prices(desk), 3).bought] == [3]
    desk.end()


def do(board: Board, what: str, **content: Any) -> Any:
    body = {"what": what, "turn": board.desk.turn, **content}
    return json.loads(board.post("do", body).body)


def test_board() -> None:
    """A page gets both capacities while both ways are open, and gives both."""
    desk = desk_of(MAIN, source="A", sink="D")
    board = Board(desk)

    def both(number: int) -> tuple[str, str, str]:
        found = json.loads(board.get("arc", {"number": str(number)}).body)
        return found["there"], found["back"], found["other_way"]

    assert (both(1), both(2), both(3)) == (("", "", ""), ("3", "3", ""), ("3", "3", ""))
    capped = do(board, "cap-ways", arc=3, capacity="+1", back="2")
    assert (capped["value"], capped["at"]) == ("4", 1)
    assert capped["steps"][-1]["text"] == "Main carries 4 to B, 2 to C"
    assert both(2) == ("4", "2", "4 to B")
    assert do(board, "cap-ways", arc=1, capacity="4", back="2")["error"] == (
        "one, A -> B leads one way only, so it has no capacity back"
    )
    assert do(board, "cap-ways", arc=2, capacity="4", back=" ")["error"] == (
        "expected a number for each way"
    )
    assert do(board, "cap-all", arcs=[2, 3], capacity="+1")["value"] == "5"
    assert both(2) == ("5", "3", "5 to B")
    assert do(board, "go", step=0)["value"] == "5"
    # 3 flow from B to C: a change of that way counts, or else one of the other way.
    for there, back, mark, filters in (
        ("3", "2", "n", ("capacity < before", "capacity = 2", "changed")),
        ("9", "3", "w", ("capacity > before", "capacity = 3", "changed")),
        ("9", "2", "n", ("capacity < before", "capacity < 3", "changed")),
        ("1", "4", "w", ("capacity > before", "capacity = 4", "changed")),
    ):
        do(board, "cap-ways", arc=2, capacity=there, back=back)
        assert board.shown.looks.marks([2])[0].change == mark
        for filter in filters:
            words = {"filter": f"{filter} and Main", "sort": "", "first": "0", "count": "9"}
            found = json.loads(board.get("numbers", words).body)
            assert found["numbers"] == [2], (there, back, filter)
        do(board, "go", step=0)
    assert board.shown.looks.marks([2])[0].change == "."
    # As a project of an older version may have it.
    desk.step("close one way", [Close(3)])
    assert both(2)[:2] == ("", "")
    with pytest.raises(DeskFault, match="one way of Main, C <-> B is closed; `open` opens it"):
        desk.network.both_arcs(2)
    desk.end()


def test_page(driver: Any, tmp_path: Path) -> None:
    """The page has a field for each way, which say where they lead."""
    (tmp_path / "main.csv").write_text(MAIN)
    with running("--source", "A", "--sink", "D", f"{tmp_path}/main.csv") as it:
        page = Page(driver, it.address)
        page.write("#text", "Main")
        page.choose_found("Main")
        page.wait(lambda: "What it can carry to B" in page.text("#what"))
        assert "and to C" in page.text("#what")
        page.write("#capacity", "4")
        page.write("#capacity-back", "2")
        assert page.after(lambda: page.press("Set")) == 4
        page.wait(lambda: page.fact("Flow") == "2 of 2 to C")
        assert page.fact("The other way") == "4 to B"
        page.write("#text", "one")
        page.choose_found("one")
        page.wait(lambda: page.text("#what p").startswith("From A to B"))
        assert not driver.find_elements("css selector", "#capacity-back")
