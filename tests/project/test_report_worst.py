"""What reports say of the worst losses, of arcs, places and pairs, and of the best second arcs."""

from __future__ import annotations

import itertools
import random
from pathlib import Path
from typing import Any

import networkx
import pytest
from desk_shared import run, swept, worst_pairs_of_water
from dmf.desk.project import report as project_findings
from dmf.desk.project.report import findings, report
from dmf.errors import NumberTooLarge
from project_shared import new_project, water_project
from report_page import Page, limits, rows_below


def test_what_is_not_tried_is_said(tmp_path: Path, monkeypatch: pytest.MonkeyPatch) -> None:
    """Second ones beside a part of the bottleneck alone, if each takes a solve by the program; and
    no losses in a network that is too large to ask for them."""
    monkeypatch.setenv("DMF_LIBRARY", "")
    monkeypatch.setattr(project_findings, "MOST_TRIED", 2)
    monkeypatch.setattr(project_findings, "LARGE", 15)
    desk = water_project(tmp_path)
    found, wanted = findings(desk).tried, swept()
    assert found.losses and found.losses.worst_arcs.more == len(
        [closed for closed, _ in wanted.values() if closed < 165]
    ) - len(found.losses.worst_arcs.losses)
    gains = {name.partition(",")[0]: gain for name, gain in found.gains.losses}
    assert gains == {name: wanted[name][1] - 165 for name in ("North rise", "Mill Lane")}
    said = "A second one was tried beside the first 2 of the 3 parts of the bottleneck"
    assert said in Page(report(desk)).text
    monkeypatch.setattr(project_findings, "LARGE", 14)
    text = Page(report(desk)).text
    assert "There are too many pipes here to find what the loss of each would cost." in text
    assert findings(desk).tried.losses is None and "loses" not in text
    desk.end()


@pytest.mark.usefixtures("by_library")
def test_the_best_to_have_twice(tmp_path: Path, monkeypatch: pytest.MonkeyPatch) -> None:
    """The five of all parts of the bottleneck beside which a second one brings most, and how many
    more bring something. By hand: each pipe from the well is as good as a wider one up to 50."""
    monkeypatch.setattr(project_findings, "MOST_TRIED", 2)
    names = ["Ash", "Birch", "Cedar", "Elm", "Fir", "Gorse", "Hazel", "Ivy"]
    rows = [f"Well,{name},{30 - 3 * at},{name}\n{name},Town,50," for at, name in enumerate(names)]
    rows[6] = "Well,Hazel,12,Hazel\nHazel,Town,12,"
    (tmp_path / "ways.csv").write_text("from,to,litres,name\n" + "\n".join(rows) + "\n")
    desk = new_project(tmp_path, "ways.csv")
    page = Page(report(desk))
    value = sum(30 - 3 * at for at in range(8))
    gains = [20, 23, 24, 21, 18, 15, 0, 9]
    ranked = sorted(zip(gains, names), key=lambda it: (-it[0], it[1]))
    listed = rows_below(page, "with a second one beside it")
    assert [(name.partition(",")[0], by, then) for name, by, then in listed] == [
        (name, str(by), str(value + by)) for by, name in ranked[:5]
    ]
    assert "A second one was tried beside each part of the bottleneck" in page.text
    assert findings(desk).tried.gains.more == 2
    desk.end()


def test_the_worst_of_all_arcs(tmp_path: Path) -> None:
    """The ten arcs that are worst to lose of more than 300, and the five places, beside networkx,
    which solves without each. Most of them are not in the bottleneck."""
    chance, size, graph = random.Random(7), 13, networkx.DiGraph()
    for row, column, down in itertools.product(range(size), range(size), (0, 1)):
        if max(row + down, column + 1 - down) < size:
            head = f"P{row + down}-{column + 1 - down}"
            is_inner = 5 < row + column < 2 * size - 8
            most = chance.randint(3, 9) * (1 if is_inner else 20)
            graph.add_edge(f"P{row}-{column}", head, capacity=most)
    rows = [f"{tail},{head},{most}" for tail, head, most in graph.edges(data="capacity")]
    (tmp_path / "town.csv").write_text("from,to,litres\n" + "\n".join(rows) + "\n")
    ends = "P0-0", f"P{size - 1}-{size - 1}"
    words = ["--source", ends[0], "--sink", ends[1], f"{tmp_path}/town.csv"]
    ran = run("dmf-plan", *words, typed=f"solve\nreport {tmp_path}/report.html\n")
    assert ran.returncode == 0, ran.stderr

    def left(graph: Any) -> int:
        return int(networkx.maximum_flow_value(graph, *ends))

    def without(take: str, what: Any) -> int:
        other = graph.copy()
        getattr(other, take)(*what)
        return left(other)

    value = left(graph)
    arcs = sorted(without("remove_edge", it) for it in graph.edges)
    places = sorted(without("remove_node", (it,)) for it in graph.nodes if it not in ends)
    page = Page((tmp_path / "report.html").read_text())
    titles = ["closed", "place that is shut", "with a second one beside it"]
    found = rows_below(page, titles[0])
    assert [int(row[2]) for row in found] == arcs[:10] and len(graph.edges) > 300
    for arc, loss, then in found:
        assert without("remove_edge", arc.split(" -> ")) == int(then) == value - int(loss)
    listed = rows_below(page, titles[1])
    assert [int(row[2]) for row in listed] == places[:5]
    for place, loss, then in listed:
        assert without("remove_node", (place,)) == int(then) == value - int(loss)
    limit = {row[0] for table in limits(page) for row in table}
    assert {row[0] for row in found} - limit
    assert f"for all {len(graph.edges)} arcs and {len(graph.nodes) - 2} places" in page.text


def test_the_worst_pairs(tmp_path: Path, monkeypatch: pytest.MonkeyPatch) -> None:
    """The five pairs that are worst to lose, beside trying all sets of places without both; of a
    network that is too large, and of a list that would be too long, none, with a sentence."""
    desk = water_project(tmp_path)
    page = Page(report(desk))
    assert rows_below(page, "closed together") == [[*row] for row in worst_pairs_of_water()]
    assert "Of all pairs of open pipes, the table lists those that cost most to lose" in page.text
    said = "There are too many pipes here to find the two that cost most to lose together"

    def refused(*_: object) -> None:
        raise NumberTooLarge("too many")

    for name, by in ("MOST_PAIRED", 13), ("worst_pairs", refused):
        with monkeypatch.context() as patched:
            patched.setattr(project_findings, name, by)
            page = Page(report(desk))
            assert said in page.text and "closed together" not in page.text
            assert len(rows_below(page, "closed")) == 10
    # Without a flow no pair costs anything.
    desk.shut(desk.network.names.place("Harbour"))
    assert "Closed together, no two cost anything." in Page(report(desk)).text
    desk.end()
