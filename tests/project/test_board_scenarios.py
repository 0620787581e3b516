"""Scenarios on the page of a board: a click goes to another one, and the address names what is
shown."""

from __future__ import annotations

import json
from collections.abc import Iterator
from pathlib import Path
from typing import Any

import pytest
from board_pages import dialog
from board_running import Board, board
from desk_shared import PIPES, run, without
from dmf.desk.project.opener import project_desk
from dmf.desk.project.scenarios import project_of
from scenario_pages import ScenarioPage, flooded, water_board

pytestmark = pytest.mark.seconds(20)


@pytest.fixture
def water(tmp_path: Path) -> Iterator[Board]:
    with water_board(tmp_path) as it:
        yield it


def test_go_between(driver: Any, water: Board) -> None:
    """A click goes to a scenario; its steps are undone in it alone; and another tab follows."""
    page = ScenarioPage(driver, water.address)
    assert (page.present(), page.value(), page.scenarios()) == (
        "Pipe",
        180,
        ["first: 155 (10 less)", "Pipe: 180 (15 more)"],
    )
    assert page.go("first") == without("Bridge pipe") and page.undo() == 165
    assert (
        page.go("Pipe") == 180
        and page.go("first") == 165
        and page.scenarios() == ["first: 165 (as base)", "Pipe: 180 (15 more)"]
    )
    assert page.after(lambda: page.click("#redo")) == without("Bridge pipe")
    first = driver.current_window_handle
    driver.switch_to.new_window("tab")
    other = ScenarioPage(driver, water.address)
    assert other.go("Pipe") == 180
    driver.switch_to.window(first)
    page.wait(lambda: page.present() == "Pipe" and page.value() == 180)
    assert "in another tab" in page.text("#news")
    driver.get("about:blank")


def test_make_and_name(driver: Any, water: Board, tmp_path: Path) -> None:
    """Scenarios are begun from the table and from another one, copied, renamed, noted and deleted;
    what they began with is not undone."""
    page = ScenarioPage(driver, water.address)
    page.unfold()

    def name(text: str, press: str) -> None:
        page.write("#scenario-name", text)
        page.after(lambda: page.click(press))

    page.choose_from("#scenario-from", "Pipe")
    name("  <b>Two</b>  pipes ", "#scenario-new")
    page.wait(lambda: page.present() == "<b>Two</b> pipes")
    assert page.value() == 180 and not driver.find_element("id", "undo").is_enabled()
    assert water.do(what="close", arc=9)["at"] == 2
    page.wait(lambda: page.value() != 180)
    assert page.undo() == 180 and not driver.find_element("id", "undo").is_enabled()
    name("Pipe", "#scenario-copy")
    assert "A scenario called 'Pipe' already exists" in page.text("#trouble")
    name("Copy", "#scenario-copy")
    page.wait(lambda: page.present() == "Copy")
    assert driver.find_element("id", "redo").is_enabled()
    name("Later", "#scenario-rename")
    page.wait(lambda: page.present() == "Later")
    page.write("#scenario-text", "for May")
    page.after(lambda: page.click("#scenario-noting button"))
    page.wait(lambda: "Later: for May" in page.text("#scenario-base"))
    page.click("button[aria-label='Delete Pipe']")
    dialog(driver).accept()
    page.wait(lambda: len(page.scenarios()) == 3)
    driver.get("about:blank")
    water.end()
    told = run("dmf-plan", f"{tmp_path}/kept.dmf.json", typed="scenario\n").stdout.splitlines()
    assert [line.split(":")[0].strip(" *") for line in told] == [
        "first",
        "<b>Two</b> pipes, from 'Pipe'",
        "Later, from 'Pipe'",
    ]
    assert told[2].endswith("1 of 2 steps, value 180; for May")


def test_addresses(driver: Any, water: Board) -> None:
    """The address names scenario, choice and comparison: a reload, the way back and a bookmark show
    them again."""
    page = ScenarioPage(driver, water.address)
    page.wait(lambda: driver.current_url.endswith("#scenario=Pipe"))
    page.choose("arc-9", "Mill Lane")
    page.wait(lambda: driver.current_url.endswith("#scenario=Pipe&arc=9"))
    page.choose("arc-15", "New pipe")
    page.wait(lambda: "arc=15&name=New+pipe" in driver.current_url)
    bookmark = driver.current_url
    driver.refresh()
    page.ready()
    page.wait(lambda: page.text("#what h3") == "New pipe")
    driver.back()
    page.wait(lambda: page.text("#what h3") == "Mill Lane")
    assert page.go("first") == 155
    page.compare("first", "Pipe")
    page.wait(lambda: driver.current_url.endswith("#scenario=first&arc=9&one=first&two=Pipe"))
    driver.back()
    page.wait(lambda: not driver.find_element("id", "compared-shown").is_displayed())
    assert driver.find_element("id", "foot").is_displayed()
    driver.back()
    page.wait(lambda: page.present() == "Pipe" and page.value() == 180)
    driver.forward()
    page.wait(lambda: page.present() == "first" and page.value() == 155)
    driver.get("about:blank")
    driver.get(bookmark)
    page.ready()
    page.wait(lambda: page.present() == "Pipe" and page.text("#what h3") == "New pipe")
    # What is not there any more is not named, and another arc of its number is not taken for it.
    water.do(what="go", step=0)
    water.do(what="add", tail=5, head="Market", capacity="3", name="Other")
    driver.get("about:blank")
    driver.get(bookmark.replace("scenario=Pipe", "scenario=gone"))
    page.ready()
    page.wait(lambda: driver.current_url.endswith("#scenario=Pipe"))
    assert page.text("#what h3") == ""
    driver.get("about:blank")


def test_end_of_the_board(driver: Any, water: Board) -> None:
    """After the end the page says how to go on, and what was typed stands there still."""
    page = ScenarioPage(driver, water.address)
    page.choose("arc-9", "Mill Lane")
    page.write("#capacity", "47.3")
    assert water.end() == 130
    page.wait(lambda: "has ended" in page.text("#trouble"))
    said = page.text("#trouble")
    assert (
        "kept.dmf.json”, and open the address" in said and "Each step is in kept.dmf.json." in said
    )
    capacity = driver.find_element("id", "capacity")
    assert (
        capacity.get_attribute("value"),
        capacity.is_enabled(),
        capacity.get_attribute("readonly"),
    ) == ("47.3", True, "true")
    driver.get("about:blank")


def test_refused(water: Board) -> None:
    """What cannot be done is said, and changes nothing; a request of another form is none."""
    before, scenarios = water.state(), water.told("scenarios")
    asked: list[tuple[int, str, dict[str, Any]]] = [
        (409, "no scenario is called 'none'", {"what": "scenario-go", "name": "none"}),
        (409, "a scenario needs a name", {"what": "scenario-new", "name": " ", "from": "base"}),
        (
            409,
            "base is the network of the table",
            {"what": "scenario-new", "name": "base", "from": "base"},
        ),
        (
            409,
            "no scenario is called 'none'",
            {"what": "scenario-new", "name": "A", "from": "none"},
        ),
        (409, "is the present scenario", {"what": "scenario-delete", "name": "Pipe"}),
        (409, "look again", {"what": "scenario-go", "name": "first", "turn": 0}),
        (400, "expected the fields", {"what": "scenario-go"}),
        (400, "must be a text", {"what": "scenario-go", "name": 5}),
    ]
    for status, told, content in asked:
        answer = water.post("do", **content)
        assert answer[0] == status and told in answer[1].decode(), answer
    for words in (
        "one=base&two=none&first=0&count=9",
        "one=base&two=first&first=x&count=9",
        "one=base&two=first&first=0&count=501",
        "one=base",
    ):
        assert water.ask(f"{water.root}comparison?{words}")[0] in (400, 409), words
    assert (water.state(), water.told("scenarios")) == (before, scenarios)


def test_no_project(tmp_path: Path) -> None:
    """A board of a table has no scenarios, and says so."""
    with board(PIPES) as it:
        assert it.told("scenarios")["scenarios"] == [] and it.state()["scenario"] == ""
        status, told = it.post("do", what="scenario-go", name="first")
        assert status == 409 and b"only a project has scenarios" in told
        assert it.ask(f"{it.root}comparison?one=base&two=base&first=0&count=9")[0] == 409


def test_read_alone(driver: Any, tmp_path: Path) -> None:
    """A second board on a project goes between scenarios and compares them, and the page says that
    nothing is kept."""
    desk = flooded(tmp_path)
    with board(project_of(desk).file.path) as it:
        page = ScenarioPage(driver, it.address)
        assert "Nothing is kept, since another desk has it open" in page.text("#kept")
        assert page.go("first") == 126
        page.compare("first", "base")
        assert json.loads(it.post("do", what="scenario-copy", name="A")[1])["error"].startswith(
            "the project is read-only"
        )
        driver.get("about:blank")
    assert [scenario.name for scenario in project_of(desk).project.scenarios] == ["first", "dry"]
    desk.end()
    again = project_desk(project_of(desk).file.path)
    assert project_of(again).scenario.name == "dry"
    again.end()


def test_report(water: Board, tmp_path: Path) -> None:
    """The report of the page is that of the terminal; it needs the present turn, and leaves the
    desk where it was."""
    before = water.state()
    status, sent, page = water.ask(f"{water.root}report.html?turn={before['turn']}")
    assert status == 200 and "attachment" in sent["Content-Disposition"] and water.state() == before
    assert water.ask(f"{water.root}report.html?turn=0")[0] == 409
    water.end()
    ran = run("dmf-plan", f"{tmp_path}/kept.dmf.json", typed=f"report {tmp_path}/report.html\n")
    assert ran.returncode == 0 and (tmp_path / "report.html").read_bytes() == page
