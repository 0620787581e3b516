"""Tests where a second pipe helps most, as a board finds it beside its requests, and how its page
shows that, by headless Chromium, beside values that are found by trying all sets of places."""

from __future__ import annotations

from typing import Any

import dmf
import pytest
from board_pages import Page
from board_running import Board, board
from c_library import library_file
from client_shared import BUILT
from desk_shared import PIPES, Pipe, desk_of, greatest, water
from dmf.desk.board import worth_finder
from test_board_roster import ROTA, judge_words
from test_board_worst_pairs import told_of
from test_board_worth import shown, worth

NAMES = [pipe.name for pipe in water()]
NOT_FOUND = (
    "This page does not find where a second one helps most; “what-if each pipe of the cut” in dmf "
    "plan does."
)
# Whether the list is marked as old.
IS_OLD = "return document.getElementById('best').classList.contains('old')"


def best(pipes: list[Pipe]) -> list[tuple[str, str, str]]:
    """The pipes beside which a second one gains something: the greatest value with it, and the
    gain."""
    value = greatest(pipes)
    gains = {pipe.name: greatest([*pipes, pipe]) - value for pipe in pipes}
    ranked = sorted((name for name in gains if gains[name]), key=lambda name: -gains[name])
    return [(name, str(value + gains[name]), str(gains[name])) for name in ranked]


def told(it: Any) -> list[tuple[str, str, str]]:
    seconds = it["seconds"]
    assert seconds["more"] == 0
    return [(row["name"], row["doubled"], row["gain"]) for row in seconds["best"]]


@pytest.fixture
def in_process(monkeypatch: pytest.MonkeyPatch) -> None:
    """Has the library run all sessions."""
    monkeypatch.setenv("DMF_LIBRARY", library_file())
    monkeypatch.setenv("DMF", "/nowhere")


@pytest.mark.usefixtures("in_process")
def test_each_state() -> None:
    """It is of the network as it is, after each change and each step back. No program is needed."""
    assert [name for name, *_ in best(water())] == ["Mill Lane", "South main", "North rise"]
    with board(PIPES) as it:
        assert told(worth(it)) == best(water())
        for closed in "Bridge pipe", "Station Road":
            it.do(what="close", arc=NAMES.index(closed) + 1)
            assert told(worth(it)) == best([pipe for pipe in water() if pipe.name != closed])
            it.do(what="go", step=0)
        assert told(worth(it)) == best(water())


@pytest.mark.usefixtures("in_process")
def test_more_than_five() -> None:
    """Of ten ways that each gain something else, five are listed."""
    ways = "".join(f"a 1 {node} {node}\na {node} 12 99\n" for node in range(2, 12))
    found = told_of(desk_of(f"p max 12 20\nn 1 s\nn 12 t\n{ways}".encode()))["seconds"]
    assert [(row["tail"], row["head"], row["gain"]) for row in found["best"]] == [
        ("1", str(node), str(node)) for node in range(11, 6, -1)
    ]
    assert found["more"] == 5


def test_not_known(monkeypatch: pytest.MonkeyPatch) -> None:
    """The program does not find it; all else is told."""
    monkeypatch.setenv("DMF_LIBRARY", "")
    monkeypatch.setenv("DMF", BUILT)
    with board(PIPES) as it:
        found = worth(it)
        assert (found["is_known"], found["seconds"], len(found["worst"])) == (True, None, 10)
    monkeypatch.setenv("DMF_LIBRARY", library_file())
    monkeypatch.setattr(worth_finder, "MOST_IN_PROCESS", 2)
    text = b"p max 3 3\nn 1 s\nn 3 t\na 1 2 4\na 2 3 4\na 1 3 1\n"
    assert told_of(desk_of(text))["seconds"] is None


@pytest.mark.usefixtures("in_process")
def test_page(driver: Any) -> None:
    """The page lists the pipes, and each name selects its pipe. After a change the list is marked
    as old until it is of the new state."""
    with board(PIPES) as it:
        page = Page(driver, it.address)
        page.know_worth()
        assert shown(page, "best-table") == [[*row, "Try it"] for row in best(water())]
        assert page.text("#best-note") == (
            "With a second one beside one of these, more than 165 litres per second can be sent."
        )
        titles = [it.strip() for it in page.text("#best-table thead").strip().split("\t")]
        assert titles == ["Pipe", "then", "gained", "what can be done"]
        driver.execute_script("document.querySelector('#best-table tbody button').click()")
        page.wait(lambda: "Mill Lane" in page.text("#what h3"))
        assert page.text("#second") == "+15"
        assert not driver.execute_script(IS_OLD)
        driver.execute_script(
            "const ask = window.fetch;"
            "const isLetGo = new Promise((done) => { window.letGo = done; });"
            "window.fetch = async (path, content) => {"
            "  if (path === 'worth') await isLetGo;"
            "  return ask(path, content); };"
        )
        it.do(what="close", arc=NAMES.index("Station Road") + 1)
        page.wait(lambda: driver.execute_script(IS_OLD))
        assert page.text("#best-note").startswith("These are from before the change.")
        driver.execute_script("letGo()")
        left = best([pipe for pipe in water() if pipe.name != "Station Road"])
        (won,) = [gain for name, _, gain in left if name == "Mill Lane"] or ["0"]
        page.wait(lambda: page.text("#second") == f"+{won}")
        page.wait(lambda: not driver.execute_script(IS_OLD))
        assert shown(page, "best-table") == [[*row, "Try it"] for row in left]
        it.do(what="shut", node=1)
        page.wait(lambda: page.value() == 0)
        page.know_worth()
        assert page.text("#best-note") == "A second one of any of them alone brings nothing."
        assert driver.execute_script("return document.getElementById('best-table').hidden")


def judge_trial(page: Page, it: Board, now: int, then: int) -> None:
    """A click tries the first of the list: it is selected, and the page says what comes of it. The
    network is changed only once that is confirmed, and one click takes it back."""
    first = "#best-table tbody tr:first-child button"
    name = page.text(first).partition(",")[0]
    page.press_role("button", "Try ")
    page.settle()
    said = page.text("#best-trial p")
    assert name in said and said.endswith(f": {now} → {then}, {then - now} more.")
    assert page.driver.find_elements("css selector", "#picture .chosen")
    page.press("Leave it")
    assert (page.text("#best-trial"), page.value(), it.state()["at"]) == ("", now, 0)
    page.press_role("button", "Try ")
    assert page.after(lambda: page.press("Put it there")) == then
    assert page.text("#best-trial") == "" and it.state()["at"] == 1
    assert page.undo() == now


@pytest.mark.usefixtures("in_process")
def test_trial(driver: Any) -> None:
    """Of the pipes, each has its own trial, in words; a step from elsewhere drops it."""
    with board(PIPES) as it:
        page = Page(driver, it.address)
        page.know_worth()
        judge_trial(page, it, 165, int(best(water())[0][1]))
        page.know_worth()
        for name, then, gain in best(water()):
            page.press_role("button", f"Try a second {name}")
            said = f"A second {name}: 165 → {then}, {gain} more."
            page.wait(lambda: page.text("#best-trial p") == said)  # noqa: B023
        it.do(what="close", arc=1)
        page.wait(lambda: page.text("#best-trial") == "")


def test_page_of_the_program(driver: Any, monkeypatch: pytest.MonkeyPatch) -> None:
    monkeypatch.setenv("DMF_LIBRARY", "")
    monkeypatch.setenv("DMF", BUILT)
    with board(PIPES) as it:
        page = Page(driver, it.address)
        page.know_worth()
        assert page.text("#best-note") == NOT_FOUND
        assert driver.execute_script("return document.getElementById('best-table').hidden")


def value_with_second(problem: str, number: int) -> int:
    """The greatest value of a problem with a second arc beside this one, by a whole solve."""
    rows = [tuple(map(int, line.split()[1:])) for line in problem.splitlines() if line[:1] == "a"]
    ends = {
        line.split()[2]: int(line.split()[1]) for line in problem.splitlines() if line[:1] == "n"
    }
    return dmf.value([*rows, rows[number - 1]], ends["s"], ends["t"])


@pytest.mark.usefixtures("in_process")
def test_roster(driver: Any) -> None:
    """In the words of a roster: of the hours of a person, a day or a shift, twice as much."""
    with board(*ROTA) as it:
        page = Page(driver, it.address)
        page.know_worth()
        judge_words(page)
        assert page.text("#best-note").startswith(
            "If one of these allows twice as much, more than 120 hours can be staffed."
        )
        problem = it.ask(f"{it.root}problem.max?turn={it.turn()}")[2].decode()
        found = worth(it)["seconds"]["best"]
        wanted = [value_with_second(problem, row["number"]) for row in found]
        assert [int(row["doubled"]) for row in found] == wanted and wanted[0] > 120
        assert shown(page, "best-table") == [
            [row["label"], row["doubled"], row["gain"], "Try it"] for row in found
        ]
        judge_trial(page, it, 120, int(found[0]["doubled"]))
