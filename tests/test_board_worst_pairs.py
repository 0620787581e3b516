"""Tests what a board finds of the worst pairs of pipes beside its requests, and how its page shows
them, by headless Chromium, beside values that are found by trying all sets of places."""

from __future__ import annotations

from itertools import combinations
from pathlib import Path
from typing import Any

import pytest
from board_pages import Page
from board_running import board
from c_library import library_file
from client_shared import BUILT, script
from desk_shared import PIPES, Pipe, desk_of, greatest, water
from dmf.desk.board import worth_finder
from dmf.desk.board.shown import Shown
from dmf.desk.workspace import Desk
from test_board_worth import shown, waited, worth

FINDING = "Finding the two pipes that cost most to lose together .."
NAMES = [pipe.name for pipe in water()]
NOT_LISTED = (
    "This page does not list which two pipes cost most to lose together; “worst pairs” in dmf plan "
    "does."
)


def worst_pairs(pipes: list[Pipe]) -> list[tuple[list[str], str, str]]:
    """The five worst pairs: their names, what is left without both, and what is lost."""
    value = greatest(pipes)
    left = {
        pair: greatest([it for it in pipes if it not in pair]) for pair in combinations(pipes, 2)
    }
    # Combinations come by their numbers, and sorting keeps the order of equal ones.
    wanted = sorted((pair for pair in left if left[pair] < value), key=left.__getitem__)[:5]
    return [([it.name for it in pair], str(left[pair]), str(value - left[pair])) for pair in wanted]


def told_pairs(told: Any) -> list[tuple[list[str], str, str]]:
    return [
        ([arc["name"] for arc in row["arcs"]], row["without"], row["lost"]) for row in told["pairs"]
    ]


@pytest.mark.parametrize("by_library", [True, False])
def test_each_state(by_library: bool, monkeypatch: pytest.MonkeyPatch) -> None:
    """They are of the network as it is, after each change and each step back."""
    monkeypatch.setenv("DMF_LIBRARY", library_file() if by_library else "")
    if by_library:
        monkeypatch.setenv("DMF", "/nowhere")
    without = [pipe for pipe in water() if pipe.name != "Bridge pipe"]
    with board(PIPES) as it:
        assert told_pairs(worth(it)) == worst_pairs(water())
        it.do(what="close", arc=NAMES.index("Bridge pipe") + 1)
        assert told_pairs(worth(it)) == worst_pairs(without)
        it.do(what="go", step=0)
        assert told_pairs(worth(it)) == worst_pairs(water())


def test_failures(monkeypatch: pytest.MonkeyPatch) -> None:
    """If pairs alone cannot be found, all else is told, and that they are not known."""
    with script(f'test "$2" != --pairs || exit 9\nexec "{BUILT}" "$@"') as program:
        monkeypatch.setenv("DMF", program)
        with board(PIPES) as it:
            told = worth(it)
            assert (told["is_known"], told["pairs"], len(told["worst"])) == (True, None, 10)


def told_of(desk: Desk) -> Any:
    """What a page is told of a desk once nothing is being found."""
    shown_desk, told = Shown(desk, {}), dict[str, Any]()

    def is_found() -> bool:
        told.update(shown_desk.worth())
        return not told["is_finding"]

    waited(is_found)
    shown_desk.worth_finder.end()
    desk.end()
    return told


def test_too_many(monkeypatch: pytest.MonkeyPatch) -> None:
    """In a larger network, and where the list of pairs of arcs would be too long, they are not
    known; all else is."""
    text = b"p max 3 3\nn 1 s\nn 3 t\na 1 2 4\na 2 3 4\na 1 3 1\n"
    assert len(told_of(desk_of(text))["pairs"]) == 3
    for bound in "MOST_PAIRED", "MOST_ASKED":
        with monkeypatch.context() as patched:
            patched.setattr(worth_finder, bound, 2)
            told = told_of(desk_of(text))
            assert (told["is_known"], told["pairs"], len(told["worst"])) == (True, None, 3)


def rows_of(wanted: list[tuple[list[str], str, str]]) -> list[list[str]]:
    return [[" and ".join(names), *numbers] for names, *numbers in wanted]


def wait_for_arc(page: Page, name: str) -> None:
    """Waits until this arc is selected."""
    page.wait(lambda: name in page.text("#what h3"))


def test_page(driver: Any) -> None:
    """The page lists the five worst pairs, and each name selects its pipe. After a change they are
    of the new state."""
    from selenium.webdriver.common.by import By

    with board(PIPES) as it:
        page = Page(driver, it.address)
        page.know_worth()
        wanted = worst_pairs(water())
        assert shown(page, "worst-pairs-table") == rows_of(wanted)
        said = (
            "The two pipes of each row cost most to lose together. The table shows what is left "
            "of 165 litres per second if both are closed."
        )
        assert page.text("#worst-pairs-note") == said
        titles = page.text("#worst-pairs-table thead").strip().split("\t")
        assert titles == ["Closed together", "without both", "lost"]
        (first, second), *_ = wanted[1]
        row = driver.find_elements(By.CSS_SELECTOR, "#worst-pairs-table tbody tr")[1]
        names = row.find_elements(By.CSS_SELECTOR, "button")
        assert [(it.aria_role, it.accessible_name) for it in names] == [
            ("button", first),
            ("button", second),
        ]
        for click, name in zip(names, (first, second)):
            driver.execute_script("arguments[0].click()", click)
            wait_for_arc(page, name)
        it.do(what="close", arc=NAMES.index("Bridge pipe") + 1)
        page.wait(lambda: page.value() == 155)
        page.know_worth()
        left = worst_pairs([pipe for pipe in water() if pipe.name != "Bridge pipe"])
        page.wait(lambda: shown(page, "worst-pairs-table") == rows_of(left))


def test_found_last(driver: Any, monkeypatch: pytest.MonkeyPatch) -> None:
    """While the pairs are being found, the arcs are shown, and the pairs from before are marked as
    old; if they cannot be found, the page says what lists them."""
    waiting = 'while test -e "$0.wait"; do sleep 0.05; done; test ! -e "$0.fail" || exit 9'
    with script(f'test "$2" != --pairs || {{ {waiting}; }}\nexec "{BUILT}" "$@"') as program:
        monkeypatch.setenv("DMF", program)
        with board(PIPES) as it:
            page = Page(driver, it.address)
            page.know_worth()
            holds = [Path(f"{program}.{end}") for end in ("wait", "fail")]
            for hold in holds:
                hold.touch()
            it.do(what="close", arc=NAMES.index("Bridge pipe") + 1)
            page.wait(lambda: page.value() == 155)
            page.wait(lambda: page.text("#worst-note").startswith("What is left of 155 "))
            is_old = "return !!document.querySelector('#worst-pairs-table.old')"
            assert driver.execute_script(is_old)
            assert shown(page, "worst-pairs-table") == rows_of(worst_pairs(water()))
            assert page.text("#worst-pairs-note") == FINDING
            holds[0].unlink()
            page.know_worth()
            assert page.text("#worst-pairs-note") == NOT_LISTED
            assert not driver.execute_script(is_old)
            hidden = "return document.getElementById('worst-pairs-table').hidden"
            assert driver.execute_script(hidden)
