"""More tabs of a board than a browser has connections to one server, by headless Chromium."""

from __future__ import annotations

from collections.abc import Iterator
from typing import Any

import pytest
from board_pages import OTHER_NAME, Page, dialog
from board_running import Board, board
from desk_shared import PIPES, without

pytestmark = pytest.mark.seconds(20)
# Chromium has six connections to one server, of all its tabs together.
CONNECTIONS = 6
TABS = CONNECTIONS + 2


def open_tabs(driver: Any, it: Board, count: int) -> list[str]:
    """So many tabs of a board, beside the one that is there."""
    tabs = []
    for _ in range(count):
        driver.switch_to.new_window("tab")
        assert Page(driver, it.address).value() == 165
        tabs.append(driver.current_window_handle)
    return tabs


def shown_by(driver: Any, tabs: list[str]) -> Iterator[Page]:
    """The page of each tab in turn."""
    for tab in tabs:
        driver.switch_to.window(tab)
        yield Page(driver, "")


def judge(driver: Any, tabs: list[str], value: int) -> None:
    """Each tab shows a value in the end, by itself."""
    for page in shown_by(driver, tabs):
        page.wait(lambda: page.value() == value)  # noqa: B023
        page.settle()
        assert page.text("#trouble") == ""


def test_many_tabs(driver: Any) -> None:
    """Each tab shows what another one does, and what is done by a request alone, also when tabs are
    closed, whichever they are. After the last one the board ends."""
    first = driver.current_window_handle
    with board(PIPES) as it:
        tabs = open_tabs(driver, it, TABS)
        driver.switch_to.window(tabs[-1])
        page = Page(driver, "")
        page.choose("arc-10", "Bridge pipe")
        assert page.after(lambda: page.press("Close it")) == without("Bridge pipe")
        judge(driver, tabs, without("Bridge pipe"))
        # The tab that came first holds the connection to the board.
        for value, what in (165, {"what": "go", "step": 0}), (
            without("Mill Lane"),
            {"what": "close", "arc": 9},
        ):
            driver.switch_to.window(tabs.pop(0))
            driver.close()
            driver.switch_to.window(tabs[0])
            assert "error" not in it.do(**what)
            judge(driver, tabs, value)
        for page in shown_by(driver, tabs):
            driver.close()
        driver.switch_to.window(first)
        assert it.ended() == 0


def test_other_name(driver: Any) -> None:
    """So it is under another name than localhost, where a browser has no locks, no workers that
    last, and no more connections."""
    first = driver.current_window_handle
    with board("--host-name", OTHER_NAME, PIPES) as it:
        here, it.address = it.address, f"http://{OTHER_NAME}:{it.port}{it.root}"
        tabs = open_tabs(driver, it, TABS)
        assert driver.execute_script("return [isSecureContext, location.hostname]") == [
            False,
            OTHER_NAME,
        ]
        driver.switch_to.window(tabs.pop(0))
        driver.close()
        driver.switch_to.window(tabs[-1])
        page = Page(driver, "")
        page.choose("arc-10", "Bridge pipe")
        assert page.after(lambda: page.press("Close it")) == without("Bridge pipe")
        judge(driver, tabs, without("Bridge pipe"))
        # A tab under the other name has its own connection.
        driver.switch_to.window(first)
        assert Page(driver, here).undo() == 165
        judge(driver, tabs, 165)
        for page in shown_by(driver, tabs):
            driver.close()
        driver.switch_to.window(first)
        driver.get("about:blank")
        assert it.ended() == 0


def test_dialog(driver: Any) -> None:
    """While the tab that holds the connection has a dialog open, another one holds it. Then the
    first one shows what came meanwhile."""
    first = driver.current_window_handle
    with board(PIPES) as it:
        tabs = open_tabs(driver, it, 3)
        driver.switch_to.window(tabs[0])
        driver.execute_script("setTimeout(() => confirm('Is this still open?'))")
        dialog(driver)
        assert "error" not in it.do(what="close", arc=10)
        judge(driver, tabs[1:], without("Bridge pipe"))
        assert "error" not in it.do(what="go", step=0)
        judge(driver, tabs[1:], 165)
        assert "error" not in it.do(what="close", arc=9)
        driver.switch_to.window(tabs[0])
        driver.switch_to.alert.accept()
        judge(driver, tabs, without("Mill Lane"))
        for page in shown_by(driver, tabs):
            driver.close()
        driver.switch_to.window(first)
        assert it.ended() == 0
