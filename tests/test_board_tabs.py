"""Tabs of a board that show the same, and what takes long, by headless Chromium."""

from __future__ import annotations

from typing import Any

import pytest
from board_pages import Page, before_pages
from board_running import board
from desk_shared import PIPES, Pipe, greatest, stop_session, water, without
from tool_runs import wait_until_asked
from tunnels import tunnel

pytestmark = pytest.mark.seconds(20)


# Lets a page hear of no newer state while `deaf` is true.
DEAF = """
const add = EventSource.prototype.addEventListener;
EventSource.prototype.addEventListener = function (kind, listener) {
  add.call(this, kind, (event) => { if (!window.deaf || kind !== "message") listener(event); });
};
"""
# Breaks the connection of a page's questions for names as often as it asks each in a row; the last
# one breaks once `giveUp` is called.
BROKEN = """
const { fetch } = window, tries = {};
const released = new Promise((resolve) => { window.giveUp = resolve; });
window.fetch = async (path, ...rest) => {
  if (!path.startsWith("find?")) return fetch(path, ...rest);
  tries[path] = (tries[path] ?? 0) + 1;
  if (tries[path] > 4) return fetch(path, ...rest);
  if (tries[path] === 4) await released;
  throw new TypeError("broken");
};
"""
# What is typed, whether that can be changed, and how many buttons can be pressed.
TYPED = """
const field = document.getElementById("text");
return [field.value, field.readOnly, document.querySelectorAll("button:enabled").length];
"""


def test_live(driver: Any) -> None:
    """What one tab does, the others show, at whichever step they are; and what is done by a request
    alone."""
    with board(PIPES) as it:
        page = Page(driver, it.address)
        first = driver.current_window_handle
        page.choose("arc-9", "Mill Lane")
        driver.switch_to.new_window("tab")
        other = Page(driver, it.address)
        other.choose("arc-10", "Bridge pipe")
        assert other.after(lambda: other.press("Close it")) == without("Bridge pipe")
        driver.switch_to.window(first)
        page.wait(lambda: page.value() == without("Bridge pipe"))
        page.wait(lambda: "Bridge pipe" in page.text("#way"))
        assert page.text("#news") == "The network has changed in another tab."
        assert page.text("#what h3") == "Mill Lane"
        assert page.after(lambda: page.press("Close it")) == without("Bridge pipe", "Mill Lane")
        it.do(what="go", step=1)
        page.wait(lambda: page.value() == without("Bridge pipe"))
        driver.switch_to.window(driver.window_handles[-1])
        other.wait(lambda: other.value() == without("Bridge pipe"))
        driver.close()
        driver.switch_to.window(first)
        driver.get("about:blank")


def test_broken_connection(driver: Any) -> None:
    """A page whose connections break, as those of a tunnel do, goes on with the board, and hears of
    newer states, also where the next ones break too. Where an answer is lost, the page says so and
    shows what is. Where the board is not reached, the page says so, and goes on if it is reached
    again."""
    with tunnel() as way, board("--host-name", f"localhost:{way.port}", PIPES) as it:
        way.lead_to(it.port)
        page = Page(driver, f"http://localhost:{way.port}{it.root}")
        for later, what, value in (0, {"what": "close", "arc": 10}, without("Bridge pipe")), (
            2,
            {"what": "go", "step": 0},
            165,
        ):
            way.break_all(later)
            it.do(**what)
            page.wait(lambda: page.value() == value)  # noqa: B023
            page.settle()
            assert page.text("#trouble") == ""
            way.closed = 0
        page.choose("arc-9", "Mill Lane")
        way.unanswered = b"/do HTTP/"
        page.press("Close it")
        page.wait(
            lambda: page.text("#trouble") == "The connection broke: look whether this was done."
        )
        page.wait(lambda: page.value() == without("Mill Lane"))
        page.settle()
        assert it.state()["at"] == 1
        way.unanswered = b""
        page.wait(lambda: page.text("#what .chips") == "closed")
        assert page.after(lambda: page.press("Open it again")) == 165
        assert page.text("#trouble") == ""
        page.write("#text", "Bridge")
        way.break_all(later=1_000)
        page.wait(
            lambda: page.text("#trouble").startswith(
                "The board does not answer. Where it has ended, start it again"
            )
        )
        assert driver.execute_script(TYPED) == ["Bridge", True, 1]
        it.do(what="close", arc=10)
        way.closed = 0
        page.press("Look again")
        page.wait(lambda: page.value() == without("Bridge pipe"))
        page.settle()
        assert page.text("#trouble") == ""
        assert driver.execute_script(TYPED)[:2] == ["Bridge", False]
        assert page.undo() == 165
        assert "error" not in it.do(what="close", arc=10)
        page.wait(lambda: page.value() == without("Bridge pipe"))
        it.end()
        page.wait(lambda: "The board does not answer." in page.text("#trouble"))


def test_answered_meanwhile(driver: Any) -> None:
    """Where one question was not answered, and others were meanwhile, that one is asked again: the
    page does not say that the board is not reached."""
    with board(PIPES) as it:
        page = Page(driver, it.address)
        driver.execute_script(BROKEN)
        page.write("#text", "Bridge")
        it.do(what="close", arc=10)
        page.wait(lambda: page.value() == without("Bridge pipe"))
        driver.execute_script("giveUp()")
        page.wait(lambda: page.text("#trouble") or page.text("#found button"))
        assert page.text("#trouble") == ""
        assert page.text("#found button").startswith("Bridge pipe")
        driver.get("about:blank")


def test_late(driver: Any) -> None:
    """A request from a tab that shows an older state changes nothing, and the tab then shows
    the present one."""
    with before_pages(driver, DEAF), board(PIPES) as it:
        page = Page(driver, it.address)
        page.choose("arc-3", "North rise")
        page.know_worth()
        driver.execute_script("window.deaf = true")
        it.do(what="close", arc=10)
        it.do(what="close", arc=9)
        now = it.state()
        assert page.value() == 165
        page.press("Close it")
        page.wait(
            lambda: page.text("#trouble") == "The network has changed in another tab: look again."
        )
        page.wait(lambda: page.value() == without("Bridge pipe", "Mill Lane"))
        assert (it.state(), "Mill Lane" in page.text("#way")) == (now, True)
        # Of two clicks at once the second is none.
        driver.execute_script("for (const _ of [1, 2]) document.getElementById('undo').click()")
        page.wait(lambda: page.value() == without("Bridge pipe"))
        page.settle()
        assert (page.text("#trouble"), it.state()["at"]) == ("", 1)
        # What is asked of a state that has passed shows the present one.
        it.do(what="go", step=0)
        page.click("#arc-9 text")
        page.wait(lambda: page.value() == 165)
        page.wait(lambda: page.text("#what h3") == "Mill Lane")
        driver.get("about:blank")


def test_long(driver: Any) -> None:
    """What takes long can be stopped, and the steps before it are kept."""
    with board(PIPES) as it:
        page = Page(driver, it.address)
        page.choose("arc-10", "Bridge pipe")
        assert page.after(lambda: page.press("Close it")) == 155
        page.choose("node-5", "Mill")
        (session,) = it.sessions()
        stop_session(session)
        page.press("Shut it")
        stop = driver.find_element("id", "end")
        driver.execute_script("scrollTo(0, 80)")
        seen = "return document.getElementById('picture').getBoundingClientRect().top"
        before = driver.execute_script(seen)
        page.wait(stop.is_displayed)
        # What comes above the picture does not move it.
        assert driver.execute_script(seen) == pytest.approx(before, abs=1)
        wait_until_asked(session)
        stop.click()
        page.wait(lambda: "It was stopped. The session was begun again" in page.text("#trouble"))
        page.settle()
        assert (page.value(), stop.is_displayed(), it.state()["at"]) == (155, False, 1)
        assert page.after(lambda: page.press("Shut it")) < 155
        assert page.text("#trouble") == ""
        driver.get("about:blank")


def test_new_place(driver: Any) -> None:
    """A name that no place has makes a place only if its box is ticked. Those near it are offered,
    and another name takes the box away."""
    with board(PIPES) as it:
        page = Page(driver, it.address)

        def boxes() -> list[Any]:
            return list(driver.find_elements("css selector", "#is-new"))

        page.choose("node-5", "Mill")
        page.write("#new-head", "Statoin")
        page.wait(boxes)
        assert "No place is called “Statoin”. Is it" in page.text("#new-place")
        page.press("Station")
        assert page.driver.find_element("id", "new-head").get_attribute("value") == "Station"
        assert not boxes()
        page.write("#new-capacity", "50")
        page.write("#new-head", "New Town")
        page.press("Add it")
        page.wait(lambda: page.text("#trouble") == "No place is called 'New Town'.")
        assert it.state()["at"] == 0
        page.wait(boxes)
        page.click("#is-new")
        page.after(lambda: page.press("Add it"))
        assert (it.state()["at"], it.state()["places"]) == (1, 10)
        page.choose("node-10", "New Town")
        page.write("#new-head", "Harbour")
        page.write("#new-capacity", "30")
        pipes = [Pipe("Mill", "New Town", 50, ""), Pipe("New Town", "Harbour", 30, "")]
        assert page.after(lambda: page.press("Add it")) == greatest([*water(), *pipes])
        assert page.undo() == 165
        assert page.undo() == 165
        page.wait(lambda: not driver.find_elements("id", "node-10"))
        driver.get("about:blank")


def test_typed(driver: Any) -> None:
    """What is typed and not sent stays, also while another tab makes a step, and where it is
    refused. What is done is typed no more."""

    def typed(*fields: str) -> list[str]:
        return [
            str(driver.execute_script("return document.getElementById(arguments[0]).value", field))
            for field in fields
        ]

    with board(PIPES) as it:
        page = Page(driver, it.address)
        page.choose("node-5", "Mill")
        page.write("#new-head", "Harbuor")
        page.write("#new-capacity", "7")
        it.do(what="close", arc=10)
        page.wait(lambda: page.value() == without("Bridge pipe"))
        page.settle()
        assert typed("new-head", "new-capacity", "new-name") == ["Harbuor", "7", ""]
        page.press("Add it")
        page.wait(lambda: page.text("#trouble") == "No place is called 'Harbuor'; is it 'Harbour'?")
        assert (page.text("#news"), typed("new-head")) == ("", ["Harbuor"])
        page.write("#new-head", "harbour")
        driver.execute_script("document.getElementById('new-head').focus()")
        page.after(lambda: page.press("Add it"))
        assert (it.state()["at"], typed("new-head", "new-capacity")) == (2, ["", ""])
        # Of another pipe nothing is typed.
        page.choose("arc-9", "Mill Lane")
        page.write("#capacity", "+5")
        page.choose("arc-12", "Market link")
        capacity = it.told("arc?number=12")["capacity"]
        page.wait(lambda: typed("capacity") == [capacity])
        page.write("#capacity", "+5")
        page.after(lambda: page.press("Set"))
        assert typed("capacity") == [str(int(capacity) + 5)]
        driver.get("about:blank")
