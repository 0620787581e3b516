"""dmf-board on a project: its steps are kept, also where it is killed, and dmf-plan goes on from
them."""

from __future__ import annotations

import shutil
import signal
from pathlib import Path
from typing import Any

from board_pages import Page
from board_running import board
from desk_shared import PIPES, ROOT, run, without
from test_board_access import as_before, judge_colours, show


def test_kept(tmp_path: Path) -> None:
    shutil.copy(ROOT / PIPES, tmp_path)
    with board(f"{tmp_path}/pipes.csv", "--keep") as it:
        assert it.do(what="close", arc=10)["value"] == str(without("Bridge pipe"))
        assert it.do(what="close", arc=9)["value"] == str(without("Bridge pipe", "Mill Lane"))
        assert it.do(what="go", step=1)["value"] == str(without("Bridge pipe"))
        it.process.send_signal(signal.SIGKILL)
    path = f"{tmp_path}/pipes.dmf.json"
    ran = run("dmf-plan", path, typed="redo\nscenario new Later from first\nundo\n")
    assert ran.stdout.splitlines() == [
        f"value {without('Bridge pipe', 'Mill Lane')} litres per second, 45 less, the greatest",
        "scenario 'Later', 2 steps: value 110 litres per second",
    ]
    assert ran.stderr == "dmf-plan: line 3: this scenario has 0 steps of its own to undo\n"
    with board(path) as it:
        state = it.state()
        assert (state["value"], state["at"], [step["text"] for step in state["steps"]]) == (
            "110",
            2,
            ["solve", "close Bridge pipe", "close Mill Lane"],
        )
        status, told = it.post("do", what="go", step=0)
        assert status == 409 and b"of its own to undo" in told
        assert it.do(what="open", arc=9)["value"] == str(without("Bridge pipe"))
        assert "read-only" in run("dmf-plan", path, typed="close Mill Lane\n").stderr
        assert it.end() == 130
    assert (
        run("dmf-plan", path, typed="scenario\n").stdout.splitlines()[-1]
        == "  * Later, from 'first': 3 of 3 steps, value 155"
    )


def test_keep_beside(driver: Any, tmp_path: Path) -> None:
    """The page of a table, here a narrow one in the dark, offers to keep a project beside it; it
    has the steps so far then, and those after them."""
    shutil.copy(ROOT / PIPES, tmp_path)
    with board(f"{tmp_path}/pipes.csv") as it:
        show(driver, 400, "dark")
        page = Page(driver, it.address)
        it.do(what="close", arc=10)
        it.do(what="close", arc=9)
        it.do(what="go", step=1)
        page.wait(lambda: page.value() == without("Bridge pipe"))
        assert page.text("#keep") == "Keep them, and go on another day: pipes.dmf.json"
        page.choose("arc-3", "North rise")
        judge_colours(page, 400)
        turn = it.turn()
        page.click("#keep")
        page.wait(lambda: page.text("#kept") == "Each step is kept in pipes.dmf.json.")
        assert it.turn() > turn and not driver.find_element("id", "keep").is_displayed()
        assert page.text("#news").startswith("The steps are kept in pipes.dmf.json: 155")
        page.wait(lambda: driver.find_element("id", "tab-scenarios").is_displayed())
        judge_colours(page, 400)
        assert it.do(what="close", arc=9)["value"] == str(without("Bridge pipe", "Mill Lane"))
        status, told = it.post("do", what="keep")
        assert status == 409 and b"a project cannot be made of this" in told
        it.process.send_signal(signal.SIGKILL)
    as_before(driver)
    ran = run("dmf-plan", f"{tmp_path}/pipes.dmf.json", typed="steps\n")
    assert "close Bridge pipe" in ran.stdout and "close Mill Lane" in ran.stdout
    with board(f"{tmp_path}/pipes.csv") as it:
        status, told = it.post("do", what="keep")
        assert (
            status == 409
            and b"cannot be made: it already exists; open it, or choose another name" in told
            and it.state()["offer"] == "pipes.dmf.json"
        )
        assert it.do(what="close", arc=10)["value"] == str(without("Bridge pipe"))


def test_page_says_so(driver: Any, tmp_path: Path) -> None:
    """The page says where its steps are kept, and where they are not that they are not."""
    shutil.copy(ROOT / PIPES, tmp_path)
    table = f"{tmp_path}/pipes.csv"
    told = "Nothing is saved of itself: the steps end with this page."
    for words, wanted in ((table,), told), (
        (table, "--keep"),
        "Each step is kept in pipes.dmf.json.",
    ):
        with board(*words) as it:
            assert Page(driver, it.address).text("#kept") == wanted
        driver.get("about:blank")
