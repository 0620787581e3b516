"""Shows tools/dmf-board by headless Chromium: the water story by clicks, compared with the same
story from the shell and from dmf-plan; a reload; the page's end; and what the documents show of it,
which `--write` renews."""

from __future__ import annotations

import os
import re
import signal
import subprocess
import tempfile
from pathlib import Path
from typing import Any

import pytest
from board_pages import Page, set_width
from board_running import Board, board
from desk_shared import ODD, PIPES, ROOT, SCRIPT, STORY, run, swept
from dmf.desk.board.server import Door

pytestmark = pytest.mark.seconds(20)


def test_story(driver: Any) -> None:
    """The water story in three ways."""
    commands = ROOT / "examples/water/tomorrow.txt"
    with tempfile.NamedTemporaryFile() as problem:
        made = run("dmf-problem", "--table", PIPES, "Reservoir", "Harbour")
        Path(problem.name).write_text(made.stdout)
        ran = subprocess.run(
            [ROOT / "dmf", "session", problem.name],
            stdin=open(commands),
            capture_output=True,
            text=True,
            check=True,
        )
    shell = [int(it) for it in re.findall("^s ([0-9]+)$", ran.stdout, re.MULTILINE)]
    told = re.findall("value ([0-9]+)", run("dmf-plan", PIPES, typed=SCRIPT).stdout)
    typed = [int(found) for line, found in zip(SCRIPT.splitlines(), told) if line == "solve"]
    with board(PIPES) as it:
        page = Page(driver, it.address)
        clicked = [page.value()]
        page.choose("arc-11", "Market Street")
        page.write("#capacity", "120")
        clicked.append(page.after(lambda: page.press("Set")))
        assert page.undo() == 165
        page.choose("node-5", "Mill")
        page.write("#new-head", "Station")
        page.write("#new-capacity", "25")
        clicked.append(page.after(lambda: page.press("Add it")))
        assert page.undo() == 165
        for arc, name in ("arc-12", "Market link"), ("arc-10", "Bridge pipe"):
            page.choose(arc, name)
            clicked.append(page.after(lambda: page.press("Close it")))
            page.wait(lambda: "closed" in page.text("#what"))  # noqa: B023
            if name == "Market link":
                assert page.undo() == 165
        assert (shell, typed, clicked) == (
            STORY,
            STORY,
            STORY,
        ), f"the story: {shell}, {typed}, {clicked}, and not {STORY}"
        limit = page.text("#limit-table")
        assert all(
            name in limit for name in ("North rise", "South rise", "Mill Lane")
        ), f"the limit: {limit}"
        driver.refresh()
        page.ready()
        assert (page.value(), "Bridge pipe" in page.text("#way")) == (155, True)
        page.after(lambda: page.press("as in the file: 165"))
        assert page.after(lambda: page.click("#redo")) == 155
        assert page.undo() == 165
        page.know_worth()
        wanted = swept()
        worst = min(wanted, key=lambda name: wanted[name][0])
        assert page.text("#worst-table tbody td").startswith(worst)
        judge_keys(page)
        judge_sessions(page, it)
        # What is refused, and a session that has ended, a browser tells as well.
        logged = [
            one["message"]
            for one in driver.get_log("browser")
            if not re.search("status of (409|410)", one["message"])
        ]
        assert logged == [], f"the browser says {logged}"
        driver.get("about:blank")
        status = it.ended()
        assert status == 0, f"the end of the page: {status}"


def judge_keys(page: Page) -> None:
    """The keyboard alone chooses an arc, and each control has a name."""
    picture = page.driver.find_element("id", "picture")
    picture.send_keys("\ue012")
    part = page.driver.switch_to.active_element
    label = part.find_element("css selector", "title").get_attribute("textContent")
    part.send_keys("\ue007")
    page.wait(lambda: page.text("#what h3") and label.startswith(page.text("#what h3")))
    unnamed = page.driver.execute_script(
        "return [...document.querySelectorAll('button, input, a, g.arc, g.node')].filter((it) => "
        "it.checkVisibility() && "
        "!(it.textContent.trim() || it.getAttribute('aria-label') || it.labels?.length)).map((it) "
        "=> it.outerHTML)"
    )
    assert unnamed == [], f"controls without a name: {unnamed}"
    page.write("#text", "mill l")
    page.wait(lambda: page.text("#found button") == "Mill Lane, Mill -> Market")
    page.click("#found button")
    page.wait(lambda: page.text("#what h3") == "Mill Lane")
    page.write("#capacity", "1,200")
    page.press("Set")
    page.wait(lambda: page.text("#trouble") == "'1,200' may be 1.2 or 1200.")
    assert page.value() == 165


def judge_sessions(page: Page, it: Board) -> None:
    """Where the session ends by itself, the board begins again with the steps, the page says so,
    and goes on."""
    page.after(lambda: page.press("Close it"))
    page.choose("arc-3", "North rise")
    (session,) = it.sessions()
    os.kill(session, signal.SIGKILL)
    page.press("Close it")
    page.wait(
        lambda: "SIGKILL. The session was begun again, with the steps that were made."
        in page.text("#trouble")
    )
    page.settle()
    assert page.value() == 120, f"begun again: {page.value()}"
    page.after(lambda: page.press("Close it"))
    assert page.text("#trouble") == ""
    assert page.undo() == 120


def test_opening(driver: Any) -> None:
    """The file that a browser is started with leads to the page. Without the token there is a page
    that says how to get in."""
    with board(PIPES) as it:
        driver.get_log("browser")
        driver.get(f"http://{it.host}/")
        assert (
            "The board printed its address where it was started"
            in driver.find_element("tag name", "body").text
        )
        # The browser says that it was refused.
        assert any("status of 403" in said["message"] for said in driver.get_log("browser"))
        door = Door(it.address)
        try:
            driver.get(door.address)
            page = Page(driver, "")
            assert page.value() == 165
        finally:
            door.remove()
        driver.get("about:blank")


def test_names(driver: Any) -> None:
    """A name of HTML and quotes is shown as it is, wherever it stands."""
    with tempfile.TemporaryDirectory() as folder:
        quoted = ODD.replace('"', '""')
        table = Path(folder, "odd.csv")
        table.write_text(
            f'from,to,litres,"{quoted[:30]}"\nA,"{quoted}",5,"{quoted}"\n'
            f'"{quoted}",C,3,</script><b>\n'
        )
        with board(str(table)) as it:
            page = Page(driver, it.address)
            page.choose("arc-1", ODD)
            assert page.after(lambda: page.press("Close it")) == 0
            assert page.after(lambda: page.press("Open it again")) == 3
            made = driver.find_elements("css selector", "img, b, main script")
            assert made == [] and driver.title != "1", f"a name became markup: {made}"
            assert ODD in page.text("#way"), f"the steps: {page.text('#way')}"
            driver.get("about:blank")


def test_widths(driver: Any) -> None:
    """Nothing but the picture and the tables goes past a narrow page."""
    with board(PIPES) as it:
        for width in 400, 768, 1280:
            set_width(driver, width)
            page = Page(driver, it.address)
            page.press("What would a second one bring?")
            page.wait(lambda: "second" in page.text("#seconds-told"))  # noqa: B023
            wide = driver.execute_script("return document.documentElement.scrollWidth")
            cut = driver.execute_script(
                "const it = document.getElementById('limit-table').parentElement; return "
                "it.scrollWidth - it.clientWidth"
            )
            assert cut <= 0, f"at {width} pixels the table of the bottleneck is cut by {cut}"
            assert wide <= width, f"at {width} pixels the page has {wide}"
        driver.execute_cdp_cmd("Emulation.clearDeviceMetricsOverride", {})
        driver.get("about:blank")


def test_pictures(driver: Any, writes: bool) -> None:
    """The pictures of the documents, which are made at least, and with --write put."""
    with board(PIPES) as it:
        for name, width, height in ("board", 1280, 860), ("board-small", 400, 800):
            metrics = {
                "width": width,
                "height": height,
                "deviceScaleFactor": 1,
                "mobile": width == 400,
            }
            driver.execute_cdp_cmd("Emulation.setDeviceMetricsOverride", metrics)
            page = Page(driver, it.address)
            page.know_worth()
            page.choose("arc-9", "Mill Lane")
            driver.execute_script("scrollTo(0, 0)")
            picture = driver.get_screenshot_as_png()
            assert int.from_bytes(picture[16:20], "big") == width
            if writes:
                (ROOT / f"docs/pictures/{name}.png").write_bytes(picture)
        driver.execute_cdp_cmd("Emulation.clearDeviceMetricsOverride", {})
        driver.get("about:blank")


ASKED = "return performance.getEntriesByType('resource').map((it) => it.name.split('/').pop())"


def test_a_click_is_one_request(driver: Any) -> None:
    """What the page shows after an act comes with its answer: the state, the picture, the rows and
    the arc that is chosen."""
    with board(PIPES) as it:
        page = Page(driver, it.address)
        page.choose("arc-12", "Market link")
        page.settle()
        clicks = [lambda: page.press("Close it"), lambda: page.click("#undo")]
        for click, looks in zip(clicks, ("closed", "of 15")):
            page.know_worth()
            driver.execute_script("performance.clearResourceTimings()")
            assert page.after(click) == 165
            assert looks in page.text("#what")
            # What each is worth is asked for after that.
            asked = [*driver.execute_script(ASKED), "worth"]
            assert asked[: asked.index("worth")] == ["do"]
