"""Pictures that are laid out anew, by *Tidy*, and as a whole beside the page."""

from __future__ import annotations

import json
import time
from pathlib import Path
from shutil import which
from typing import Any

import pytest
from board_pages import Page, before_pages, dialog
from board_running import Board as Running
from board_running import board
from board_views import SCALE, grid_table, spots
from desk_shared import PIPES
from limits import SECONDS
from test_board_access import as_before, show
from test_board_moved import MIDDLES, move, node_of

pytestmark = pytest.mark.seconds(20)


@pytest.mark.parametrize("does", [False, True])
def test_tidy(driver: Any, does: bool) -> None:
    """What was moved is taken back after a question, and the picture is as a new board lays it out
    for this window. Where nothing was moved, nothing is asked."""
    with board(PIPES) as it, board(PIPES) as fresh:
        show(driver, 768, "light")
        page = Page(driver, it.address)
        wanted = laid_out(page, fresh)
        page.press("Tidy")
        page.wait(lambda: page.text("#news") == "The picture is laid out anew.")
        assert driver.execute_script(MIDDLES) == wanted
        move(it, node_of(it, "Mill"), 300, -50)
        move(it, node_of(it, "Market"), 400, -50)
        moved = {part: [*at] for part, at in spots(it).items()}
        page.wait(lambda: driver.execute_script(MIDDLES) == moved)
        page.choose("arc-9", "Mill Lane")
        wanted = laid_out(page, fresh)
        driver.find_element("id", "picture").send_keys("t")
        alert = dialog(driver)
        assert alert.text.startswith("The 2 places that you moved will lie where the picture puts")
        if does:
            alert.accept()
            page.wait(lambda: driver.execute_script(MIDDLES) == wanted)
            assert it.told("picture?near=")["moved"] == 0
        else:
            alert.dismiss()
            assert driver.execute_script(MIDDLES) == moved
        assert page.text("#what h3") == "Mill Lane"
        as_before(driver)


def laid_out(page: Page, fresh: Running) -> dict[str, list[str]]:
    """Where a new board lays out the places for the window of a page."""
    script = "const tell = arguments[0]; import('./room.js').then((it) => tell(it.formOf()))"
    form = page.driver.execute_async_script(script)
    return {part: [*at] for part, at in spots(fresh, f"&form={form}").items()}


def test_tidy_beside(tmp_path: Path, monkeypatch: pytest.MonkeyPatch) -> None:
    """A network of 2,112 arcs is laid out as a whole while the board answers, and steps go on; then
    all of it is shown, no place on another. A move meanwhile stops it."""
    # Graphviz lays nothing out while the file is not there.
    go, programs = tmp_path / "go", tmp_path / "programs"
    programs.mkdir()
    go.touch()
    waiting = programs / "sfdp"
    waiting.write_text(
        f'#!/bin/sh\nuntil [ -e {go} ]; do sleep 0.05; done\nexec {which("sfdp")} "$@"\n'
    )
    waiting.chmod(0o755)
    monkeypatch.setenv("PATH", str(programs), prepend=":")
    with board(grid_table(tmp_path, 33)) as it:
        spots(it)
        assert not it.told("picture?near=")["has_ground"]
        go.unlink()
        assert it.post("tidy", near="", form=140)[0] == 200
        assert json.loads(it.post("tidied")[1])["is_laying_out"]
        it.do(what="close", arc=5)
        assert it.state()["at"] == 1 and json.loads(it.post("tidied")[1])["is_laying_out"]
        go.touch()
        while json.loads(it.post("tidied")[1])["is_laying_out"]:
            time.sleep(0.05)
        told = it.told("picture?near=")
        assert told["has_ground"] and not told["fixed"]
        ground = it.told("ground")
        assert len(ground["nodes"]) == 33 * 33 + 2
        middles = sorted(zip(ground["right"], ground["down"]))
        for at, (x, y) in enumerate(middles):
            for other_x, other_y in middles[at + 1 : at + 40]:
                assert abs(other_x - x) > 5 or abs(other_y - y) > 5
        go.unlink()
        it.post("tidy", near="", form=140)
        move(it, ground["nodes"][0], ground["right"][0] + 10, ground["down"][0])
        go.touch()
        told = {"is_laying_out": True}
        while told.get("is_laying_out"):
            told = json.loads(it.post("tidied")[1])
        assert told["error"] == "a place was moved meanwhile, so the picture stays as it is"
        assert it.told("ground")["right"][0] == pytest.approx(ground["right"][0] + 10, abs=0.01)


def test_no_program_is_left(tmp_path: Path, monkeypatch: pytest.MonkeyPatch) -> None:
    """A board that ends while places are laid out ends Graphviz too."""
    dot, begun = tmp_path / "dot", tmp_path / "begun"
    dot.write_text(f"#!/bin/sh\necho $$ > {begun}.part; mv {begun}.part {begun}\nexec sleep 300\n")
    dot.chmod(0o755)
    monkeypatch.setenv("PATH", str(tmp_path), prepend=":")
    with board(PIPES) as it:
        assert it.post("tidy", near="", form=140)[0] == 200
        while not begun.exists():
            time.sleep(0.01)
        program = Path("/proc", begun.read_text().strip(), "cmdline")
        assert program.read_text()
        assert it.end() == 130
        until = time.monotonic() + SECONDS
        while program.exists() and program.read_text() and time.monotonic() < until:
            time.sleep(0.01)
        # A program that nobody has waited for yet has no words any more.
        assert not program.exists() or not program.read_text()


# Lets a page hear that a layout is done once `goOn` is called. In braces, since a name declared at
# the top of a script that runs before those of a page would hide the window's own from them.
HELD = """{
const { fetch } = window;
const released = new Promise((resolve) => { window.goOn = resolve; });
window.fetch = async (path, ...rest) => {
  if (path === "tidied") await released;
  return fetch(path, ...rest);
};
}"""
# Where the middle of a line is on the screen.
LINE = """
const path = document.querySelector(`#${arguments[0]} path:not(.wide)`);
const box = path?.getBoundingClientRect();
return box ? [box.x + box.width / 2, box.y + box.height / 2] : [];
"""


def test_all_laid_out(driver: Any, tmp_path: Path) -> None:
    """A network with more arcs than a picture has is laid out by itself as a whole, up to 3,000
    arcs, and shown when that is done; meanwhile a part is shown, and steps go on. A selection in a
    view that was moved stays where it is seen."""
    with board(grid_table(tmp_path, 22)) as it:
        show(driver, 1280, "light")
        with before_pages(driver, HELD):
            page = Page(driver, it.address)
        assert "300 of 968" in page.text("#drawn-note")
        arc = it.state()["limit"][0]
        page.choose(f"arc-{arc['number']}", arc["short"])
        page.press("What is chosen")
        page.press("Smaller")
        page.settle()
        before, scale = driver.execute_script(LINE, f"arc-{arc['number']}"), driver.execute_script(
            SCALE
        )
        assert it.do(what="close", arc=1)["at"] == 1
        page.wait(lambda: "close" in page.text("#way"))
        driver.execute_script("goOn()")
        page.wait(lambda: "All 968 are drawn" in page.text("#drawn-note"))
        page.settle()
        assert driver.execute_script(SCALE) == pytest.approx(scale, rel=1e-3)
        assert driver.execute_script(LINE, f"arc-{arc['number']}") == pytest.approx(before, abs=1)
        assert page.text("#what h3") == arc["short"]
        assert len(it.told("ground")["nodes"]) == 22 * 22 + 2
        # Once only.
        version = it.told("picture?near=")["version"]
        driver.refresh()
        page.ready()
        page.wait(lambda: "All 968 are drawn" in page.text("#drawn-note"))
        assert it.told("picture?near=")["version"] == version
        as_before(driver)


# The first lines of all labels of the picture in front; and that of what is selected, if seen.
ALL_NAMED = """
return [...document.querySelectorAll("#picture .arc")].map((it) =>
  it.querySelector("text")?.textContent);
"""
NAMED = """
const text = document.querySelector("#picture .chosen text");
return text?.checkVisibility() ? text.textContent : "";
"""


# Delays each picture around a place by more than the time for which a view has to rest.
DELAYED = """{
const { fetch } = window;
window.fetch = async (path, ...rest) => {
  if (/^picture\\?near=[0-9]/.test(path)) await new Promise((go) => { setTimeout(go, 1500); });
  return fetch(path, ...rest);
};
}"""


@pytest.mark.parametrize("is_delayed", [False, True])
def test_a_found_pipe_is_named(driver: Any, tmp_path: Path, is_delayed: bool) -> None:
    """A pipe that is found in a network that is laid out as a whole has its label, although the
    part of the picture that was drawn in front was elsewhere, and also if its part comes late."""
    with board(grid_table(tmp_path, 32)) as it, before_pages(driver, DELAYED if is_delayed else ""):
        show(driver, 768, "light")
        page = Page(driver, it.address)
        page.wait(lambda: "All 2,048 are drawn" in page.text("#drawn-note"))
        page.settle()
        name = "right 25 2"
        assert name not in driver.execute_script(ALL_NAMED)
        page.write("#text", name + "\ue007")
        page.wait(lambda: page.text("#what h3") == name)
        page.settle()
        page.wait(lambda: driver.execute_script(NAMED) == name)
        as_before(driver)
