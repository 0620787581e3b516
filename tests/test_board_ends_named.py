"""The names of sources and sinks in a board's picture: bold, with a second line on what they give
or take, in the colour of the bottleneck if too little arrives; by headless Chromium."""

from __future__ import annotations

from pathlib import Path
from typing import Any

import pytest
from board_pages import Page, before_pages
from board_running import board
from test_board_access import as_before, show
from test_board_ground import city

pytestmark = pytest.mark.seconds(20)
WIDTHS = 1280, 768, 400
# The lines of the place with this name in the picture: each text, its weight and its colour.
LINES = """
const part = [...document.querySelectorAll("#picture .node")].find((it) =>
  it.querySelector("text").textContent === arguments[0]);
return [...part.querySelectorAll("text")].map((it) => {
  const style = getComputedStyle(it);
  return [it.textContent, Number(style.fontWeight), style.fill];
});
"""
# The colour of the bottleneck, as the page resolves it.
LIMIT = """
const probe = document.body.appendChild(document.createElement("i"));
probe.style.color = "var(--limit)";
const found = getComputedStyle(probe).color;
probe.remove();
return found;
"""
# Notes what is written on the canvas: each text with its font and its colour.
NOTED = """
const pen = CanvasRenderingContext2D.prototype, write = pen.fillText, clear = pen.clearRect;
pen.clearRect = function (...words) { window.noted = []; return clear.apply(this, words); };
pen.fillText = function (text, ...words) {
  window.noted.push([text, this.font, this.fillStyle]);
  return write.call(this, text, ...words);
};
"""
PIPES = "from,to,l/s\nSpring,Brook,110\nSpring,Weir,70\nWeir,Mill,20\n"
ASKED = "place,demand\nBrook,180\nWeir,50\n"


@pytest.mark.parametrize("width", WIDTHS)
@pytest.mark.parametrize("scheme", ["light", "dark"])
def test_drawn(driver: Any, tmp_path: Path, width: int, scheme: str) -> None:
    """In a picture that Graphviz draws. Brook asks for 180 and has a pipe of 110, and Weir has all;
    Mill is no end."""
    (tmp_path / "pipes.csv").write_text(PIPES)
    (tmp_path / "asked.csv").write_text(ASKED)
    words = ["--source", "Spring", "--sinks", f"{tmp_path}/asked.csv", f"{tmp_path}/pipes.csv"]
    with board(*words) as it:
        show(driver, width, scheme)
        page = Page(driver, it.address)
        limit = driver.execute_script(LIMIT)
        name, second = driver.execute_script(LINES, "Brook")
        assert (name[:2], second) == (["Brook", 700], ["takes 110/180", 700, limit])
        assert name[2] != limit
        name, second = driver.execute_script(LINES, "Weir")
        assert (name[:2], second[0]) == (["Weir", 700], "takes 50/50")
        assert driver.execute_script(LINES, "Spring")[0][1] == 700
        assert [line[1] for line in driver.execute_script(LINES, "Mill")] == [400]
        # After a step that gives Brook all, nothing of it is short.
        it.do(what="cap", arc=1, capacity="180")
        page.wait(lambda: page.value() == 230)
        page.wait(lambda: driver.execute_script(LINES, "Brook")[1][0] == "takes 180/180")
        assert driver.execute_script(LINES, "Spring")[0][1] == 700
        as_before(driver)


def test_on_a_map(driver: Any, tmp_path: Path) -> None:
    """On the canvas of a map that is seen whole."""
    (tmp_path / "asked.csv").write_text("place,demand\nSea,100000\nP3_4,1\n")
    words = "--source", "Lake", "--sinks", f"{tmp_path}/asked.csv", *city(tmp_path, 20)
    with before_pages(driver, NOTED), board(*words) as it:
        show(driver, 1280, "light")
        page = Page(driver, it.address)
        page.press("Smaller")
        flow = int(it.state()["value"])
        wanted = f"takes {flow - 1}/100000"
        page.wait(lambda: wanted in [text for text, *_ in driver.execute_script("return noted")])
        told = {text: looks for text, *looks in driver.execute_script("return window.noted")}
        assert told["Sea"][0].startswith("bold") and not told[wanted][0].startswith("bold")
        assert told[wanted][1] == "#c8430b" != told["Sea"][1]
        # This one gets all.
        assert told["P3_4"][0].startswith("bold") and told["takes 1/1"][1] == told["P3_4"][1]
        as_before(driver)
