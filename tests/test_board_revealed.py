"""What is found on a board's page comes into the free part of the window, near enough to be seen,
by headless Chromium."""

from __future__ import annotations

import random
from pathlib import Path
from typing import Any

import pytest
from board_pages import Page
from board_running import board
from test_board_access import as_before, show
from test_board_layout import box_of

pytestmark = pytest.mark.seconds(20)
ENTER = "\ue007"
WIDTHS = 1280, 768, 400
# A usual pipe is at least so long on the screen, in pixels.
LEAST = 26
# The boxes of all that lies over the picture and is seen.
OVER = """
return [...document.querySelectorAll("header, #foot, aside, #beyond, #fold, [aria-label='What the "
  + "picture shows']")].filter((it) => it.checkVisibility()).map((it) => {
  const { left, top, right, bottom } = it.getBoundingClientRect();
  return [left, top, right, bottom];
});
"""
# The lengths of the pipes on the screen.
LENGTHS = """
return [...document.querySelectorAll("#picture .arc path:not(.wide)")].map((it) =>
  it.getTotalLength() * it.getScreenCTM().a);
"""
SHAPE = "#picture .chosen > :is(path:not(.wide), ellipse.inner)"


def square(folder: Path, side: int = 12) -> list[str]:
    """The words of a board for 300 pipes of a town, on their map."""
    chance = random.Random(side)
    rows, spots = ["from,to,l/s,pipe"], ["place,x,y"]
    for row in range(side):
        for column in range(side):
            x, y = column + chance.uniform(0, 0.5), row + chance.uniform(0, 0.5)
            spots.append(f"P{row}_{column},{100 * x:.1f},{100 * y:.1f}")
            for down, right in (0, 1), (1, 0):
                if row + down < side and column + right < side:
                    end = f"P{row + down}_{column + right}"
                    name = f"pipe {row} {column} {'right' if right else 'down'}"
                    rows.append(f"P{row}_{column},{end},{chance.randint(4, 20)},{name}")
    (folder / "town.csv").write_text("\n".join(rows) + "\n")
    (folder / "map.csv").write_text("\n".join(spots) + "\n")
    ends = ["--source", "P0_0", "--sink", f"P{side - 1}_{side - 1}"]
    return [*ends, "--map", str(folder / "map.csv"), str(folder / "town.csv")]


@pytest.mark.parametrize("width", WIDTHS)
def test_found_is_near(driver: Any, tmp_path: Path, width: int) -> None:
    """A place and a pipe at the corners and in the middle lie in the free part once they are found,
    with nothing over them, and the usual pipe is not too short to be seen."""
    with board(*square(tmp_path)) as it:
        show(driver, width, "light")
        page = Page(driver, it.address)
        for name in "P0_11", "pipe 11 0 right", "P5_6", "pipe 0 10 right":
            page.write("#text", name + ENTER)
            page.wait(lambda: page.text("#what h3") == name)  # noqa: B023
            page.settle()
            page.wait(lambda: driver.find_elements("css selector", SHAPE))
            driver.execute_async_script(
                "requestAnimationFrame(() => requestAnimationFrame(arguments[0]))"
            )
            left, top, right, bottom = box_of(page, SHAPE)
            assert 0 <= left < right <= width and 0 <= top < bottom <= 900, (name, left, top)
            for one in driver.execute_script(OVER):
                is_beside = right <= one[0] or left >= one[2]
                assert is_beside or bottom <= one[1] or top >= one[3], (name, top, bottom, one)
            lengths = sorted(driver.execute_script(LENGTHS))
            assert lengths[len(lengths) // 2] >= LEAST - 0.5, name
        as_before(driver)
