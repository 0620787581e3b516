"""The page of a board that shows a project's scenarios, and projects for it."""

from __future__ import annotations

import contextlib
from collections.abc import Iterator
from pathlib import Path
from typing import Any

from board_pages import Page
from board_running import Board, board
from dmf.desk.project.scenarios import project_of
from dmf.desk.workspace import Desk
from project_shared import named, supply_project, water_project


class ScenarioPage(Page):
    """A page of a project."""

    def scenarios(self) -> list[str]:
        script = (
            "return [...document.querySelectorAll('#scenario-list > li > button')].map((it) => "
            "it.textContent)"
        )
        return [str(text) for text in self.driver.execute_script(script)]

    def present(self) -> str:
        return self.text("#scenario-list [aria-current]").partition(":")[0]

    def go(self, name: str) -> int:
        at = next(at for at, text in enumerate(self.scenarios(), 1) if text.startswith(f"{name}:"))
        value = self.after(lambda: self.click(f"#scenario-list > li:nth-child({at}) > button"))
        self.wait(lambda: self.present() == name)
        return value

    def choose_from(self, place: str, value: str) -> None:
        from selenium.webdriver.support.select import Select

        select: Any = Select
        select(self.find(place)).select_by_value(value)

    def compare(self, one: str, two: str) -> None:
        self.choose_from("#compare-one", one)
        self.choose_from("#compare-two", two)
        self.click("#comparing button")
        self.wait(
            lambda: self.text("#compare-values").startswith(f"{one}: ")
            and self.driver.find_elements("css selector", "#compare-picture svg")
        )
        self.settle()

    def unfold(self) -> None:
        self.driver.execute_script("document.querySelector('#scenarios details').open = true")


@contextlib.contextmanager
def water_board(folder: Path) -> Iterator[Board]:
    """Yield a board of a project with two scenarios: without the bridge's pipe, and with a new
    pipe."""
    desk = water_project(folder)
    desk.close(named(desk, "Bridge pipe"))
    project_of(desk).new("Pipe")
    desk.add(desk.network.names.place("Mill"), desk.network.names.place("Station"), 25, "New pipe")
    desk.end()
    with board(project_of(desk).file.path) as it:
        yield it


def flooded(folder: Path) -> Desk:
    """Return a desk of the supply story: one scenario has a flooded depot, the other no step."""
    desk = supply_project(folder)
    desk.shut(desk.network.names.place("East Depot"))
    project_of(desk).new("dry")
    return desk
