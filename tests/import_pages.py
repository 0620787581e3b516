"""The page of an import in headless Chromium, by roles and names, and a table with two columns that
may be the capacity."""

from __future__ import annotations

from typing import Any

from board_pages import Page

TODAY, LATER, CAPACITY = "Q today [m³/h]", "Q later [m³/h]", "Capacity [m³/h]"
# Today A passes on min(30, 25) = 25 m³/h and B min(20, 15) = 15, in all 40; later min(60, 50) = 50
# and min(40, 20) = 20, in all 70.
VALLEY = f"""Pipes of the valley,,,,
as of 2024,,,,
Pipe,Start node,End node,{TODAY},{LATER}
P1,Res,A,30,60
P2,Res,B,20,40
P3,A,Town,25,50
P4,B,Town,15,20
"""
# By role, what has it.
PLACES = {"button": "button", "combobox": "select, input[list]", "textbox": "input"}
PLACES |= {"checkbox": "input[type=checkbox]", "file": "input[type=file]", "list": "ul"}
# Drops files, each with its name and its text, on the page.
DROP = """
const moved = new DataTransfer();
for (const [name, text] of arguments[0]) moved.items.add(new File([text], name));
for (const kind of ["dragover", "drop"]) {
  const how = { bubbles: true, cancelable: true, dataTransfer: moved };
  document.body.dispatchEvent(new DragEvent(kind, how));
}
"""


class ImportPage(Page):
    """The page of an import."""

    def ready(self) -> None:
        self.wait(
            lambda: self.driver.execute_script("return document.readyState === 'complete'")
            and self.text("#title")
        )
        self.settle()

    def named(self, role: str, name: str) -> Any:
        """Return the element of this role and this name."""
        self.settle()
        for found in self.driver.find_elements("css selector", PLACES[role]):
            if found.accessible_name == name and role in ("file", found.aria_role):
                return found
        raise AssertionError(f"no {role} is called {name}")

    def says(self, text: str) -> None:
        """Wait until the headline begins with this."""
        self.wait(lambda: self.text("#value").startswith(text))
        self.settle()

    def select(self, name: str, word: str) -> None:
        """Choose an entry of a menu."""
        self.menu(name).select_by_visible_text(word)

    def selected(self, name: str) -> str:
        return str(self.menu(name).first_selected_option.text)

    def menu(self, name: str) -> Any:
        from selenium.webdriver.support.select import Select

        made: Any = Select
        return made(self.named("combobox", name))

    def type(self, name: str, *keys: str) -> None:
        self.named("combobox", name).send_keys(*keys)

    def items(self, name: str) -> list[str]:
        found = self.named("list", name).find_elements("css selector", "li")
        return [" ".join(it.text.replace("×", "").split()) for it in found]

    def focused(self) -> str:
        return str(self.driver.switch_to.active_element.accessible_name)
