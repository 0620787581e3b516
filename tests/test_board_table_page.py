"""The table of all arcs on the page: rows that are chosen by a click, by keys and all at once."""

from __future__ import annotations

from pathlib import Path
from typing import Any

import pytest
from board_pages import Page
from board_running import board
from desk_shared import PIPES, water, without
from test_board_table import changed

pytestmark = pytest.mark.seconds(20)
SHIFT, CONTROL, DOWN, END, ENTER, ESCAPE = (
    "\ue008",
    "\ue009",
    "\ue015",
    "\ue010",
    "\ue007",
    "\ue00c",
)


def grid(page: Page) -> list[str]:
    """The names in the rows that the table holds."""
    return list(
        page.driver.execute_script(
            "return [...document.querySelectorAll('#grid tbody .name')].map((it) => it.innerText)"
        )
    )


def chosen(page: Page) -> list[str]:
    script = (
        "return [...document.querySelectorAll('#grid [aria-selected=true] .name')].map((it) => "
        "it.innerText)"
    )
    return list(page.driver.execute_script(script))


def click_row(page: Page, name: str, *keys: str) -> None:
    """Clicks a row, with these keys held."""
    row = page.reached(
        page.driver.find_element(
            "xpath", f"//table[@id='grid']//td[@class='name'][text()={name!r}]"
        )
    )
    actions = page.actions()
    for key in keys:
        actions.key_down(key)
    actions.click(row)
    for key in keys:
        actions.key_up(key)
    actions.perform()


def test_help(driver: Any) -> None:
    """What can be typed into the filter is shown while the field has the focus, or after a button
    asked for it, also by keys. A click on a row meets that row, though this hides the text."""
    tab = "\ue004"
    with board(PIPES) as it:
        page = Page(driver, it.address)
        order = [pipe.name for pipe in water()]
        page.click("#tab-all")
        page.settle()
        forms = page.find("#filter-forms")
        expanded = page.by_role("button", "What can be typed").get_attribute
        assert not forms.is_displayed() and expanded("aria-expanded") == "false"
        page.click("#filter")
        page.wait(forms.is_displayed)
        assert expanded("aria-expanded") == "true" and "use > 80" in forms.text
        click_row(page, order[2])
        page.wait(lambda: page.text("#what h3") == order[2])
        page.wait(lambda: not forms.is_displayed())
        page.click("#filter")
        page.find("#filter").send_keys(tab)
        page.wait(lambda: not forms.is_displayed())
        assert page.focused_id() == "filter-help"
        for is_seen in True, False:
            driver.switch_to.active_element.send_keys(ENTER)
            page.wait(lambda: forms.is_displayed() == is_seen)  # noqa: B023
        driver.get("about:blank")


def test_choice(driver: Any) -> None:
    """Rows are chosen by clicks with Shift and Control, by keys, and all that a filter shows; and
    changed in one step."""
    with board(PIPES) as it:
        page = Page(driver, it.address)
        order = [pipe.name for pipe in water()]
        assert grid(page) == order
        click_row(page, order[2])
        page.wait(lambda: page.text("#what h3") == order[2])
        click_row(page, order[5], SHIFT)
        page.wait(lambda: chosen(page) == order[2:6])
        click_row(page, order[3], CONTROL)
        click_row(page, order[9], CONTROL)
        page.wait(lambda: chosen(page) == [order[2], *order[4:6], order[9]])
        page.wait(lambda: page.text("#many-told").startswith("4 chosen, 4 open: "))
        four = chosen(page)
        assert page.after(lambda: page.press("Close 4")) == without(*four)
        page.wait(lambda: page.text("#many-told") == "4 chosen, 0 open; 4 closed.")
        assert page.undo() == 165
        page.wait(lambda: page.text("#many-told").startswith("4 chosen, 4 open: "))
        page.press("Choose none")
        page.wait(lambda: not chosen(page) and not page.text("#many"))
        page.write("#filter", "capacity < 60")
        small = [pipe.name for pipe in water() if pipe.capacity < 60]
        page.wait(lambda: grid(page) == small)
        page.press("Choose all of these")
        page.wait(lambda: page.text("#many-told").startswith(f"{len(small)} chosen"))
        page.write("#many-capacity", "+10")
        assert page.after(lambda: page.press(f"Set {len(small)}")) == changed(
            {*small}, lambda capacity: capacity + 10
        )
        assert f"{len(small)} arcs (" in page.text("#way [aria-current]")
        assert page.undo() == 165
        page.write("#filter", "capacity < x")
        page.wait(lambda: "'x' is not a number" in page.text("#filter-told"))


def test_press(driver: Any) -> None:
    """A click is not lost where the board tells another state between the press and the release, by
    which flows of that row changed."""
    with board(PIPES) as it:
        page = Page(driver, it.address)
        order = [pipe.name for pipe in water()]
        before = page.text("#row-0 .flow")
        row = page.find("#row-0 .name")
        page.actions().move_to_element(row).click_and_hold().perform()
        it.do(what="close-all", arcs=[3])
        page.wait(lambda: page.text("#row-0 .flow") != before)
        page.actions().release().perform()
        page.wait(lambda: chosen(page) == order[:1])


# Has the numbers of rows told as of the state after the one that they are of.
LATER = """const plain = window.fetch;
window.fetch = async (path, ...rest) => {
  const answer = await plain(path, ...rest);
  if (!String(path).startsWith("numbers?")) return answer;
  const told = await answer.json();
  return new Response(JSON.stringify({ ...told, turn: told.turn + 1 }));
};"""


def test_a_late_choice(driver: Any) -> None:
    """Where the board has another state by the time that a choice of many is asked for, nothing is
    chosen, and the page says so."""
    with board(PIPES) as it:
        page = Page(driver, it.address)
        order = [pipe.name for pipe in water()]
        click_row(page, order[2])
        page.wait(lambda: chosen(page) == order[2:3])
        driver.execute_script(LATER)
        click_row(page, order[5], SHIFT)
        page.wait(lambda: "nothing was chosen. Choose again." in page.text("#trouble"))
        assert chosen(page) == order[2:3]


def test_keys(driver: Any) -> None:
    """The keyboard alone moves in the table, chooses, and shows an arc; the focus stays in it."""
    with board(PIPES) as it:
        page = Page(driver, it.address)
        order = [pipe.name for pipe in water()]
        table = page.find("#grid")
        table.send_keys(DOWN, " ")
        page.wait(lambda: chosen(page) == order[1:2])
        table.send_keys(DOWN, DOWN, SHIFT, DOWN)
        page.wait(lambda: chosen(page) == order[3:5])
        table.send_keys(ESCAPE)
        page.wait(lambda: not chosen(page))
        table.send_keys(END, ENTER)
        page.wait(lambda: page.text("#what h3") == order[-1])
        table.send_keys(CONTROL, "a")
        page.wait(lambda: chosen(page) == order)
        script = (
            "return [document.activeElement.id, "
            "document.getElementById(arguments[0].getAttribute('aria-activedescendant')).innerText]"
        )
        focus, current = driver.execute_script(script, table)
        assert (focus, current.split("\t")[1]) == ("grid", order[-1])
        driver.get("about:blank")


def test_all_rows(driver: Any, tmp_path: Path) -> None:
    """A table of 100,001 rows scrolls to any of them, and holds only those in sight and some
    around. All of them are too many to be chosen, but those of a filter are not."""
    count = 100_001
    table = tmp_path / "large.csv"
    table.write_text(
        "from,to,litres,pipe\n"
        + "".join(f"A,B,{row % 97 + 1},pipe {row}\n" for row in range(count))
    )
    with board(str(table)) as it:
        page = Page(driver, it.address)
        assert page.value() == sum(row % 97 + 1 for row in range(count))
        page.click("#tab-all")
        box = "const it = document.getElementById('rows'); "
        for place in 0, 50_000, 99_990, 12_345:
            driver.execute_script(box + "it.scrollTop = 32 * arguments[0]", place)
            seen = f"pipe {min(place + 3, count - 1)}"
            page.wait(lambda: seen in grid(page))  # noqa: B023
            assert len(grid(page)) <= 120
            inside = (
                "const [row] = [...document.querySelectorAll('#grid .name')].filter((one) => "
                "one.innerText === arguments[0]); "
            )
            inside += (
                "const [a, b] = [it, row].map((one) => one.getBoundingClientRect()); return a.top "
                "<= b.top && b.bottom <= a.bottom"
            )
            assert driver.execute_script(box + inside, seen), seen
        page.press("Choose all of these")
        page.wait(
            lambda: page.text("#trouble")
            == "At most 100000 can be chosen at once. A filter shows fewer."
        )
        assert (chosen(page), page.text("#many")) == ([], "")
        page.write("#filter", "capacity = 97")
        page.wait(lambda: page.text("#filter-told") == f"{count // 97} rows: capacity = 97.")
        page.press("Choose all of these")
        page.wait(
            lambda: page.text("#many-told").startswith(
                f"{count // 97} chosen, {count // 97} open: "
            )
        )
        driver.get("about:blank")
