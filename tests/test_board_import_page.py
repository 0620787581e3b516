"""The page of an import in headless Chromium: a file is chosen or dropped, what it leaves open is
answered, and the board is opened."""

from __future__ import annotations

import itertools
from pathlib import Path
from typing import Any

import pytest
from board_pages import Page
from board_running import board
from desk_shared import ROOT
from import_pages import CAPACITY, DROP, LATER, TODAY, VALLEY, ImportPage
from test_board_access import ENTER, SCHEMES, TAB, TEXTS, WIDTHS, as_before, judge_names, show

pytestmark = pytest.mark.seconds(20)
CONTROL = "\ue009"
# Chooses in two menus, the second one before the first is answered.
CHOOSE_TWO = """
for (const [list, value] of arguments[0]) {
  list.value = value;
  list.dispatchEvent(new Event("change", { bubbles: true }));
}
"""
# Makes requests wait until they are let go, and notes the capacity that each one asks for.
SLOW = """
const { fetch } = window;
window.asked = [];
const released = new Promise((resolve) => { window.release = resolve; });
window.fetch = async (path, ...rest) => {
  if (path === "import" && rest[0]?.body) {
    window.asked.push(JSON.parse(rest[0].body).options.capacity);
    await released;
  }
  return fetch(path, ...rest);
};
"""
# Where the cell that cannot be read begins and ends, and where its room does, in pixels.
CELL = """
const cell = document.querySelector("#preview-table .fault"), box = (it) =>
  it.getBoundingClientRect();
const host = box(document.getElementById("preview-scroll"));
const room = [box(cell.parentElement.firstElementChild).right, host.right];
return [box(cell).left + 1, box(cell).right - 1, room];
"""
SMALL = """
const isSeen = (it) => it.checkVisibility() && !it.closest(".unseen, datalist, option");
return [...document.querySelectorAll("body *")]
  .filter((it) => isSeen(it) && [...it.childNodes].some(({ nodeType }) => nodeType === 3))
  .filter((it) => parseFloat(getComputedStyle(it).fontSize) < 11).map((it) => it.outerHTML);
"""


@pytest.fixture
def valley(tmp_path: Path) -> Path:
    file = tmp_path / "valley.csv"
    file.write_text(VALLEY)
    return file


def role_of(title: str) -> str:
    """Return the name of the menu above a column."""
    return f"What column {title} is"


def test_file_chosen(driver: Any, valley: Path, tmp_path: Path) -> None:
    """A chosen file is kept in the board's folder, and what it leaves open is asked; what stands
    above the titles is marked, and so are the titles."""
    folder = tmp_path / "board"
    folder.mkdir()
    with board("--import", cwd=folder) as it:
        page = ImportPage(driver, it.address)
        assert page.focused() == "Choose a file"
        page.named("file", "Choose a file").send_keys(str(valley))
        page.says("Which column is the capacity?")
        assert (folder / "valley.csv").read_bytes() == valley.read_bytes()
        assert not page.named("button", "Open").is_enabled()
        choices = driver.find_elements("css selector", "#choices button")
        assert [found.text for found in choices] == [
            f"{TODAY} as in 30, 20",
            f"{LATER} as in 60, 40",
        ]
        rows = driver.find_elements("css selector", "#preview-table tbody tr")
        assert [found.get_attribute("class") for found in rows] == [
            *["left-out"] * 2,
            "titles",
            *[""] * 4,
        ]
        assert rows[3].text.split() == ["4", "P1", "Res", "A", "30", "60"]
        assert page.text("#title") == "valley.csv"


def test_file_dropped(driver: Any, tmp_path: Path) -> None:
    """A file is dropped anywhere; of several that do not belong together none is taken."""
    with board("--import", cwd=tmp_path) as it:
        page = ImportPage(driver, it.address)
        driver.execute_script(DROP, [["a.csv", VALLEY], ["b.csv", VALLEY]])
        page.wait(lambda: page.text("#trouble").startswith("These are several files"))
        assert [*tmp_path.iterdir()] == []
        driver.execute_script(DROP, [["dropped.csv", VALLEY.replace(TODAY, CAPACITY)]])
        page.says("40 m³/h can be sent from Res to Town")
        assert page.text("#trouble") == "" and (tmp_path / "dropped.csv").exists()


@pytest.mark.parametrize("by", ["click", "keys"])
def test_question_answered(driver: Any, valley: Path, by: str) -> None:
    """A question is answered by a click, or by keys alone, and the answer appears."""
    with board("valley.csv", "--import", cwd=valley.parent) as it:
        page = ImportPage(driver, it.address)
        page.says("Which column is the capacity?")
        name = f"{LATER} as in 60, 40"
        if by == "click":
            page.named("button", name).click()
        else:
            for _ in range(12):
                page.actions().send_keys(TAB).perform()
                if page.focused() == name:
                    break
            page.actions().send_keys(ENTER).perform()
            page.wait(lambda: driver.switch_to.active_element.get_attribute("id") == "said")
        page.says("70 m³/h can be sent from Res to Town")
        assert page.selected(role_of(LATER)) == "capacity"
        assert page.named("button", "Open").is_enabled()
        assert not driver.find_element("id", "question").is_displayed()


def test_menu_changed(driver: Any, valley: Path) -> None:
    """A column that is taken for something takes this from another one; the menu keeps the focus,
    and of two changes the second one holds too."""
    with board("valley.csv", "--import", "--capacity", TODAY, cwd=valley.parent) as it:
        page = ImportPage(driver, it.address)
        page.says("40 m³/h")
        page.select(role_of(LATER), "capacity")
        page.says("70 m³/h")
        assert page.focused() == role_of(LATER)
        assert page.selected(role_of(TODAY)) == "kept as it is"
        # Back again by keys; and each row both ways changes nothing here.
        lists = [page.named("combobox", role_of(it)) for it in (TODAY, "Start node", "End node")]
        driver.execute_script(CHOOSE_TWO, [[lists[0], "capacity"], [lists[1], "head"]])
        driver.execute_script(CHOOSE_TWO, [[lists[2], "tail"]])
        # Backwards, Town sends to Res: 25 by A and 15 by B.
        page.says("40 m³/h can be sent from Town to Res")
        assert page.selected(role_of("Start node")) == "to"


def test_requests_in_turn(driver: Any, valley: Path) -> None:
    """A change waits for the request before it, and what is chosen meanwhile goes as one."""
    with board("valley.csv", "--import", cwd=valley.parent) as it:
        page = ImportPage(driver, it.address)
        lists = [page.named("combobox", role_of(it)) for it in (TODAY, LATER)]
        driver.execute_script(SLOW)
        driver.execute_script(CHOOSE_TWO, [[lists[0], "capacity"]])
        page.wait(lambda: driver.execute_script("return asked.length === 1"))
        for choice in [lists[1], "capacity"], [lists[0], "capacity"], [lists[1], "capacity"]:
            driver.execute_script(CHOOSE_TWO, [choice])
        assert driver.execute_script("return asked") == [TODAY]
        driver.execute_script("release()")
        page.says("70 m³/h")
        assert driver.execute_script("return asked") == [TODAY, LATER]
        assert (page.selected(role_of(TODAY)), page.selected(role_of(LATER))) == (
            "kept as it is",
            "capacity",
        )


def test_fault_in_cell(driver: Any, valley: Path) -> None:
    """A cell that cannot be read is marked, and told beneath; a setting says what it is, and a
    button of the headline sets it."""
    wrong = f"Line 6, column '{TODAY}': 'n/a' is not a number"
    valley.write_text(VALLEY.replace("A,Town,25", "A,Town,n/a"))
    with board("valley.csv", "--import", "--capacity", TODAY, cwd=valley.parent) as it:
        page = ImportPage(driver, it.address)
        page.says(wrong)
        [cell] = driver.find_elements("css selector", "#preview-table .fault")
        assert cell.text == "n/a"
        described = driver.find_element("id", cell.get_attribute("aria-describedby"))
        assert described.text.startswith(wrong)
        lists = driver.find_elements("css selector", "#setting-list select")
        [name] = [it.accessible_name for it in lists if it.get_attribute("id") == "setting-missing"]
        # By A nothing; or the 30 that reach it.
        driver.find_element(
            "xpath", "//button[normalize-space()='Missing capacities are 0']"
        ).click()
        page.says("15 m³/h can be sent from Res to Town")
        for value, answer in ("", wrong), ("unlimited", "45 m³/h can be sent from Res to Town"):
            driver.execute_script(CHOOSE_TWO, [[page.named("combobox", name), value]])
            page.says(answer)
        assert not driver.find_element("id", "faults").is_displayed()


@pytest.mark.parametrize("width", WIDTHS)
def test_fault_is_seen(driver: Any, valley: Path, width: int) -> None:
    """The cell that cannot be read is in sight beside the number of its line, and the fault is told
    once, without the option that settles it, for which there are buttons."""
    valley.write_text(VALLEY.replace("A,Town,25", "A,Town,n/a"))
    with board("valley.csv", "--import", "--capacity", TODAY, cwd=valley.parent) as it:
        show(driver, width, "light")
        page = ImportPage(driver, it.address)
        page.says("Line 6")
        left, right, room = driver.execute_script(CELL)
        assert room[0] <= left < right <= room[1]
        said = page.text("#top") + page.text("#preview")
        assert said.count("'n/a' is not a number") == 1 and "--missing" not in said
        assert page.by_role("button", "Missing capacities are 0").is_displayed()
        as_before(driver)


def test_ends_typed(driver: Any, valley: Path) -> None:
    """Sources and sinks are typed, several too, and taken away again; an unknown one is told."""
    with board("valley.csv", "--import", "--capacity", TODAY, cwd=valley.parent) as it:
        page = ImportPage(driver, it.address)
        page.says("40 m³/h can be sent from Res to Town")
        assert page.items("Sinks")[0].startswith("Town (assumed")
        page.type("Sink", "B", ENTER)
        page.says("20 m³/h can be sent from Res to B")
        assert (page.items("Sinks"), page.focused()) == (["B"], "Sink")
        page.type("Sink", "Town", ENTER)
        # 20 end in B, and 25 come by A.
        page.says("45 m³/h")
        assert page.items("Sinks") == ["B", "Town"]
        page.named("button", "Remove B from the sinks").click()
        page.says("40 m³/h can be sent from Res to Town")
        assert page.focused() == "Sink"
        page.type("Source", "A=12", ENTER)
        page.says("12 m³/h can be sent from A to Town")
        page.type("Source", "Rse", ENTER)
        page.wait(lambda: "Rse" in page.text("#value"))
        assert not page.named("button", "Open").is_enabled()


def test_settings(driver: Any, valley: Path) -> None:
    """A box is ticked; what is typed wrongly is told, and stays until it is mended."""
    words = ("--import", "--capacity", TODAY, "--source", "Town", "--sink", "Res")
    with board("valley.csv", *words, cwd=valley.parent) as it:
        page = ImportPage(driver, it.address)
        page.says("0 m³/h can be sent from Town to Res")
        page.named("checkbox", "Each row leads both ways").click()
        page.says("40 m³/h can be sent from Town to Res")
        field = page.named("textbox", "Multiply each number by")
        field.send_keys("much", ENTER)
        page.wait(lambda: "much" in page.text("#value"))
        page.settle()
        assert (field.get_attribute("value"), page.focused()) == ("much", "Multiply each number by")
        field.clear()
        field.send_keys("10", ENTER)
        page.says("40 m³/h can be sent from Town to Res")


def test_file_refused(driver: Any, valley: Path) -> None:
    """A dropped file does not replace another one of its name, which the page says."""
    with board("valley.csv", "--import", "--capacity", TODAY, cwd=valley.parent) as it:
        page = ImportPage(driver, it.address)
        driver.execute_script(DROP, [["valley.csv", VALLEY.replace("30", "31")]])
        page.wait(lambda: "valley.csv" in page.text("#trouble"))
        page.says("40 m³/h")
        assert valley.read_text() == VALLEY


def test_copy(driver: Any, valley: Path) -> None:
    """The command that reads the file in the same way is copied."""
    with board("valley.csv", "--import", "--capacity", LATER, cwd=valley.parent) as it:
        page = ImportPage(driver, it.address)
        page.says("70 m³/h")
        page.named("button", "Copy").click()
        page.wait(lambda: page.text("#news") == "The command is copied.")
        page.type("Source", CONTROL + "v")
        typed = page.named("combobox", "Source").get_attribute("value")
        assert typed == page.text("#command")
        assert typed == f"dmf board valley.csv --capacity '{LATER}'"


def test_open(driver: Any, valley: Path) -> None:
    """Open leads to the board, with what was chosen, at the same address."""
    with board("valley.csv", "--import", cwd=valley.parent) as it:
        page = ImportPage(driver, it.address)
        page.named("button", f"{LATER} as in 60, 40").click()
        page.says("70 m³/h")
        page.named("button", "Open").send_keys(ENTER)
        opened = Page(driver, "")
        assert opened.value() == 70 and driver.current_url.partition("#")[0] == it.address


def test_two_tabs(driver: Any, valley: Path) -> None:
    """What one tab changes the other one shows, and where one opens the board the other does."""
    with board("valley.csv", "--import", cwd=valley.parent) as it:
        first = ImportPage(driver, it.address)
        old = driver.current_window_handle
        driver.switch_to.new_window("tab")
        second = ImportPage(driver, it.address)
        second.named("button", f"{TODAY} as in 30, 20").click()
        second.says("40 m³/h")
        new = driver.current_window_handle
        driver.switch_to.window(old)
        first.says("40 m³/h")
        first.named("button", "Open").click()
        assert Page(driver, "").value() == 40
        driver.switch_to.window(new)
        assert Page(driver, "").value() == 40
        driver.close()
        driver.switch_to.window(old)


def test_names_stay_text(driver: Any, valley: Path) -> None:
    """What stands in the file is shown as text, and nothing of it runs."""
    name = "<img src=x onerror=alert(1)>"
    valley.write_text(VALLEY.replace("Town", name).replace(TODAY, CAPACITY))
    with board("valley.csv", "--import", cwd=valley.parent) as it:
        page = ImportPage(driver, it.address)
        page.says(f"40 m³/h can be sent from Res to {name}")
        assert driver.find_elements("css selector", "img") == []


def test_lost(driver: Any, valley: Path) -> None:
    """If the board ends, the page says so, and keeps what was typed."""
    with board("valley.csv", "--import", "--capacity", TODAY, cwd=valley.parent) as it:
        page = ImportPage(driver, it.address)
        page.says("40 m³/h")
        page.named("combobox", "Source").send_keys("A")
        it.end()
        page.wait(lambda: page.text("#trouble").startswith("The board does not answer."))
        assert page.named("combobox", "Source").get_attribute("value") == "A"
        assert page.button("Look again").is_enabled()
        assert not page.named("combobox", role_of(TODAY)).is_enabled()


def test_found_again(driver: Any, valley: Path) -> None:
    """What was chosen while the connection was broken is sent once the board is reached again."""
    with board("valley.csv", "--import", cwd=valley.parent) as it:
        page = ImportPage(driver, it.address)
        driver.execute_script("window.kept = fetch; window.fetch = () => Promise.reject(Error())")
        page.select(role_of(LATER), "capacity")
        page.wait(lambda: page.text("#trouble").startswith("The board does not answer."))
        driver.execute_script("window.fetch = window.kept")
        page.button("Look again").click()
        page.says("70 m³/h")
        assert page.text("#trouble") == "" and page.named("button", "Open").is_enabled()
        assert page.named("combobox", role_of(LATER)).is_enabled()


@pytest.mark.seconds(30)
def test_names_and_colours(driver: Any, valley: Path) -> None:
    """At each width, light and dark: nothing is wider than the page, all that can be acted on has a
    name, no colour is below AA, and no text is smaller than 11 pixels; also if names are long."""
    valley = valley.rename(valley.with_name("v" * 120 + ".csv"))
    valley.write_text(VALLEY.replace("A,Town,25", "A,Town,n/a").replace("P4", "P" * 150))
    with board(valley.name, "--import", cwd=valley.parent) as it:
        for width, scheme in itertools.product(WIDTHS, SCHEMES):
            show(driver, width, scheme)
            page = ImportPage(driver, it.address)
            for role, says in (
                ("kept as it is", "Which column"),
                ("capacity", "Line 6"),
            ):
                page.select(role_of(TODAY), role)
                page.says(says)
                judge(driver, width)
            page.select(role_of(TODAY), "kept as it is")
            page.select(role_of(LATER), "capacity")
            page.says("70 m³/h")
            judge(driver, width)
            page.select(role_of(LATER), "kept as it is")
            page.says("Which column")
        as_before(driver)


def test_picture(driver: Any, valley: Path, writes: bool) -> None:
    """The picture of the documents, which is made at least, and with --write put."""
    driver.execute_cdp_cmd(
        "Emulation.setDeviceMetricsOverride",
        {"width": 1180, "height": 955, "deviceScaleFactor": 1, "mobile": False},
    )
    with board("valley.csv", "--import", "--capacity", TODAY, cwd=valley.parent) as it:
        page = ImportPage(driver, it.address)
        page.says("40 m³/h")
        # Not the folder of a test.
        told = "a CSV file, 158 bytes, in /home/ann"
        driver.execute_script("document.getElementById('file-said').innerText = arguments[0]", told)
        picture = driver.get_screenshot_as_png()
        assert int.from_bytes(picture[16:20], "big") > 900
        if writes:
            (ROOT / "docs/pictures/import.png").write_bytes(picture)
    as_before(driver)


def judge(driver: Any, width: int) -> None:
    assert driver.execute_script("return document.documentElement.scrollWidth") <= width
    texts = driver.execute_script(TEXTS + "return found;")
    assert len(texts) > 30
    assert [it for it, ratio, is_large in texts if ratio < (3 if is_large else 4.5)] == []
    assert driver.execute_script(SMALL) == []
    judge_names(driver)
