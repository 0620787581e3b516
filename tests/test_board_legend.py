"""The legend of a board's picture: what each colour means, by the rows of the table, how thick
lines are, and its entries as filters, by clicks and by keys, in headless Chromium. All is found by
its role and its name."""

from __future__ import annotations

import math
from collections import Counter
from collections.abc import Callable
from pathlib import Path
from typing import Any

import pytest
from board_pages import Page
from board_running import Board, board
from desk_shared import PIPES, Pipe, greatest, water
from dmf.desk.board.shown import MOST_LAID_OUT
from dmf.desk.board.views import MOST_LOSSES
from test_board_access import as_before, show

pytestmark = pytest.mark.seconds(20)
SPACE = "\ue00d"
# The entries of the legend: the words of each, how many arcs it has, and whether it is the filter.
ENTRIES = """
return [...document.querySelectorAll("ul[aria-label=Legend] button")].map((it) => [
  it.firstChild.nextSibling.data.trim(), it.querySelector("em")?.textContent ?? "",
  it.ariaPressed]);
"""
# The arcs of the picture, each with its colour, its thickness and whether it is faded.
ARCS = """
return [...document.querySelectorAll("#picture .arc")].map((it) => {
  const style = getComputedStyle(it.querySelector("path:not(.wide)"));
  const number = Number(it.id.slice(4)), thick = parseFloat(style.strokeWidth);
  return [number, style.stroke, thick, getComputedStyle(it).opacity];
});
"""
SWATCHES = """
const swatches = [...document.querySelectorAll("ul[aria-label=Legend] i")];
return swatches.map((it) => getComputedStyle(it).borderTopColor);
"""


def rows_of(it: Board, text: str = "") -> list[Any]:
    found: list[Any] = it.told(f"rows?filter={text}&sort=&first=0&count=500")["rows"]
    return found


def entries(page: Page) -> dict[str, tuple[str, str]]:
    return {
        words: (count, pressed) for words, count, pressed in page.driver.execute_script(ENTRIES)
    }


def entry(page: Page, words: str) -> Any:
    """The button of the legend with these words."""
    return page.driver.find_element(
        "xpath", f"//ul[@aria-label='Legend']//button[starts-with(., '{words}')]"
    )


def press(page: Page, words: str) -> None:
    """Presses the button of the legend with these words by a click."""
    page.act_on(lambda: entry(page, words), lambda found: found.click())


def press_by_key(page: Page, words: str) -> None:
    """Presses the button of the legend with these words by the space bar."""
    page.act_on(lambda: entry(page, words), lambda found: found.send_keys(SPACE))


def colour_by(page: Page, words: str) -> None:
    """Chooses what the picture is coloured by."""
    from selenium.webdriver.support.select import Select

    place = "//label[starts-with(., 'Colour')]//select"

    def choose(field: Any) -> None:
        chosen: Any = Select(field)
        chosen.select_by_visible_text(words)

    page.act_on(lambda: page.driver.find_element("xpath", place), choose)


def shade(row: Any) -> str:
    """What a row of the table is in the legend of use."""
    flow, capacity = int(row["flow"]), int(row["capacity"])
    if row["closed"]:
        return "closed"
    if row["limit"]:
        return "bottleneck"
    share = 100 * flow / capacity
    return (
        "no flow"
        if not flow
        else "full"
        if flow == capacity
        else "80–99 %"
        if share >= 80
        else "50–79 %"
        if share >= 50
        else "under 50 %"
    )


def counted(page: Page) -> dict[str, int]:
    return {words: int(count) for words, (count, _) in entries(page).items()}


def listed(page: Page) -> list[str]:
    """The names in the table."""
    found = page.driver.find_elements("css selector", "#grid tbody td.name")
    return [str(it.get_attribute("textContent")) for it in found]


def faded(page: Page) -> set[int]:
    return {number for number, *_, seen in page.driver.execute_script(ARCS) if float(seen) < 0.5}


def filtered(page: Page, it: Board, is_left: Callable[[Any], bool]) -> None:
    """Waits until the table has just these rows, and the picture has all others faded."""
    rows = rows_of(it)
    names = [row["name"] for row in rows if is_left(row)]
    others = {row["number"] for row in rows if not is_left(row)}
    page.wait(lambda: listed(page) == names and faded(page) == others)


def test_use(driver: Any) -> None:
    """Each arc has the colour of its use and is as thick as its capacity; the legend has those that
    there are, each with their number."""
    with board(PIPES) as it:
        page = Page(driver, it.address)
        rows = rows_of(it)
        assert counted(page) == Counter(map(shade, rows))
        ink = dict(zip(entries(page), driver.execute_script(SWATCHES)))
        drawn = {number: looks for number, *looks in driver.execute_script(ARCS)}
        widest = max(int(row["capacity"]) for row in rows)
        unit = max(thick for _, thick, _ in drawn.values()) / (1.3 + 5.7)
        for row in rows:
            stroke, thick, _ = drawn[row["number"]]
            assert stroke == ink[shade(row)], row
            wanted = 1.3 + 5.7 * math.sqrt(int(row["capacity"]) / widest)
            # The board tells ten sizes.
            assert abs(thick / unit - wanted) < 5.7 / 9 / 2 + 0.01, row
        assert len(set(ink.values())) == len(ink)


def test_filter(driver: Any) -> None:
    """An entry shows its arcs in the table and fades all others in the picture, once by a click and
    once by a key; the same again shows all. What is typed into the filter does the same."""
    with board(PIPES) as it:
        page = Page(driver, it.address)
        page.press("All")
        driver.find_element("xpath", "//*[@role='tab' and text()='All']").click()
        for words in "full", "bottleneck", "80–99 %", "no flow":
            press(page, words)
            filtered(page, it, lambda row: shade(row) == words)  # noqa: B023
            assert [name for name, (_, is_on) in entries(page).items() if is_on == "true"] == [
                words
            ]
        press_by_key(page, "no flow")
        filtered(page, it, lambda row: True)
        press_by_key(page, "50–79 %")
        filtered(page, it, lambda row: shade(row) == "50–79 %")
        page.write("#filter", "capacity < 60")
        filtered(page, it, lambda row: int(row["capacity"]) < 60)
        assert not any(is_on == "true" for _, is_on in entries(page).values())
        # After a step the same filter has other arcs.
        page.write("#filter", "closed")
        filtered(page, it, lambda row: False)
        it.do(what="close", arc=5)
        filtered(page, it, lambda row: bool(row["number"] == 5))


def test_what_changed(driver: Any) -> None:
    """What was changed, and where more and less flows than at the beginning."""
    with board(PIPES) as it:
        page = Page(driver, it.address)
        before = {row["number"]: int(row["flow"]) for row in rows_of(it)}
        colour_by(page, "what changed")
        page.wait(lambda: counted(page) == {"as at the beginning": len(before)})
        it.do(what="close", arc=3)
        it.do(what="double", arc=1)
        it.do(what="cap", arc=9, capacity="+30")
        it.do(what="cap", arc=12, capacity="-5")
        by = {row["number"]: int(row["flow"]) - before.get(row["number"], 0) for row in rows_of(it)}
        moved = Counter(
            "carries more" if more > 0 else "carries less" if more < 0 else "as at the beginning"
            for number, more in by.items()
            if number in before.keys() - {3, 9, 12}
        )
        wanted = {"closed": 1, "new": 1, "wider": 1, "narrower": 1, **moved}
        page.wait(lambda: counted(page) == wanted)
        press(page, "narrower")
        driver.find_element("xpath", "//*[@role='tab' and text()='All']").click()
        filtered(page, it, lambda row: bool(row["number"] == 12))


def test_what_is_lost(driver: Any) -> None:
    """The picture can be coloured by what is lost without each pipe, also after a change."""
    with board(PIPES) as it:
        page = Page(driver, it.address)
        words = "what is lost without it"
        field = driver.find_element("xpath", "//label[starts-with(., 'Colour')]//select")
        page.wait(lambda: words in field.text)
        colour_by(page, words)
        wanted = banded(water())
        page.wait(lambda: counted(page) == {told: len(pipes) for told, pipes in wanted.items()})
        press(page, next(iter(wanted)))
        numbers = {number for number, pipe in enumerate(water(), 1)}
        page.wait(lambda: faded(page) == numbers - next(iter(wanted.values())))
        page.choose("arc-9", "Mill Lane")
        page.press("Close it")
        left = banded([pipe for pipe in water() if pipe.name != "Mill Lane"])
        closed = {told: len(pipes) for told, pipes in left.items()}
        page.wait(lambda: counted(page) == {**closed, "closed": 1})
        assert not faded(page)


def banded(pipes: list[Pipe]) -> dict[str, set[int]]:
    """The numbers of pipes by the words of the legend, the largest losses first: the largest loss
    is in four parts of one size, and each is named by the losses in it."""
    numbers = {pipe.name: number for number, pipe in enumerate(water(), 1)}
    most = greatest(pipes)
    losses = {pipe.name: most - greatest([it for it in pipes if it != pipe]) for pipe in pipes}
    largest = max(losses.values())
    found = {}
    for band in range(4, -1, -1):
        inside = {name: it for name, it in losses.items() if math.ceil(4 * it / largest) == band}
        if inside:
            low, high = min(inside.values()), max(inside.values())
            told = f"{low if low == high else f'{low}–{high}'} lost" if band else "nothing lost"
            found[told] = {numbers[name] for name in inside}
    return found


def test_part(driver: Any, tmp_path: Path) -> None:
    """Where the picture has a part of the arcs, since they are too many to be laid out as a whole,
    the legend does not count it as if it were all."""
    table, count = tmp_path / "long.csv", MOST_LAID_OUT + 1
    table.write_text(
        "from,to,litres\n" + "".join(f"P{at},P{at + 1},{at % 7 + 1}\n" for at in range(count))
    )
    with board("--source", "P0", "--sink", f"P{count}", str(table)) as it:
        page = Page(driver, it.address)
        assert {count for count, _ in entries(page).values()} == {""}


# The box of the legend's card, and of its select, its entries and the buttons beside it.
ROW = """
const box = (it) => { const { left, top, right, bottom } = it.getBoundingClientRect();
  return [left, top, right, bottom]; };
const list = document.querySelector("ul[aria-label=Legend]");
return [box(list.closest(".card")), box(document.querySelector("label select")),
  [...list.querySelectorAll("button")].map(box),
  [...document.querySelectorAll("[aria-label='What the picture shows'] button")].filter((it) =>
    it.checkVisibility()).map(box)];
"""


def rows_of_boxes(boxes: list[list[float]]) -> int:
    """How many rows boxes lie in: those that overlap by their middles are in one."""
    count, end = 0, 0.0
    for _, top, _, bottom in sorted(boxes, key=lambda box: box[1] + box[3]):
        if (top + bottom) / 2 > end:
            count += 1
        end = max(end, bottom)
    return count


@pytest.mark.parametrize("width, rows, high", [(1280, 1, 44), (768, 2, 80), (400, 2, 80)])
def test_one_row(driver: Any, width: int, rows: int, high: int) -> None:
    """The legend is one row at the bottom left of a wide page, and two rows of a narrow one; each
    button for the view has its name, and an entry filters at each width."""
    with board(PIPES) as it:
        show(driver, width, "light")
        page = Page(driver, it.address)
        it.do(what="close", arc=12)
        page.wait(lambda: "closed" in entries(page))
        (left, top, right, bottom), select, found, moves = driver.execute_script(ROW)
        assert (left, bottom - top <= high) == (8 if width == 400 else 12, True), bottom - top
        assert rows_of_boxes(found) == 1 and rows_of_boxes([select, *found]) == rows
        # On a narrow page the buttons are in the first row, and else in a column beside it.
        assert rows_of_boxes([select, *moves]) == (len(moves) if width == 1280 else 1)
        for name in "Larger", "Smaller", "All", "The bottleneck", "What is chosen":
            assert page.by_role("button", name).is_displayed()
        if width == 1280:
            assert all(left <= box[0] and box[2] <= right for box in found)
        press(page, "full")
        filtered(page, it, lambda row: shade(row) == "full")
        as_before(driver)


# By the module that the page has loaded: in which words the legend tells what is lost without these
# arcs.
SHADES = """
const [numbers, tell] = arguments;
import(new URL("colourings.js", location)).then(({ colourings, shadeOf }) => {
  const shades = colourings().find(({ name }) => name === "worth")?.shades() ?? [];
  const mark = { state: "f", use: 1, change: ".", width: 1, way: ">" };
  tell(numbers.map((number) => shades.length && shadeOf(shades, { ...mark, number }).words));
});
"""


@pytest.mark.parametrize("into", [5_000, 6_000])
def test_losses_of_many(driver: Any, tmp_path: Path, into: int) -> None:
    """Of many arcs the legend does not have each loss, and says of the others what is known: that
    nothing is lost, or at most as much as the least that it has."""
    count = MOST_LOSSES + 100
    table = tmp_path / "many.csv"
    table.write_text(f"from,to,litres\nS,A,{into}\n" + "A,T,1\n" * count)
    each = 1 if count <= into else 0
    with board(str(table)) as it:
        page = Page(driver, it.address)
        page.know_worth()
        told = driver.execute_async_script(SHADES, [1, *range(2, count + 2), count + 2])
        assert told[0] == f"{min(into, count)} lost"
        assert set(told[1:-1]) == ({"1 lost", "at most 1 lost"} if each else {"nothing lost"})
        # That of an arc which was added since then.
        assert told[-1] == "not known yet"
        driver.get("about:blank")


# What is said of a second arc beside one whose gain is not told, before and after a search begins.
SECOND = """
const [number, tell] = arguments, load = (name) => import(new URL(name, location));
Promise.all([load("about_arc.js"), load("worth.js")]).then(([{ secondOne }, { findWorth }]) => {
  const words = () => secondOne({ number, limit: true, won: "" }), before = words();
  findWorth();
  tell([before, words()]);
});
"""


def test_a_second_one_is_not_known_yet(driver: Any) -> None:
    """While it is being found what second arcs bring, the page says of one that it does not list
    that this is not known yet; and only afterwards that it is not tried."""
    with board(PIPES) as it:
        page = Page(driver, it.address)
        page.know_worth()
        unlisted = len(water()) + 1
        assert driver.execute_async_script(SECOND, unlisted) == ["not tried", "not known yet"]
        driver.get("about:blank")
