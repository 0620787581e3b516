"""The headline of a board's page: a compact card at each width, in which no text is cut, and whose
names that have no room are there for screen readers, in headless Chromium."""

from __future__ import annotations

import re
from functools import partial
from pathlib import Path
from typing import Any

import pytest
from board_pages import Page, set_width
from board_running import board
from board_views import grid_table
from desk_shared import PIPES, ROOT
from test_board_access import as_before, judge_names, show

pytestmark = pytest.mark.seconds(20)
WIDTHS = 1280, 768, 400
# The most lines of the headline on a wide page, and its greatest height on a narrow one, in pixels.
LINES, HIGH = 3, 110
# The box of the headline, where the panel or its handle begins, the tops and bottoms of its texts
# that are seen, and the sizes of their letters.
HEAD = """
const head = document.querySelector("header").getBoundingClientRect(), texts = [], sizes = [];
const walker = document.createTreeWalker(document.querySelector("header"), NodeFilter.SHOW_TEXT);
while (walker.nextNode()) {
  const it = walker.currentNode, range = document.createRange();
  if (!it.data.trim() || !it.parentElement.checkVisibility({ visibilityProperty: true })) continue;
  range.selectNodeContents(it);
  texts.push(...[...range.getClientRects()].map(({ top, bottom }) => [top, bottom]));
  sizes.push(parseFloat(getComputedStyle(it.parentElement).fontSize));
}
const fold = document.getElementById("fold").getBoundingClientRect();
return [[head.left, head.top, head.right, head.bottom], fold.width ? fold.left : innerWidth,
  texts, sizes];
"""
# Each of these asks for 10 more than its pipe carries, and the last for 40 more.
PLACES = [f"Waterworks of the {word} District" for word in ("North", "South", "East", "West")]
HOSPITAL = "Hospital"
# Of the texts of the headline: what is seen, the tops and bottoms of its pieces, and whether all of
# them lie within the element and the free part.
SEEN = """
const free = arguments[0];
return ["value", "demands", "show-limit"].map((id) => {
  const host = document.getElementById(id), box = host.getBoundingClientRect();
  const range = document.createRange();
  const seen = host.querySelector(":scope > [aria-hidden]") ?? host;
  range.selectNodeContents(seen);
  const rects = [...range.getClientRects()];
  const right = Math.min(box.right, free) + 1;
  const isWhole = rects.every((it) => it.left >= box.left - 1 && it.right <= right
    && it.top >= box.top - 6 && it.bottom <= box.bottom + 6);
  return [seen.innerText, rects.map(({ top, bottom }) => [top, bottom]), isWhole];
});
"""
SUPPLY = ROOT / "examples/supply"
ENDS = ("sources", "stock"), ("sinks", "orders")
ROTA = str(ROOT / "examples/rota/rota.csv"), "--shift", "8", "--daily", "1"


def town(folder: Path) -> list[str]:
    """The words of a board for a table in which five places are short."""
    rows = "".join(f"Spring,{place},20,pipe of {place}\n" for place in [*PLACES, HOSPITAL])
    (folder / "town.csv").write_text("from,to,l/s,pipe\n" + rows)
    asked = "".join(f"{place},30\n" for place in PLACES) + f"{HOSPITAL},60\n"
    (folder / "asked.csv").write_text("place,demand\n" + asked)
    sinks = str(folder / "asked.csv")
    return ["--source", "Spring", "--sinks", sinks, str(folder / "town.csv")]


def lines(texts: list[list[float]]) -> int:
    """How many lines texts have, of which those that overlap by their middles are one."""
    count, end = 0, 0.0
    for top, bottom in sorted(texts, key=sum):
        if (top + bottom) / 2 > end:
            count += 1
        end = max(end, bottom)
    return count


def judge_head(page: Page, width: int) -> None:
    """The headline is compact, can be read, and is no wider than the free part."""
    (left, _, right, bottom), free, texts, sizes = page.driver.execute_script(HEAD)
    top = page.driver.execute_script(HEAD)[0][1]
    assert 0 <= left < right <= free
    assert min(sizes) >= 11
    if width == 1280:
        assert lines(texts) <= LINES, texts
    else:
        assert bottom - top <= HIGH


def heard(driver: Any) -> str:
    """All that a screen reader hears."""
    return " ".join(name for _, name, _ in judge_names(driver))


@pytest.mark.parametrize("width", WIDTHS)
def test_compact(driver: Any, tmp_path: Path, width: int) -> None:
    """With long names, five shortages and a step it has three lines, or is at most 110 pixels high;
    a screen reader hears the value, the largest shortages, the bottleneck and the change."""
    with board(*town(tmp_path)) as it:
        show(driver, width, "light")
        page = Page(driver, it.address)
        judge_head(page, width)
        # The places get 100 of the 180 that they ask for; without one of five pipes, 80.
        it.do(what="close", arc=1)
        page.wait(lambda: page.value() == 80)
        judge_head(page, width)
        said = heard(driver)
        for text in (
            "80",
            " of 180 l/s can be sent from Spring to ",
            ", and not more.",
            "20 less",
            " than at the beginning",
            f"Short: {HOSPITAL} 40, {PLACES[0]} 30, {PLACES[1]} 10 and 2 more",
            "Bottleneck: 4 pipes",
        ):
            assert text in said, (text, said)
        page.by_role("button", "Bottleneck: 4 pipes")
        assert page.by_role("button", "Undo").is_enabled() and page.undo() == 100
        page.by_role("button", "Redo")
        as_before(driver)


def test_all_that_is_short(driver: Any, tmp_path: Path) -> None:
    """The panel lists every place that is short, the largest shortage first, and a click shows
    it."""
    with board(*town(tmp_path)) as it:
        show(driver, 1280, "light")
        page = Page(driver, it.address)
        page.press_role("tab", "Selected")
        rows = page.driver.execute_script(
            "return [...document.querySelectorAll('#short-table tbody tr')].map((row) => "
            "[...row.cells].map((it) => it.textContent))"
        )
        wanted = [[HOSPITAL, "20 of 60", "40"], *([name, "20 of 30", "10"] for name in PLACES)]
        assert rows == wanted
        page.press(PLACES[2])
        page.wait(lambda: page.text("#what h3") == PLACES[2])
        as_before(driver)


def test_a_roster(driver: Any) -> None:
    """Of a roster it says how much can be staffed."""
    with board(*ROTA) as it:
        show(driver, 400, "light")
        page = Page(driver, it.address)
        judge_head(page, 400)
        said = " ".join(page.text("header").split())
        assert said.startswith("rota.csv 120 of 128 hours can be staffed, and not more. Short:")
        as_before(driver)


@pytest.mark.parametrize("width", WIDTHS)
def test_nothing_is_short(driver: Any, width: int) -> None:
    """Without limited amounts it says what can be sent and the bottleneck, and nothing else."""
    with board(PIPES) as it:
        show(driver, width, "light")
        page = Page(driver, it.address)
        judge_head(page, width)
        said = " ".join(page.text("header").split())
        sent = "165 litres per second can be sent from Reservoir to Harbour, and not more."
        assert said == f"pipes.csv {sent} Bottleneck: 3 pipes"
        it.do(what="close", arc=10)
        page.wait(lambda: page.value() == 155)
        judge_head(page, width)
        page.by_role("button", "Undo")
        as_before(driver)


# How wide the lines of the value are, in pixels: the texts whose middles are at one height.
WIDE = """
const range = document.createRange(), found = [];
range.selectNodeContents(document.getElementById("value"));
for (const { left, right, top, bottom } of range.getClientRects()) {
  const middle = (top + bottom) / 2, same = found.find((it) => Math.abs(it.middle - middle) < 9);
  if (!same) found.push({ left, right, middle });
  else Object.assign(same, { left: Math.min(same.left, left), right: Math.max(same.right, right) });
}
return found.map(({ left, right }) => right - left);
"""


@pytest.mark.parametrize("width", [768, 400])
def test_no_word_is_alone(driver: Any, tmp_path: Path, width: int) -> None:
    """Where the value has two lines, neither is shorter than a third of the other."""
    with board(grid_table(tmp_path, 3)) as it:
        show(driver, width, "light")
        page = Page(driver, it.address)
        assert page.text("#value").endswith(" litres can be sent from Lake to Sea, and not more.")
        wide = driver.execute_script(WIDE)
        assert len(wide) == 2 and min(wide) > max(wide) / 3, wide
        as_before(driver)


def judge_whole(page: Page) -> list[str]:
    """No text of the headline that is seen is cut, and the value has two lines at most. Returns the
    texts."""
    free = page.driver.execute_script(HEAD)[1]
    seen = page.driver.execute_script(SEEN, free)
    for text, _, is_whole in seen:
        assert is_whole, text
    assert lines(seen[0][1]) <= 2 and lines(seen[1][1]) <= 1
    return [str(text) for text, _, _ in seen]


def counted(names: str) -> int:
    """How many places are meant by `Anna, Ben and 3 more` or `5 places`."""
    parts = re.split(", | and ", names)
    return sum(int(it.split()[0]) if re.fullmatch(r"\d+ (more|places)", it) else 1 for it in parts)


def test_many_ends(driver: Any) -> None:
    """With four sources and eight sinks, three of them short, the value, its unit, the bottleneck
    and what is short most are seen whole at each width, also after the window has changed; lists of
    names have fewer where there is less room, and count the others."""
    words = str(SUPPLY / "routes.csv"), *(f"--{it}={SUPPLY}/{file}.csv" for it, file in ENDS)
    with board(*words) as it:
        set_width(driver, 1280)
        page = Page(driver, it.address)
        depot = next(at for at in it.told("find?text=East+Depot")["found"])
        it.do(what="shut", node=depot["node"])
        page.wait(lambda: page.value() == 126)
        found: dict[int, str] = {}
        for width in (*WIDTHS, 1280):
            set_width(driver, width)
            is_so = f"return innerWidth === {width}"
            page.wait(partial(driver.execute_script, is_so))
            judge_head(page, width)
            value, short, limit = judge_whole(page)
            match = re.fullmatch(
                "126 of 150 pallets can be sent from (.+) to (.+), and not more.", value
            )
            assert match and [*map(counted, match.groups())] == [4, 8], value
            assert short.startswith("Short: Dock 10") and counted(short) == 3
            assert re.fullmatch(r"Bottleneck: \d+ parts", limit)
            assert found.setdefault(width, value) == value
        as_before(driver)


@pytest.mark.parametrize("width", WIDTHS)
def test_long_names(driver: Any, tmp_path: Path, width: int) -> None:
    """The same holds for names that have no room at all, and for a roster with one."""
    long = "The Department of " * 8 + "Anna"
    (tmp_path / "rota.csv").write_text(f"name,hours,Mon,Tue\nneeded,,1,2\n{long},8,x,x\n")
    (tmp_path / "pipes.csv").write_text(f"from,to,l/s\n{long},Mill,20\nMill,{long} II,30\n")
    roster = f"{tmp_path}/rota.csv", "--shift", "8", "--daily", "1"
    for words, said, short in (
        (town(tmp_path), "100 of 180 l/s can be sent", f"Short: {HOSPITAL} 40"),
        (roster, "8 of 24 hours can be staffed", "Short: "),
        ([f"{tmp_path}/pipes.csv"], "20 l/s can be sent, and not more.", ""),
    ):
        with board(*words) as it:
            show(driver, width, "light")
            page = Page(driver, it.address)
            found = judge_whole(page)
            assert found[0].startswith(said) and found[1].startswith(short)
            driver.get("about:blank")
    as_before(driver)


@pytest.mark.parametrize(
    "title, word", [("Pipe", "pipe"), ("ROAD", "road"), ("shift", "shift"), ("Rohr", "Rohr")]
)
def test_the_word_of_the_table(tmp_path: Path, title: str, word: str) -> None:
    """The page calls an arc what the table's title calls it, as it stands within a sentence."""
    table = tmp_path / "pipes.csv"
    table.write_text(f"from,to,l/s,{title}\nLake,Sea,9,one\n")
    with board(str(table)) as it:
        assert it.state()["words"]["arc"] == word
