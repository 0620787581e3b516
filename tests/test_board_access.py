"""A board by keyboard and by ear: the focus, the keys, names and roles in Chromium's accessibility
tree, contrast, and a narrow page."""

from __future__ import annotations

import itertools
from pathlib import Path
from typing import Any

import pytest
from board_pages import Page
from board_running import board
from desk_shared import PIPES, without

pytestmark = pytest.mark.seconds(20)
TAB, ENTER, ESCAPE, SHIFT = "\ue004", "\ue007", "\ue00c", "\ue008"
LEFT, UP, RIGHT, DOWN = "\ue012", "\ue013", "\ue014", "\ue015"
WIDTHS, SCHEMES = (1280, 768, 400), ("light", "dark")
# Roles of what somebody can act on.
ACTED_ON = {
    "button",
    "link",
    "textbox",
    "searchbox",
    "checkbox",
    "combobox",
    "DisclosureTriangle",
    "grid",
    "columnheader",
}
# The ratio of contrast of two colours is as WCAG 2.1 has it. Each text that is seen is noted with
# its ratio, and whether it is large.
TEXTS = """
const probe = document.createElement("canvas").getContext("2d", { willReadFrequently: true });
function rgba(colour) {
  probe.clearRect(0, 0, 1, 1);
  probe.fillStyle = colour;
  probe.fillRect(0, 0, 1, 1);
  return [...probe.getImageData(0, 0, 1, 1).data];
}
const part = (it) => (it / 255 <= 0.03928 ? it / 255 / 12.92 : ((it / 255 + 0.055) / 1.055) ** 2.4);
const light = (colour) => {
  const [r, g, b] = rgba(colour).map(part);
  return 0.2126 * r + 0.7152 * g + 0.0722 * b;
};
const ratio = (one, other) => {
  const [a, b] = [light(one), light(other)].sort((x, y) => y - x);
  return (a + 0.05) / (b + 0.05);
};
function behind(element) {
  const inner = element.closest("g.node")?.querySelector("ellipse.inner");
  if (inner && rgba(getComputedStyle(inner).fill)[3] === 255) return getComputedStyle(inner).fill;
  for (let it = element; it; it = it.parentElement) {
    const colour = getComputedStyle(it).backgroundColor;
    if (rgba(colour)[3] === 255) return colour;
  }
  return "white";
}
const found = [];
for (const element of document.querySelectorAll("body *")) {
  const isText = [...element.childNodes].some((it) => it.nodeType === 3 && it.data.trim())
    || element.matches("input");
  const isUnseen = element.closest(".unseen, datalist, title");
  if (!isText || !element.checkVisibility() || isUnseen) continue;
  const looks = getComputedStyle(element), size = parseFloat(looks.fontSize);
  const isLarge = size >= 24 || size >= 18.66 && Number(looks.fontWeight) >= 700;
  const colour = element instanceof SVGElement ? looks.fill : looks.color;
  found.push([element.outerHTML.slice(0, 150), ratio(colour, behind(element)), isLarge]);
}
"""
CONTRAST = f"""{TEXTS}
const paper = getComputedStyle(document.getElementById("picture")).backgroundColor;
const lines = ["#picture .cut path:not(.wide)", "#picture .unused path:not(.wide)"];
const marks = [...lines, "#picture .chosen path.wide"]
  .map((at) => [at, ratio(getComputedStyle(document.querySelector(at)).stroke, paper)]);
return [found, marks];
"""


def show(driver: Any, width: int, scheme: str) -> None:
    driver.execute_cdp_cmd(
        "Emulation.setDeviceMetricsOverride",
        {"width": width, "height": 900, "deviceScaleFactor": 1, "mobile": False},
    )
    features = [
        {"name": "prefers-color-scheme", "value": scheme},
        {"name": "prefers-reduced-motion", "value": "reduce"},
    ]
    driver.execute_cdp_cmd("Emulation.setEmulatedMedia", {"features": features})


def as_before(driver: Any) -> None:
    driver.execute_cdp_cmd("Emulation.clearDeviceMetricsOverride", {})
    driver.execute_cdp_cmd("Emulation.setEmulatedMedia", {"features": []})
    driver.get("about:blank")


def judge_colours(page: Page, width: int) -> None:
    """An arc is chosen: no colour is below AA, and the page is as wide as it may be."""
    page.driver.execute_script("document.querySelector('#picture .arc').classList.add('unused')")
    texts, marks = page.driver.execute_script(CONTRAST)
    assert [text for text, ratio, is_large in texts if ratio < (3 if is_large else 4.5)] == []
    assert all(ratio >= 3 for _, ratio in marks), marks
    assert page.driver.execute_script("return document.documentElement.scrollWidth") <= width


def focused(page: Page) -> str:
    """The text of what has the focus, or its id."""
    return str(
        page.driver.execute_script(
            "const it = document.activeElement; return it.id || it.textContent"
        )
    )


def test_names_and_colours(driver: Any) -> None:
    """Each control has a name and a role, and no colour is below AA, at each width, light and dark,
    also in what comes by clicks."""
    with board(PIPES) as it:
        page = Page(driver, it.address)
        it.do(what="close", arc=12)
        it.do(what="shut", node=4)
        for width, scheme in itertools.product(WIDTHS, SCHEMES):
            show(driver, width, scheme)
            page = Page(driver, it.address)
            page.choose("arc-9", "Mill Lane")
            page.write("#filter", "capacity < 60")
            page.wait(lambda: "9 rows" in page.text("#filter-told"))  # noqa: B023
            page.press("Choose all of these")
            page.wait(lambda: page.text("#many-told"))  # noqa: B023
            judge_tree(driver)
            page.press("What would a second one bring?")
            page.wait(
                lambda: page.text("#seconds-told").startswith(("Best", "A sec"))
            )  # noqa: B023
            texts = []
            for tab in driver.find_elements("css selector", "[role=tab]"):
                if tab.is_displayed():
                    tab.click()
                    judge_names(driver)
                    texts += driver.execute_script(CONTRAST)[0]
            page.write("#text", "mill")
            page.wait(lambda: page.text("#found"))  # noqa: B023
            judge_names(driver)
            found, marks = driver.execute_script(CONTRAST)
            texts += found
            low = [
                (text, round(ratio, 2))
                for text, ratio, is_large in texts
                if ratio < (3 if is_large else 4.5)
            ]
            assert (low, len(texts) > 60) == ([], True), (width, scheme, low)
            assert all(ratio >= 3 for _, ratio in marks), (width, scheme, marks)
        as_before(driver)


def judge_tree(driver: Any) -> None:
    """The table and its fields have their roles, and all has a name."""
    assert {"button", "checkbox", "searchbox", "grid", "columnheader", "textbox", "tab"} <= {
        role for role, *_ in judge_names(driver)
    }


def judge_names(driver: Any) -> list[tuple[str, str, set[str]]]:
    """What can be acted on has a name; what can have the focus has a role. Returns the role, the
    name and the properties of each."""
    driver.execute_cdp_cmd("Accessibility.enable", {})
    nodes = [
        node
        for node in driver.execute_cdp_cmd("Accessibility.getFullAXTree", {})["nodes"]
        if not node["ignored"]
    ]
    told = [
        (
            node["role"]["value"],
            node.get("name", {}).get("value", ""),
            {one["name"] for one in node.get("properties", ())},
        )
        for node in nodes
    ]
    nameless = [(role, name) for role, name, _ in told if role in ACTED_ON and not name.strip()]
    assert nameless == []
    roleless = [
        (role, name)
        for role, name, has in told
        if "focusable" in has and role in ("generic", "none", "") and name != ""
    ]
    assert roleless == []
    driver.execute_cdp_cmd("Accessibility.disable", {})
    return told


def test_focus_stays(driver: Any) -> None:
    """After what is done by Enter, the focus is on what stands in the place of the button, and
    never nowhere."""
    with board(PIPES) as it:
        page = Page(driver, it.address)
        page.choose("node-5", "Mill")
        for word, then in ("Shut it", "Open it again"), ("Open it again", "Shut it"):
            page.act_on(
                lambda: page.button(word), lambda found: found.send_keys(ENTER)  # noqa: B023
            )
            page.settle()
            page.wait(lambda: focused(page) == then)  # noqa: B023
        for button in "undo", "undo":
            page.keys(f"#{button}", ENTER)
            page.settle()
        # There is nothing more to undo.
        assert (focused(page), it.state()["at"]) == ("redo", 0)
        page.choose("arc-9", "Mill Lane")
        page.write("#capacity", "40", ENTER)
        page.settle()
        page.wait(lambda: "Mill Lane carries 40" in page.text("#way"))
        assert focused(page) == "capacity"
        picture = driver.find_element("id", "picture")
        picture.send_keys(RIGHT)
        place = focused(page)
        it.do(what="close", arc=12)
        page.wait(lambda: "Market link" in page.text("#way"))
        page.settle()
        assert focused(page) == place != "picture"
        page.keys("#grid th.capacity button", ENTER)
        page.wait(
            lambda: driver.find_element("css selector", "#grid th.capacity").get_attribute(
                "aria-sort"
            )
            == "descending"
        )
        page.wait(lambda: focused(page) == "fits")
        driver.get("about:blank")


def test_escape(driver: Any) -> None:
    """Escape closes what is told of the choice, or of many, and the focus is back where that was
    chosen."""
    with board(PIPES) as it:
        page = Page(driver, it.address)
        page.choose("arc-9", "Mill Lane")
        page.keys("#capacity", ESCAPE)
        page.wait(lambda: page.text("#what").startswith("Click a pipe"))
        page.wait(lambda: focused(page) == "arc-9")
        assert driver.find_elements("css selector", "#picture .chosen") == []
        page.keys("#grid", " ")
        page.wait(lambda: page.text("#many-told").startswith("1 chosen"))
        page.keys("#many-capacity", ESCAPE)
        page.wait(lambda: page.text("#many") == "" and focused(page) == "grid")
        driver.get("about:blank")


def middles(driver: Any) -> dict[str, tuple[float, float]]:
    """The middle of each place on the screen."""
    nodes = "[...document.querySelectorAll('#picture .node')]"
    found = driver.execute_script(
        f"return {nodes}.map((it) => [it.id, it.querySelector('ellipse').getBoundingClientRect()])"
    )
    return {
        node: (box["x"] + box["width"] / 2, box["y"] + box["height"] / 2) for node, box in found
    }


def test_arrows(driver: Any) -> None:
    """An arrow key goes to a place in its direction than which none is nearer both along it and
    aside; where it stays, none is there. All places can be reached so, and with Shift all pipes."""
    with board(PIPES) as it:
        page = Page(driver, it.address)
        spots = middles(driver)
        ways = {RIGHT: (1, 0), LEFT: (-1, 0), DOWN: (0, 1), UP: (0, -1)}
        reached, left, arcs = {"node-1"}, ["node-1"], set()
        while left:
            place = left.pop()
            for key, (right, down) in ways.items():
                driver.execute_script("document.getElementById(arguments[0]).focus()", place)
                driver.switch_to.active_element.send_keys(key)
                now = focused(page)
                judge_way(spots, place, now, (right, down))
                if now not in reached:
                    reached.add(now)
                    left.append(now)
                driver.execute_script("document.getElementById(arguments[0]).focus()", place)
                page.actions().key_down(SHIFT).send_keys(key).key_up(SHIFT).perform()
                arcs.add(focused(page))
        assert reached == set(spots)
        assert len({arc for arc in arcs if arc.startswith("arc-")}) >= 10
        driver.get("about:blank")


def judge_way(
    spots: dict[str, tuple[float, float]], place: str, now: str, way: tuple[int, int]
) -> None:
    def apart(other: str) -> tuple[float, float]:
        right, down = spots[other][0] - spots[place][0], spots[other][1] - spots[place][1]
        return right * way[0] + down * way[1], abs(right * way[1]) + abs(down * way[0])

    there = {other: apart(other) for other in spots if other != place and apart(other)[0] > 1}
    if not there:
        assert now == place
        return
    assert now in there, (place, now, way)
    along, aside = there[now]
    nearer = [
        other
        for other, (other_along, other_aside) in there.items()
        if other_along < along - 1 and other_aside < aside - 1
    ]
    assert nearer == [], (place, now, way)


def test_said(driver: Any) -> None:
    """The picture has a text for who does not see it: the value, the limit, and what the last step
    changed."""
    with board(PIPES) as it:
        page = Page(driver, it.address)
        said = driver.execute_script("return document.getElementById('picture-said').textContent")
        wanted = (
            "165 litres per second flow from Reservoir to Harbour, over 14 pipes. The bottleneck: "
            "North rise, Mill Lane, South main."
        )
        assert said == wanted
        it.do(what="close", arc=10)
        page.wait(lambda: page.value() == without("Bridge pipe"))
        said = driver.execute_script("return document.getElementById('picture-said').textContent")
        assert said.endswith("Last step: close Bridge pipe, 10 less.") and said.startswith(
            "155 litres"
        )
        described = driver.execute_script(
            "return document.getElementById('picture').getAttribute('aria-describedby')"
        )
        assert described.split()[0] == "picture-said"
        driver.get("about:blank")


def test_narrow(driver: Any) -> None:
    """A click in the picture of a narrow page does not jump away from it, and nothing moves by
    itself where that is not wanted."""
    with board(PIPES) as it:
        show(driver, 400, "light")
        page = Page(driver, it.address)
        page.choose("node-5", "Mill")
        where = "return document.getElementById('node-5').getBoundingClientRect().top"
        before = driver.execute_script(where)
        it.do(what="close", arc=10)
        page.wait(lambda: page.value() == without("Bridge pipe"))
        page.settle()
        # A sentence at the top may take another line, and what is looked at stays where it is.
        assert driver.execute_script(where) == pytest.approx(before, abs=1)
        # What is told of it is seen without a scroll, below it.
        box = "document.querySelector('{}').getBoundingClientRect()"
        top, bottom = driver.execute_script(
            f"return [{box.format('#what h3')}.top, {box.format('#what h3')}.bottom]"
        )
        assert before < top < bottom < 900
        assert driver.execute_script("return document.getAnimations().length") == 0
        assert driver.execute_script("return document.documentElement.scrollWidth") <= 400
        as_before(driver)


def test_long_names(driver: Any, tmp_path: Path) -> None:
    """Names that are longer than a page is wide are broken, and hide no number beside them."""
    word = "Trinkwasserhochbeh\u00e4lterzulaufleitungsabschnitt"
    table = tmp_path / "long.csv"
    table.write_text(
        f"from,to,litres,pipe\n{word}Nord,{word}Mitte,12345678.55,{word}1\n"
        f"{word}Mitte,{word}S\u00fcd,9876543.25,{word}2\n"
    )
    with board(str(table)) as it:
        for width in WIDTHS:
            show(driver, width, "light")
            page = Page(driver, it.address)
            page.press("What would a second one bring?")
            page.wait(
                lambda: page.text("#seconds-told").startswith(("Best", "A sec"))
            )  # noqa: B023
            assert (
                driver.execute_script(
                    "return document.querySelector('#limit-table td').offsetWidth"
                )
                >= 72
            )
            page.click("#limit-table button")
            page.wait(lambda: page.text("#what h3") == f"{word}2")  # noqa: B023
            cut = (
                "const it = document.getElementById('limit-table').parentElement; return "
                "it.scrollWidth - it.clientWidth"
            )
            assert driver.execute_script(cut) <= 0
            page.press("Choose all of these")
            page.wait(lambda: page.text("#many-told"))  # noqa: B023
            assert driver.execute_script("return document.documentElement.scrollWidth") <= width
            amounts = "[...document.querySelectorAll('#grid td.flow, #grid td.capacity')]"
            assert (
                driver.execute_script(
                    f"return {amounts}.filter((it) => it.scrollWidth > it.clientWidth).map((it) => "
                    "it.innerText)"
                )
                == []
            )
        as_before(driver)
