"""The page of a roster speaks of people and shifts, in headless Chromium."""

from __future__ import annotations

import csv
import re
from collections import Counter
from pathlib import Path
from typing import Any
from xml.etree import ElementTree

import pytest
from board_pages import Page, told_loss
from board_running import board
from board_views import SVG, spots
from desk_shared import ROOT
from test_board_access import as_before, show

pytestmark = pytest.mark.seconds(20)
ROTA = str(ROOT / "examples/rota/rota.csv"), "--shift", "8", "--daily", "1"
# The words of networks that no roster has, and where the page shows its own words: all but the
# names of what it lists, and the form that adds an arc.
WATER_WORDS = (
    "sent",
    "carries",
    "carry",
    "widen",
    "wider",
    "demand",
    "place",
    "pipe",
    "source",
    "sink",
)
OWN_WORDS = """
const parts = ["#head", "#picture-said", "#what", "#short", "#limit", "#best", "#worst", "#legend"];
return parts.map((it) => {
  const part = document.querySelector(it).cloneNode(true);
  for (const form of part.querySelectorAll("form:has(#new-head), #costs")) form.remove();
  return part.textContent;
}).join(" ");
"""


def judge_words(page: Page) -> None:
    said = page.driver.execute_script(OWN_WORDS)
    assert "hours" in said
    for word in WATER_WORDS:
        assert not re.search(rf"\b{word}", said), f"{word}: {said}"


def test_words(driver: Any) -> None:
    """In the headline, the picture's description and *Selected*: of nothing, a person, a shift, and
    a connection. The numbers are those of the story: 7 parts allow 120 of 128 hours."""
    with board(*ROTA) as it:
        show(driver, 1280, "light")
        page = Page(driver, it.address)
        page.know_worth()
        judge_words(page)
        assert page.text("#what") == (
            "Click a person, a day or a shift in the picture, or find one by its name."
        )
        assert page.text("#limit-note").startswith(
            "All that is staffed counts against these 7, and together they allow 120 hours at "
            "most. To raise only others brings nothing. Before them: "
        )
        assert [page.text(f"#{it}-table thead").split() for it in ("limit", "short")] == [
            ["Connection", "allows"],
            ["Shift", "gets", "short"],
        ]
        assert page.text("#worst-places-table thead").startswith("Person, day or shift")
        for name, is_a in (
            ("Cem", "a person bottleneck: has no hours left"),
            ("Fri early", "a shift fully staffed"),
            ("Sun night", "a shift 8 short"),
            ("Cem on Fri", ""),
        ):
            page.write("#text", name)
            page.wait(lambda: page.text("#found button") == name)
            page.click("#found button")
            page.wait(lambda: page.text("#what h3") == name)
            assert page.text("#what .chips") == is_a
            judge_words(page)
        page.click("#what table button")
        page.wait(lambda: page.fact("Staffed") == "8 of 8")
        judge_words(page)
        as_before(driver)


def test_columns() -> None:
    """People, their days and the shifts stand in a column each, in this order, in a window that is
    wider than high."""
    with open(ROTA[0], newline="") as table:
        titles, _, *people = csv.reader(table)
    shifts = titles[2:]
    days = {
        (row[0], title.split()[0]) for row in people for title, cell in zip(shifts, row[2:]) if cell
    }
    with board(*ROTA) as it:
        lie = [(float(x), float(y)) for x, y in spots(it).values()]
    columns = Counter(x for x, _ in lie)
    assert [columns[x] for x in sorted(columns)] == [len(people), len(days), len(shifts)]
    wide, high = (max(side) - min(side) for side in zip(*lie))
    assert 1 < wide / high < 2


# The words of networks that no part of the panel has for a roster, where it lists nothing.
MORE_WATER_WORDS = (*WATER_WORDS, "shut", "gives at most", "takes at most", "flow", "fits", "Mill")
PANEL = """
const part = document.querySelector(arguments[0]).cloneNode(true);
for (const it of part.querySelectorAll("#costs, #grid tbody, #limit-table tbody")) it.remove();
return part.textContent;
"""


def judge_panel(page: Page, *parts: str) -> str:
    """What parts of the panel say, none of which is a word of networks."""
    said = " ".join(page.driver.execute_script(PANEL, part) for part in parts)
    for word in MORE_WATER_WORDS:
        assert not re.search(rf"\b{word}", said, re.IGNORECASE), f"{word}: {said}"
    return said


def test_words_of_each_tab(driver: Any) -> None:
    """The same holds for the legend, the table, its filter and what is done to all that are chosen;
    for a person who is left out, and taken in again; and for what a new connection is asked for."""
    with board(*ROTA) as it:
        show(driver, 1280, "light")
        page = Page(driver, it.address)
        page.know_worth()
        assert "what Cem can work" in page.text("#limit-table")
        assert "not taken" in judge_panel(page, "#shades")
        page.write("#text", "Cem")
        page.wait(lambda: page.text("#found button") == "Cem")
        page.click("#found button")
        page.wait(lambda: page.fact("What Cem can work") == "16 of 16")
        said = judge_panel(page, "#what")
        for word in "Gives", "Leaving it out", "allows hours", "What Cem can work in hours":
            assert word in said
        before = page.value()
        page.wait(lambda: page.fact("Leaving it out"))
        lost = page.fact("Leaving it out")
        left = page.after(lambda: page.press("Leave it out"))
        assert left < before and lost == told_loss(before, left)
        assert page.text("#what .chips").endswith("left out")
        assert page.text("#news").startswith("Cem is left out: ")
        judge_panel(page, "#what")
        assert page.after(lambda: page.press("Take it in again")) == 120
        page.click("#tab-all")
        page.write("#filter", "staffed > 0 and allows < 16")
        rows = [row for row in it.told("rows?filter=&sort=&first=0&count=500")["rows"]]
        wanted = sum(int(row["flow"]) > 0 and int(row["capacity"]) < 16 for row in rows)
        page.wait(lambda: page.text("#filter-told").startswith(f"{wanted} rows"))
        page.press("Choose all of these")
        page.wait(lambda: "are staffed" in page.text("#many-told"))
        said = judge_panel(page, "#filter-forms", "#grid", "#many", "#listed-head")
        assert "What each open connection allows" in said
        judge_panel(page, "#part-steps", "#part-selected > section:last-child")
        page.press("What would a second one bring?")
        page.wait(lambda: page.text("#seconds-told").startswith("Best to have a second of: "))
        assert "what Fri early needs" in judge_panel(page, "#seconds-told")
        report = it.ask(it.root + f"report.html?turn={it.turn()}")[2].decode()
        assert "what Cem can work" in report
        assert not re.search("(gives|takes) at most", report)
        as_before(driver)


def test_none_is_short(driver: Any, tmp_path: Path) -> None:
    """If nothing is missing, a roster says that all shifts are staffed, and a network that all
    demands are met."""
    (tmp_path / "rota.csv").write_text("name,hours,Mon,Tue\nneeded,,1,1\nAnna,8,x,\nBen,8,,x\n")
    (tmp_path / "pipes.csv").write_text("from,to,l/s\nSpring,Mill,20\n")
    (tmp_path / "asked.csv").write_text("place,demand\nMill,20\n")
    network = "--source", "Spring", "--sinks", f"{tmp_path}/asked.csv", f"{tmp_path}/pipes.csv"
    for words, value, said, limit in (
        (
            (f"{tmp_path}/rota.csv", "--shift", "8", "--daily", "1"),
            16,
            "All shifts are staffed.",
            "All that is staffed counts against these 2, and together they allow 16 hours at most.",
        ),
        (
            network,
            20,
            "All demands are met.",
            "All that is sent has to pass this one, and it carries 20 l/s at most.",
        ),
    ):
        with board(*words) as it:
            page = Page(driver, it.address)
            assert (page.value(), page.text("#demands")) == (value, said)
            assert page.text("#limit-note").startswith(limit)
            driver.get("about:blank")


def test_orange_is_what_lacks_something() -> None:
    """In the picture an amount is in the colour of the bottleneck if too little arrives, or if it
    is in the bottleneck and what is given; not if all arrives that is asked for."""
    with board(*ROTA) as it:
        root = ElementTree.fromstring(it.told("picture?near=")["svg"])
        limit = {arc["label"] for arc in it.state()["limit"]}
    assert "what Fri early needs" in limit and "what Cem can work" in limit
    looks = {}
    for group in root.iter(f"{SVG}g"):
        name, *amounts = group.findall(f"{SVG}text") or [group]
        looks.update({(name.text, it.text): it.get("class") for it in amounts})
    assert looks["Fri early", "takes 16/16"] == ""
    assert looks["Sun night", "takes 0/8"] == "short"
    assert looks["Cem", "gives 16/16"] == "cut"
    assert looks["Ida", "gives 8/16"] == ""
