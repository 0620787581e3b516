"""Reports on a screen, on a phone and on a sheet of A4: nothing is wider than the page, and each
letter can be read."""

from __future__ import annotations

import base64
import random
import re
import shutil
import subprocess
from collections.abc import Iterator
from pathlib import Path
from typing import Any

import board_pages
import pytest
from desk_shared import ROOT, run
from dmf.desk.project.report import report
from dmf.desk.project.scenarios import project_of
from project_shared import water_project
from report_page import Page, judge_labels, limits, named_in


def town() -> str:
    """A table of 100 places in a square, with pipes to the right and down."""
    chance = random.Random(4)
    rows = [
        f"P{row}{column},P{row + down}{column + 1 - down},{chance.randint(3, 9)},{row}{column}"
        for row in range(9)
        for column in range(9)
        for down in (0, 1)
    ]
    rows += [f"P9{at},P9{at + 1},4,last {at}" for at in range(9)]
    rows += [f"P{at}9,P{at + 1}9,4,right {at}" for at in range(9)]
    return "from,to,litres,pipe\n" + "\n".join(rows) + "\n"


TOWN = town()


def test_labels_are_read_on_paper(tmp_path: Path) -> None:
    """The picture of a town has at most 30 labels, each at least 8 points high on a sheet of A4,
    and none on another or on a line; all of the bottleneck are among them. No list has more than
    five names without saying how many more there are."""
    (tmp_path / "town.csv").write_text(TOWN)
    words = ["--source", "P00", "--sink", "P99", f"{tmp_path}/town.csv"]
    ran = run("dmf-plan", *words, typed=f"solve\nreport {tmp_path}/report.html\n")
    assert ran.returncode == 0, ran.stderr
    page = Page((tmp_path / "report.html").read_text())
    [text] = page.pictures
    picture = judge_labels(text)
    # In points: a sheet of 210 mm less its margins of 15 mm and the frame of the picture.
    by = ((210 - 2 * 15) / 25.4 * 72 - 4) / picture.width
    sizes = [size * by for texts in picture.labels.values() for _, size, *_ in texts]
    assert min(sizes) >= 8 and 5 < len(picture.labels) <= 30
    limit = {row[0].partition(",")[0] for rows in limits(page) for row in rows}
    assert limit and limit <= named_in(text)
    assert re.search("Before it: (?:[^,]+, ){4}[^,]+ and [0-9]+ more", page.text)


@pytest.fixture(scope="module")
def driver() -> Iterator[Any]:
    yield from board_pages.browser("--hide-scrollbars")


def shown(driver: Any, path: Path, width: int, scheme: str = "light", height: int = 900) -> None:
    """Shows a page in a window of this size."""
    driver.execute_cdp_cmd(
        "Emulation.setEmulatedMedia",
        {"features": [{"name": "prefers-color-scheme", "value": scheme}]},
    )
    size = {"width": width, "height": height, "deviceScaleFactor": 1, "mobile": width < 500}
    driver.execute_cdp_cmd("Emulation.setDeviceMetricsOverride", size)
    driver.get(path.as_uri())


def test_it_fits(tmp_path: Path, driver: Any) -> None:
    """On a wide screen, on a phone, in light and dark, with long names: nothing is wider than the
    page; and printed, it has pages of A4."""
    desk = water_project(tmp_path)
    project_of(desk).rename("W" * 200)
    desk.add(desk.network.names.place("Mill"), desk.network.names.place("Station"), 25, "N" * 300)
    (tmp_path / "report.html").write_text(report(desk))
    desk.end()
    page = tmp_path / "report.html"
    for width in 1280, 768, 400:
        for scheme in "light", "dark":
            shown(driver, page, width, scheme)
            seen, wide = driver.execute_script(
                "return [document.documentElement.clientWidth, "
                "document.documentElement.scrollWidth]"
            )
            assert seen == wide == width
            back = driver.execute_script("return getComputedStyle(document.body).backgroundColor")
            assert (sum(map(int, re.findall("[0-9]+", back))) < 200) == (scheme == "dark")
    pdf = base64.b64decode(
        driver.execute_cdp_cmd("Page.printToPDF", {"preferCSSPageSize": True})["data"]
    )
    boxes = re.findall(rb"/MediaBox \[0 0 ([0-9.]+) ([0-9.]+)\]", pdf)
    assert boxes and all(
        (round(float(width)), round(float(height))) == (595, 842) for width, height in boxes
    )


# The texts of a page, also in its pictures, each with the size of its letters in points.
PRINTED = """
const found = [], walk = document.createTreeWalker(document.body, NodeFilter.SHOW_TEXT);
while (walk.nextNode()) {
  const { parentElement: element, textContent: text } = walk.currentNode;
  const size = 0.75 * parseFloat(getComputedStyle(element).fontSize);
  if (text.trim()) found.push([text.trim(), size]);
}
for (const image of document.images) {
  const text = atob(image.src.split(",")[1]);
  const picture = new DOMParser().parseFromString(text, "image/svg+xml");
  const by = 0.75 * image.clientWidth / picture.documentElement.viewBox.baseVal.width;
  for (const text of picture.querySelectorAll("text")) {
    found.push([text.textContent, by * parseFloat(text.getAttribute("font-size"))]);
  }
}
return found;
"""


@pytest.mark.parametrize("story", ["water", "rota", "two scenarios"])
def test_it_is_read_on_paper(tmp_path: Path, driver: Any, story: str) -> None:
    """No letter on a sheet of A4 is smaller than 8 points, in the picture neither."""
    table = ROOT / f"examples/{'rota/rota' if story == 'rota' else 'water/pipes'}.csv"
    shutil.copy(table, tmp_path)
    words = ["--shift", "8", "--daily", "1"] if story == "rota" else []
    typed = "scenario new other\n" if story == "two scenarios" else ""
    page = tmp_path / "report.html"
    given = f"{tmp_path}/{table.name}", "--keep", *words
    assert run("dmf-plan", *given, typed=f"{typed}report {page}\n").returncode == 0
    driver.execute_cdp_cmd("Emulation.setEmulatedMedia", {"media": "print"})
    # The pixels of 180 mm, between the margins.
    size = {"width": 680, "height": 1000, "deviceScaleFactor": 1, "mobile": False}
    driver.execute_cdp_cmd("Emulation.setDeviceMetricsOverride", size)
    driver.get(page.as_uri())
    sizes = driver.execute_script(PRINTED)
    driver.execute_cdp_cmd("Emulation.setEmulatedMedia", {"media": ""})
    assert len(sizes) > 50 and [it for it in sizes if it[1] < 8] == []


@pytest.mark.parametrize("count", [1, 2, 6])
def test_it_has_two_pages(tmp_path: Path, driver: Any, count: int) -> None:
    """However many scenarios there are, a report of a town has at most two pages, lists all of them
    in a table, and shows two beside the present one; its paper is white, also from a dark
    screen."""
    (tmp_path / "town.csv").write_text(TOWN)
    words = ["--source", "P00", "--sink", "P99", f"{tmp_path}/town.csv", "--keep"]
    steps = [
        f"scenario new S{at}\nclose #{9 * at}\nclose #{9 * at + 5}\n" for at in range(1, count)
    ]
    typed = f"{''.join(steps)}report {tmp_path}/report.html\n"
    assert run("dmf-plan", *words, typed=typed).returncode == 0
    page = Page((tmp_path / "report.html").read_text())
    # The network of the table is one more.
    assert len(page.pictures) == min(3, count + 1)
    names = {"base", *(f"S{at}" for at in range(1, count))}
    assert names <= {row[0] for row in page.rows if len(row) == 4}
    shown(driver, tmp_path / "report.html", 1280, "dark")
    driver.execute_cdp_cmd("Emulation.setEmulatedMedia", {"media": "print"})
    back = driver.execute_script("return getComputedStyle(document.body).backgroundColor")
    ink = driver.execute_script("return getComputedStyle(document.body).color")
    assert [*map(int, re.findall("[0-9]+", back))][:3] == [255] * 3
    assert max(map(int, re.findall("[0-9]+", ink)[:3])) < 60
    pdf = base64.b64decode(
        driver.execute_cdp_cmd("Page.printToPDF", {"preferCSSPageSize": True})["data"]
    )
    driver.execute_cdp_cmd("Emulation.setEmulatedMedia", {"media": ""})
    assert 1 <= pdf.count(b"/Type /Page\n") <= 2


def test_no_list_is_long(tmp_path: Path) -> None:
    """Of 40 places that nothing leads to, the report names five: by the line of each, in which it
    stands first."""
    rows = [f"Lone{at},Mill,1\n" for at in range(40)]
    (tmp_path / "many.csv").write_text("from,to,litres\nWell,Mill,5\nMill,Town,5\n" + "".join(rows))
    words = ["--source", "Well", "--sink", "Town", f"{tmp_path}/many.csv"]
    ran = run("dmf-plan", *words, typed=f"solve\nreport {tmp_path}/report.html\n")
    assert ran.returncode == 0, ran.stderr
    text = Page((tmp_path / "report.html").read_text()).text
    assert re.findall("'(Lone[0-9]+)' [(]line", text) == [f"Lone{at}" for at in range(5)]
    assert "(line 8) and 35 more" in text


def test_the_picture_of_the_story(tmp_path: Path, driver: Any, writes: bool) -> None:
    """The pictures of the water story, on a wide screen and on a phone in the dark, which are made
    at least, and with --write put."""
    shutil.copy(ROOT / "examples/water/pipes.csv", tmp_path)
    story = (ROOT / "examples/water/today.txt").read_text() + f"report {tmp_path}/report.html\n"
    assert run("dmf-plan", f"{tmp_path}/pipes.csv", "--keep", typed=story).returncode == 0
    for name, width, scheme in ("report", 1280, "light"), ("report-small", 400, "dark"):
        shown(driver, tmp_path / "report.html", width, scheme, height=1000)
        picture = driver.get_screenshot_as_png()
        assert int.from_bytes(picture[16:20], "big") == width
        if writes:
            (ROOT / f"docs/pictures/{name}.png").write_bytes(picture)
    printed = tmp_path / "report.pdf"
    printed.write_bytes(
        base64.b64decode(
            driver.execute_cdp_cmd("Page.printToPDF", {"preferCSSPageSize": True})["data"]
        )
    )
    assert printed.read_bytes().count(b"/Type /Page\n") <= 2
    if writes:
        subprocess.run(
            [
                "pdftoppm",
                "-png",
                "-r",
                "55",
                "-singlefile",
                printed,
                ROOT / "docs/pictures/report-paper",
            ],
            check=True,
        )
