"""A planner's way from her own table of 300 pipes to a printed report, by what the pages call their
buttons: every click is counted, with those in the dialogs of the browser. What is wanted comes from
networkx."""

from __future__ import annotations

import base64
import csv
import random
import re
from pathlib import Path
from typing import Any

import networkx
import pytest
from board_pages import Page
from board_running import board
from c_library import library_file
from import_pages import ImportPage
from test_board_access import as_before, show

SIDE, NOW, LATER = 12, "Q now [l/s]", "Q later [l/s]"
# The most clicks, with the three of each dialog for a file and the one in that for printing.
MOST_CLICKS = 12
Row = tuple[str, str, str, int]
# Counts the clicks on an element.
NOTE_CLICKS = """
window.noted = 0;
arguments[0].addEventListener("click", () => { window.noted += 1; });
"""


def town() -> list[Row]:
    """300 pipes of a town: a grid with mains that lead into it and ways out of it."""
    chance = random.Random(5)
    places = [(row, column) for row in range(SIDE) for column in range(SIDE)]
    ends = [((row, column), (row, column + 1)) for row, column in places if column + 1 < SIDE]
    ends += [((row, column), (row + 1, column)) for row, column in places if row + 1 < SIDE]
    named = [(f"J{a}-{b}", f"J{c}-{d}") for (a, b), (c, d) in ends]
    rows = [(tail, head, chance.choice([8, 12, 20, 30])) for tail, head in named]
    rows += [("Works", f"J{row}-0", 60) for row in range(SIDE)]
    rows += [(f"J{row}-{SIDE - 1}", "Sea", 25) for row in range(SIDE)]
    rows += [(f"J{SIDE - 1}-{column}", "Sea", 25) for column in range(SIDE)]
    return [(f"P-{place:03d}", *row) for place, row in enumerate(rows, 1)]


def greatest(rows: list[Row]) -> int:
    graph = networkx.DiGraph()
    for _, tail, head, capacity in rows:
        before = graph.get_edge_data(tail, head, {"capacity": 0})["capacity"]
        graph.add_edge(tail, head, capacity=before + capacity)
    return int(networkx.maximum_flow_value(graph, "Works", "Sea"))


class Walk(Page):
    """A page on which every click is counted."""

    clicks = 0

    def press(self, word: str) -> None:
        """Presses what a click acts on that has this name and can be seen. No tab is opened for
        it."""
        self.clicks += 1
        self.wait(lambda: [it.click() for it in self.seen(word)[:1]])
        self.settle()

    def seen(self, word: str) -> list[Any]:
        """The buttons, tabs and links whose names begin with this, if they can be clicked."""
        found = self.driver.find_elements("css selector", "button, [role=tab], a, label.button")
        return [
            it
            for it in found
            if it.is_displayed() and it.is_enabled() and name_of(it).startswith(word)
        ]

    def hand_on(self, word: str, folder: Path, file: str) -> Path:
        """Presses a link that hands a file on, and waits for the file."""
        words = {"behavior": "allow", "downloadPath": str(folder)}
        self.driver.execute_cdp_cmd("Browser.setDownloadBehavior", words)
        self.press(word)
        self.wait((folder / file).exists)
        return folder / file


class FirstWalk(Walk, ImportPage):
    """A page that asks for a file, on which every click is counted."""

    def choose_file(self, file: Path) -> None:
        """Presses the button for a file, and chooses it in the dialog that the browser opens, by a
        click on it and one on Open."""
        words = "Page.setInterceptFileChooserDialog"
        self.driver.execute_cdp_cmd(words, {"enabled": True})
        field = self.named("file", "Choose a file")
        self.driver.execute_script(NOTE_CLICKS, field)
        self.press("Choose a file")
        assert self.driver.execute_script("return window.noted") == 1
        field.send_keys(str(file))
        self.clicks += 2
        self.driver.execute_cdp_cmd(words, {"enabled": False})


def name_of(found: Any) -> str:
    """The name of what a click acts on; a label has that of its field."""
    return str(found.text if found.tag_name == "label" else found.accessible_name)


def judge_second(page: Walk, rows: list[Row]) -> None:
    """What a second one beside each pipe of the bottleneck brings, and the best of them laid."""
    value = greatest(rows)
    page.press("Bottleneck: ")
    page.press("What would a second one bring?")
    page.wait(lambda: page.text("#seconds-told").startswith("Best to have a second of: "))
    gains = {row: greatest([*rows, row]) - value for row in rows}
    best = [row[0] for row in rows if gains[row] == max(gains.values())]
    said = re.fullmatch(
        "Best to have a second of: (.*), ([0-9]+) l/s more.", page.text("#seconds-told")
    )
    assert said and said[1].split(" or ") == best and int(said[2]) == max(gains.values())
    page.press(best[0])
    page.press("Put a second one beside it")
    assert page.value() == value + max(gains.values())


def judge_best(page: Walk, rows: list[Row]) -> None:
    """The first of those that are best to have twice is tried, and then put there."""
    value, gains = greatest(rows), {row[0]: greatest([*rows, row]) for row in rows}
    best = max(gains.values())
    page.know_worth()
    page.press("Try a second ")
    said = page.text("#best-trial p")
    assert said in {
        f"A second {name}: {value} → {best}, {best - value} more."
        for name in gains
        if gains[name] == best
    }
    assert page.value() == value
    page.press("Put it there")
    assert page.value() == best


def judge_print(driver: Any, value: int) -> None:
    """The report has the value, and is printed on at most two sheets of A4."""
    assert f"{value} l/s" in driver.find_element("tag name", "body").text
    pdf = base64.b64decode(
        driver.execute_cdp_cmd("Page.printToPDF", {"preferCSSPageSize": True})["data"]
    )
    boxes = re.findall(rb"/MediaBox \[0 0 ([0-9.]+) ([0-9.]+)\]", pdf)
    assert {(round(float(wide)), round(float(high))) for wide, high in boxes} == {(595, 842)}
    assert pdf.count(b"/Type /Page\n") <= 2


@pytest.mark.seconds(30)
def test_from_the_file_to_a_printed_report(
    driver: Any, tmp_path: Path, monkeypatch: pytest.MonkeyPatch
) -> None:
    """Eleven clicks lead from a workbook with 300 pipes to a printed report: the file, its name and
    Open in the dialog, the column, Open; *Try it*, *Put it there*; the steps, the report; the file
    that was handed on, and after Ctrl-P Print."""
    import openpyxl

    rows, book = town(), openpyxl.Workbook()
    assert len(rows) == 300 and book.active is not None
    book.active.append(["Pipe", "Start node", "End node", NOW, LATER])
    for row in rows:
        book.active.append([*row, row[3] + 5])
    table = tmp_path / "town.xlsx"
    book.save(table)
    folder = tmp_path / "board"
    folder.mkdir()
    # As in an installed package, the library finds what is best to have twice.
    monkeypatch.setenv("DMF_LIBRARY", library_file())
    with board("--import", cwd=folder) as it:
        show(driver, 1280, "light")
        first = FirstWalk(driver, it.address)
        first.choose_file(table)
        first.says("Which column is the capacity?")
        first.press(NOW)
        first.press("Open")
        page = Walk(driver, "")
        page.clicks = first.clicks
        assert page.value() == greatest(rows)
        judge_best(page, rows)
        value = page.value()
        page.press("Steps")
        report = page.hand_on("Report to hand on (HTML)", tmp_path, "report.html")
        # The file that was handed on, and Print in the dialog that Ctrl-P opens.
        page.clicks += 2
        driver.get(f"file://{report}")
        judge_print(driver, value)
        assert page.clicks == 11 <= MOST_CLICKS
        as_before(driver)


# Names as tables have them: with signs that pages, tables and files read in ways of their own.
ODD_NAMES = (
    "Müller & Söhne",
    "<b>Bold</b>",
    'the "old" one',
    "=SUM(A1)",
    "50 %",
    "Straße 1/2, rear",
    "水道",
    "a name that is longer than any column of the table and any label of the picture has room for",
    "'; DROP TABLE",
    "and",
    "  padded  ",
    "#12",
)


def odd_town() -> list[Row]:
    """The same 300 pipes, of which the first ones, those of the bottleneck, and some places have
    odd names."""
    places = {f"J{row}-0": name for row, name in enumerate(ODD_NAMES)}
    rows = town()
    best = [row for row in rows if greatest([*rows, row]) > greatest(rows)]
    odd = dict(zip([*(row[0] for row in best), *(row[0] for row in rows)], ODD_NAMES))
    return [
        (
            f"{odd[name].strip()} {name}" if name in odd else name,
            places.get(tail, tail).strip(),
            places.get(head, head).strip(),
            capacity,
        )
        for name, tail, head, capacity in rows
    ]


@pytest.mark.seconds(40)
def test_from_the_command_to_a_printed_report(driver: Any, tmp_path: Path) -> None:
    """`dmf-board FILE` with odd names opens the table at once; nine clicks and keys lead to a
    printed PDF: the bottleneck, what a second one brings, the best of them, to put it there, the
    steps, the report, the file that was handed on, Ctrl-P and Print."""
    rows = odd_town()
    assert len(rows) == 300
    table = tmp_path / "town, odd & <new>.csv"
    with table.open("w", newline="", encoding="utf-8") as file:
        writer = csv.writer(file)
        writer.writerow(["Pipe", "Start node", "End node", NOW])
        writer.writerows(rows)
    with board(str(table)) as it:
        show(driver, 1280, "light")
        page = Walk(driver, it.address)
        assert page.value() == greatest(rows)
        judge_second(page, rows)
        value = page.value()
        # Each name is text, as the table has it.
        listed = it.told("rows?filter=&sort=&first=0&count=400")["rows"]
        assert {row["name"] for row in listed} >= {row[0] for row in rows}
        assert not driver.find_elements("css selector", "#panel b, #picture b, #limit-table b")
        page.press("Steps")
        printed = page.hand_on("Report to print (PDF)", tmp_path, "report.pdf")
        assert printed.read_bytes().startswith(b"%PDF-")
        # The file, Ctrl-P, and Print in the dialog that it opens.
        page.clicks += 3
        assert page.clicks == 9 <= MOST_CLICKS
        driver.get(f"file://{page.hand_on('Report to hand on (HTML)', tmp_path, 'report.html')}")
        judge_print(driver, value)
        assert not driver.find_elements("css selector", "b")
        as_before(driver)
