"""The words of a roster in the picture, in the texts of steps, in the comparison of scenarios and
in the answers of dmf-plan: none is a word of networks; and those of a table of pipes."""

from __future__ import annotations

import re
import shutil
from pathlib import Path
from typing import Any
from xml.etree import ElementTree

import pytest
from board_pages import Page
from board_running import board
from board_views import SVG
from desk_shared import PIPES, ROOT, run
from project_shared import new_project
from test_board_access import as_before, show

pytestmark = pytest.mark.seconds(20)
OPTIONS = "--shift", "8", "--daily", "1"
ROTA = str(ROOT / "examples/rota/rota.csv"), *OPTIONS
NETWORK_WORDS = "pipe", "node", "arc", "flow", "source", "sink", "network"
# Each kind of change, and each question, by the names that a roster has; what is refused too.
CHANGES = """close Cem-Cem on Sat
cap Dora-Dora on Fri 4
cap "what Cem can work" 24
cap "what Fri early takes at most" 8
add Jan "Sat early" 8
shut Ida
open Ida
cap where from ~ Gita 8
close where from ~ Hugo
close where from ~ nobody
"""
QUESTIONS = """places
cut
solve
places
cut
worst
worst places
worst pairs
worth Cem
worth Cem-Cem on Fri
what-if shut Cem
what-if each limit
from Cem
close nobody
close #9999
cut nothing
"""
# What a page says of a comparison and of its picture, without the names of scenarios.
SAID = """
const told = [...document.querySelectorAll(arguments[0])].map((it) => it.textContent);
return [...told, document.getElementById("picture").ariaLabel].join(" ");
"""


def judge(said: str) -> None:
    for word in NETWORK_WORDS:
        assert not re.search(rf"\b{word}s?\b", said, re.IGNORECASE), f"{word}: {said}"


def said_in(svg: str) -> str:
    """All that a picture says, seen or heard."""
    root = ElementTree.fromstring(svg)
    texts = [it.text or "" for tag in ("text", "title") for it in root.iter(SVG + tag)]
    heard = [it.get("aria-label", "") for it in root.iter()]
    assert any(texts)
    return " ".join([*texts, *heard])


def test_answers() -> None:
    """dmf-plan answers and refuses without a word of networks, and a step says who can work what.
    What dmf-names calls an arc of a person or a shift still means it."""
    ran = run("dmf-plan", *ROTA, typed=f"solve\n{CHANGES}{QUESTIONS}steps\n")
    refused = [line for line in ran.stderr.splitlines() if re.match("dmf-plan: line [0-9]", line)]
    assert len(refused) == 5, ran.stderr
    judge(ran.stdout + "".join(refused))
    for text in (
        "Cem can work 24 hours",
        "Fri early needs 8 hours",
        "Dora -> Dora on Fri allows 4 hours",
        "leave out Ida",
        "take in Ida again",
        "close 2 connections where from ~ Hugo",
        "Anna: 0 in, ",
        "a person",
        "a shift",
        "; more can be staffed: solve",
        "leaving out Cem: ",
        "what Dora can work: 16",
    ):
        assert text in ran.stdout, (text, ran.stdout)
    assert "more can be staffed, so the limit is not known; `solve` first" in ran.stderr
    assert "no connection is called 'nobody'" in ran.stderr
    unsolved = run("dmf-plan", *ROTA, typed="places\n").stdout
    judge(unsolved)
    assert "nobody is staffed yet: `solve` finds the greatest" in unsolved


def test_pipes_as_before() -> None:
    """A table of pipes keeps its words."""
    typed = 'flow\nclose "Mill Lane"\nsolve\ncut\nplaces\nshut Mill\nopen Mill\nclose x y\nsteps\n'
    ran = run("dmf-plan", PIPES, typed=typed)
    for text in (
        "there is no flow yet: `solve` finds the greatest",
        "  source's side: ",
        "a source",
        "a sink",
        "; more can be sent: solve",
        "shut Mill",
        "open Mill",
    ):
        assert text in ran.stdout, text
    assert "no arc is called 'x y'" in ran.stderr


def test_picture_and_steps() -> None:
    """The picture and the picture that is saved, in every state, and the texts of the steps."""
    with board(*ROTA) as it:
        state = it.state()
        cem = next(arc["node"] for arc in state["limit"] if arc["label"] == "what Cem can work")
        rows = it.told("rows?filter=from ~ Cem&sort=&first=0&count=9".replace(" ", "%20"))["rows"]
        numbers = [row["number"] for row in rows]
        for act in (
            {"what": "close", "arc": numbers[0]},
            {"what": "open", "arc": numbers[0]},
            {"what": "double-all", "arcs": numbers[1:3]},
            {"what": "cap-all", "arcs": numbers[1:3], "capacity": "4"},
            {"what": "cap", "arc": state["limit"][0]["number"], "capacity": "20"},
            {"what": "shut", "node": cem},
        ):
            assert "value" in it.do(**act), act
            judge(said_in(it.told("picture?near=")["svg"]))
        assert "Jan, gives 0 of 8" in said_in(it.told("picture?near=")["svg"])
        assert "Cem, left out" in said_in(it.told("picture?near=")["svg"])
        saved = it.ask(f"{it.root}picture.svg?near=&turn={it.turn()}")[2].decode()
        assert "where 16 are allowed" in said_in(saved)
        judge(said_in(saved).partition("dmf ")[0])
        texts = [step["text"] for step in it.state()["steps"]]
        judge(" ".join(texts))
        assert len(texts) == 7 and texts[-1] == "leave out Cem"
        assert texts[-2] == f"{state['limit'][0]['label'].removeprefix('what ')} 20 hours"


def test_comparison(driver: Any, tmp_path: Path) -> None:
    """Two scenarios beside each other: in dmf-plan, on the page, and in the picture of what
    differs."""
    shutil.copy(ROTA[0], tmp_path)
    new_project(tmp_path, "rota.csv", *OPTIONS).end()
    path = str(tmp_path / "kept.dmf.json")
    typed = (
        "scenario new Later from first\nshut Cem\nsolve\ncompare base Later\ncompare base first\n"
    )
    told = run("dmf-plan", path, typed=typed).stdout
    judge(told)
    assert "  connections that differ, base | Later:" in told and "what Cem can work: " in told
    with board(path) as it:
        show(driver, 1280, "light")
        page = Page(driver, it.address)
        page.click("#tab-scenarios")
        page.wait(lambda: page.driver.find_element("id", "comparing").is_displayed())
        page.click("#comparing button")
        page.wait(lambda: "what Cem can work" in page.text("#compare-table"))
        page.wait(lambda: page.driver.find_elements("css selector", "#compare-picture svg"))
        parts = "#compared-shown, #scenarios, #picture-said, #picture-keys, #legend"
        said = page.driver.execute_script(SAID, parts)
        judge(said)
        assert "what is staffed, hours" in said and "Picture of the roster" in said
        saved = it.ask(f"{it.root}difference.svg?one=base&two=Later&turn={it.turn()}")[2].decode()
        judge(said_in(saved))
        as_before(driver)
