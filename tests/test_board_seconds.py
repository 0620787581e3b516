"""Tests what a page of tools/dmf-board is told of a second pipe beside each one, part by part, and
the copies of the network that find it. What is wanted comes from all sets of places, or from a
network whose ways are independent of each other."""

from __future__ import annotations

import contextlib
import json
import os
import re
import signal
import time
from pathlib import Path
from typing import Any

import pytest
from board_pages import Page
from board_running import Board, board
from desk_shared import PIPES, sessions_of, swept
from dmf.desk.board import second_sweeps
from dmf.desk.board.routes import Board as InBoard
from dmf.desk.workspace import Desk
from dmf.tables.loader import TableOptions, subject_of
from limits import SECONDS

QUESTION = "What would a second one bring?"
NOTHING = "A second one of any of them alone brings nothing."
# How much each way in lets through, and how much the way out of the same place, by its number.
WAYS = [(place % 7 + 1, place % 5 + 1) for place in range(100_000)]


def test_seconds() -> None:
    """They come in parts, and are those of all sets of places: what each brings, in the amounts of
    the table, empty where that is nothing; and in digits, ordered as texts are."""
    with board(PIPES) as it:
        left, rows = list(range(1, 15)), list[Any]()
        while left:
            told = json.loads(it.post("seconds", arcs=left)[1])
            left, rows = told["left"], rows + told["seconds"]
        wanted = {name: doubled for name, (_, doubled) in swept().items()}
        assert {row["short"]: int(row["doubled"]) for row in rows} == wanted
        for row in rows:
            won = wanted[row["short"]] - 165
            assert (row["won"], int(row["gain"])) == (str(won or ""), won), row
        digits = [row["gain"] for row in rows]
        assert sorted(digits) == sorted(digits, key=int)


def portion(it: Board, arcs: list[int]) -> Any:
    """The next results."""
    while True:
        told = json.loads(it.post("seconds", arcs=arcs)[1])
        if told["seconds"]:
            return told


def table_of(folder: Path, count: int) -> str:
    """The file of a table whose places each have a way in and one out."""
    rows = [
        f"S,P{place},{into},in {place}\nP{place},T,{out},out {place}\n"
        for place, (into, out) in enumerate(WAYS[:count])
    ]
    table = folder / "ways.csv"
    table.write_text("from,to,litres,pipe\n" + "".join(rows))
    return str(table)


def gain(name: str) -> int:
    """What a second one brings beside this one of such a table."""
    kind, place = name.split()
    into, out = WAYS[int(place)]
    twice = min(2 * into, out) if kind == "in" else min(into, 2 * out)
    return twice - min(into, out)


def test_portions(tmp_path: Path) -> None:
    """The copies of the network go on from portion to portion, and end with the next change."""
    count = 5_000
    with board(table_of(tmp_path, 100_000)) as it:
        told = portion(it, list(range(1, count + 1)))
        assert 0 < len(told["left"]) == count - len(told["seconds"])
        # A slow test may ask for a portion when the copies have ended already, but not each time.
        for _ in range(20):
            assert (copies := it.sessions()[1:])
            again = portion(it, told["left"])
            assert again["left"]
            assert again["seconds"][0]["number"] == told["left"][0]
            for row in told["seconds"] + again["seconds"]:
                assert int(row["won"] or 0) == gain(row["short"]), row
            # Others may have begun meanwhile.
            if {*copies} <= {*it.sessions()[1:]}:
                break
            told = again
        else:
            pytest.fail("the copies end with each portion")
        # Where the copies come to no result, nobody waits for one.
        stopped: set[int] = set()
        try:
            while again["seconds"]:
                for copy in it.sessions()[1:]:
                    stopped.add(copy)
                    os.kill(copy, signal.SIGSTOP)
                again = json.loads(it.post("seconds", arcs=again["left"])[1])
            assert (again["left"][-1], it.do(what="close", arc=1)["at"]) == (count, 1)
        finally:
            for copy in stopped:
                with contextlib.suppress(
                    ProcessLookupError
                ):  # It was killed, if it did not end in time.
                    os.kill(copy, signal.SIGCONT)
        wait_for_one(it.process.pid, "the copies go on after a change")


def wait_for_one(process: int, or_else: str) -> None:
    """Waits until a process has no session but that of its desk."""
    until = time.monotonic() + SECONDS
    while len(sessions_of(process)) > 1:
        assert time.monotonic() < until, or_else
        time.sleep(0.05)


def test_end(tmp_path: Path, monkeypatch: pytest.MonkeyPatch) -> None:
    """Where nothing is left to try, the copies of the network end at once, and not only where no
    portion was asked for in time, which takes an hour here."""
    monkeypatch.setattr(second_sweeps, "PATIENCE", 3600)
    text = Path(table_of(tmp_path, 40_000)).read_bytes()
    desk = Desk(subject_of(TableOptions(), "ways.csv", text), with_solve=True)
    it = InBoard(desk)

    def told(arcs: list[int]) -> Any:
        return json.loads(it.post("seconds", {"arcs": arcs, "turn": desk.turn}).body)

    first = told([*range(1, 5_001)])
    while not first["seconds"]:
        first = told(first["left"])
    left, own = first["left"], os.getpid()
    assert left and len(sessions_of(own)) > 1
    ended = told([])
    assert (ended["seconds"], ended["left"]) == ([], [])
    wait_for_one(own, "the copies go on after a stop")
    again = told(left)
    while not again["seconds"]:
        again = told(left)
    assert again["seconds"][0]["number"] == left[0]
    desk.end()


# How many results the first answer has that the browser lets through.
SOME = 40
# Lets the first answers come that have results, as many as said, of which each has at most SOME.
# Those after them do not come before they are let go. Tells the arcs that are asked for.
HELD = """
const [some, ask] = [arguments[1], window.fetch];
const isLetGo = new Promise((done) => { window.letGo = done; });
let first = arguments[0];
window.asked = [];
window.fetch = async (path, content) => {
  if (path !== "seconds") return ask(path, content);
  const { arcs } = JSON.parse(content.body);
  window.asked.push(arcs);
  const answer = await ask(path, content), told = await answer.json();
  if (first < 1) await isLetGo;
  const seconds = told.seconds.slice(0, some);
  first -= seconds.length ? 1 : 0;
  return new Response(JSON.stringify({ ...told, seconds, left: arcs.slice(seconds.length) }));
};
"""
CELLS = (
    "return [...document.querySelectorAll('#limit-table tbody tr')].map((it) => "
    "[...it.cells].map((at) => at.innerText))"
)


def test_stop(driver: Any) -> None:
    """A stop is there at once, also while an answer is waited for, and the button begins again."""
    with board(PIPES) as it:
        page = Page(driver, it.address)
        driver.execute_script(HELD, 0, SOME)
        page.press(QUESTION)
        page.wait(lambda: page.text("#seconds-told") == "0 of 3 are tried ..")
        driver.switch_to.active_element.send_keys("\ue007")
        assert (page.text("#seconds"), page.text("#seconds-told")) == (
            QUESTION,
            "Stopped: 0 of 3 are tried.",
        )
        # The board learns that nothing more is tried.
        arcs = [arc["number"] for arc in it.state()["limit"]]
        assert driver.execute_script("return window.asked") == [arcs, []]
        page.press(QUESTION)
        driver.execute_script("letGo()")
        page.wait(lambda: page.text("#seconds-told").startswith(("Best", "A second")))
        wanted = {name: doubled - 165 for name, (_, doubled) in swept().items()}
        told = {name: brings for name, _, brings in driver.execute_script(CELLS)}
        names = {arc["label"]: arc["name"] for arc in it.state()["limit"]}
        assert {names[label]: told[label] for label in told} == {
            name: f"{wanted[name]} more" if wanted[name] else "nothing" for name in names.values()
        }
        most = max(wanted[name] for name in names.values())
        best = [name for name in names.values() if wanted[name] == most]
        assert page.text("#seconds-told") == (
            f"Best to have a second of: {' or '.join(best)}, {most} litres per second more."
            if most
            else NOTHING
        )
        # A step makes it another question.
        page.after(lambda: it.do(what="close", arc=14) and None)
        page.wait(lambda: page.text("#seconds-told") == "")
        assert all(len(row) == 2 for row in driver.execute_script(CELLS))
        driver.get("about:blank")


def test_progress(driver: Any, tmp_path: Path) -> None:
    """What was found so far is shown while the search goes on, and how far it is. Each of these
    places has its own way in and out, and the first 300 of the bottleneck are listed."""
    with board(table_of(tmp_path, 3_000)) as it:
        page = Page(driver, it.address)
        assert page.value() == sum(min(way) for way in WAYS[:3_000])
        driver.execute_script(HELD, 1, SOME)
        page.press(QUESTION)
        page.wait(
            lambda: re.fullmatch("[1-9][0-9]* of 300 are tried [.][.]", page.text("#seconds-told"))
        )
        tried = int(page.text("#seconds-told").split()[0])
        assert tried <= SOME
        names = {arc["label"]: arc["name"] for arc in it.state()["limit"]}

        def told(label: str, place: int) -> str:
            won = gain(names[label])
            return ".." if place >= tried else f"{won} more" if won else "nothing"

        found = driver.execute_script(CELLS)
        assert [brings for _, _, brings in found] == [
            told(label, place) for place, (label, *_) in enumerate(found)
        ]
        assert len(found) == 300
        page.press("Stop")
        most = max(gain(names[label]) for label, *_ in found[:tried])
        said = page.text("#seconds-told")
        assert said.startswith(f"Stopped: {tried} of 300 are tried. ")
        assert (f", {most} litres more." if most else NOTHING) in said
        driver.execute_script("letGo()")
        driver.get("about:blank")
