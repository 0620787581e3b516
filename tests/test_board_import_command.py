"""`dmf-board --import` as a command: its files, its words, and how it ends."""

from __future__ import annotations

import json
import os
import shlex
import socket
from pathlib import Path

import pytest
from board_running import board
from desk_shared import run
from dmf.desk.board.import_options import arguments, command_line, options_of, others_of
from dmf.errors import TableFault
from dmf.tables.loader import split_path
from dmf.tools.board import first_answers, may_ask, options
from dmf.tools.command import ToolFault
from import_requests import OPEN, PLAIN, asked, importing, said

pytestmark = pytest.mark.seconds(10)
# Command lines: each option, in each form, and texts that look like options.
LINES = [
    ["s.csv"],
    ["net.xlsx#South"],
    ["--tail=-x", "--", "-odd.csv"],
    ["s.csv", "Res", "Town"],
    ["s.csv", "--source", "Res", "--source", "Mill=5", "--sink=-", "--sink", "a 'b' \"c\" $d"],
    ["s.csv", "--tail", "von", "--head", "nach", "--capacity", "column 3", "--name", "\u00e9"],
    ["s.csv", "--ignore", "a", "--ignore=---", "--decimal", ",", "--missing", "unlimited"],
    ["s.csv", "--matrix", "--both-ways", "--raw-names", "--keep"],
    ["s.csv", "--scale", "2.50", "--encoding", "latin-1", "--velocity", "1.5", "--tolerance", "0"],
    ["s.csv", "--tanks", "none", "--places", "p.csv#q", "--map", "m.csv", "--sinks", "d.csv"],
    ["s.csv", "--sources", "a", "--node-limits=-b"],
]


def test_changed_file(tmp_path: Path) -> None:
    """The view is that of the file as it is, and no other one is opened."""
    with importing(tmp_path, PLAIN) as it:
        assert it.told("import")["answer"]["said"].startswith("40 ")
        (tmp_path / "s.csv").write_text(PLAIN.replace("40", "3"))
        status, told = asked(it, "open", {})
        assert status == 409 and "changed" in told["error"]
        assert it.told("import")["answer"]["said"].startswith("3 ")
        (tmp_path / "s.csv").unlink()
        view = it.told("import")
        assert "cannot read s.csv" in view["faults"][0]["text"] and view["answer"] is None
        assert it.end() == 130


def test_kept(tmp_path: Path) -> None:
    """A project keeps what was said."""
    with importing(tmp_path, OPEN, "--keep") as it:
        said(it, capacity="Q [m\u00b3/h]", source=["Res"])
        assert asked(it, "open", {})[0] == 200
        assert it.state()["kept_in"] == "s.dmf.json"
        it.end()
    kept = json.loads((tmp_path / "s.dmf.json").read_text())["table"]["options"]
    assert (kept["capacity"], kept["source"]) == ("Q [m\u00b3/h]", ["Res"])
    with board("s.dmf.json", cwd=tmp_path) as again:
        assert again.state()["value"] == "40"
    with importing(tmp_path, OPEN, "--keep", "--capacity", "Q [m\u00b3/h]") as it:
        assert it.told("import")["answer"]
        status, told = asked(it, "open", {})
        assert status == 409 and "s.dmf.json" in told["error"]
        assert it.told("import")["answer"]


def test_map(tmp_path: Path) -> None:
    """A faulty map is told, and the import goes on."""
    (tmp_path / "map.csv").write_text("place,x,y\nRes,0,none\n")
    with importing(tmp_path, PLAIN, "--map", "map.csv") as it:
        assert it.told("import")["command"] == "dmf board s.csv --map map.csv"
        status, told = asked(it, "open", {})
        assert status == 409 and "map.csv" in told["error"]
        assert it.told("import")["answer"]["said"] == "40 can be sent from Res to Town"


def test_scripts(tmp_path: Path, monkeypatch: pytest.MonkeyPatch) -> None:
    """In a script, what is open stays an error; where there is a screen, the page asks."""
    path = tmp_path / "s.csv"
    path.write_text(OPEN, encoding="utf-8")
    screenless = {"DISPLAY": "", "WAYLAND_DISPLAY": ""}
    for words in (), ("--no-browser",):
        ran = run("dmf-board", *words, str(path), **screenless)
        assert ran.returncode == 3 and "which column is the capacity?" in ran.stderr
        ran = run("dmf-board", *words, **screenless)
        assert ran.returncode == 2 and "name the file of a table or a problem" in ran.stderr
    ran = run("dmf-board", "--import", str(tmp_path / "s.dmf.json"))
    assert ran.returncode == 2 and "--import is for tables" in ran.stderr
    for name, text in screenless.items():
        monkeypatch.setenv(name, text)
    monkeypatch.setattr("sys.stderr", None)
    with pytest.raises(TableFault):
        first_answers(options([str(path)]))
    monkeypatch.setenv("DISPLAY", ":99")
    assert may_ask(options([])) and not may_ask(options(["--no-browser", "s.csv"]))
    assert first_answers(options([])).page == first_answers(options([str(path)])).page
    assert first_answers(options([])).page == "import.html"
    with pytest.raises(TableFault):
        first_answers(options(["--no-browser", str(path)]))
    with pytest.raises(ToolFault):
        first_answers(options(["--import", str(tmp_path)]))


def test_ends_of_the_board(tmp_path: Path) -> None:
    """A taken port is told, and Ctrl-C ends an import as it ends a board."""
    (tmp_path / "s.csv").write_text(PLAIN)
    with socket.socket() as other:
        other.bind(("127.0.0.1", 0))
        taken = str(other.getsockname()[1])
        ran = run("dmf-board", "--import", "--no-browser", "--port", taken, str(tmp_path / "s.csv"))
        assert ran.returncode == 4 and "cannot listen" in ran.stderr
    with importing(tmp_path, PLAIN) as it:
        assert it.told("import")["answer"]
        assert it.end() == 130
    assert not it.sessions()


@pytest.mark.parametrize("given", LINES, ids=map(" ".join, LINES))
def test_command_line(given: list[str]) -> None:
    """The command on the page says what the arguments said."""
    words = options(["--import", *given])
    path = split_path(words.path)[0]
    told = command_line(arguments(path, options_of(words), others_of(words)))
    again = options([*shlex.split(told)[2:]])
    assert os.path.normpath(again.path) == os.path.normpath(words.path)
    same = {"places": [], "fixed": [], "is_import": False, "ask": None, "path": ""}
    assert {**vars(again), **same} == {**vars(words), **same}
