"""An import beside its questions: the parts of a file, the command line that gives the same
problem, and a reading that is stopped, after which the next import works."""

from __future__ import annotations

import contextlib
import http.client
import json
import shlex
import subprocess
import sys
import threading
import time
from collections.abc import Callable
from pathlib import Path
from typing import Any

import pytest
from board_running import Board, board
from conftest import ROOT
from dmf.desk.board.import_options import nothing_said
from dmf.desk.board.stopping import Stoppable, Stopped
from import_pages import CAPACITY, DROP, TODAY, VALLEY, ImportPage
from import_requests import asked, sent
from limits import SECONDS
from packages import load

openpyxl: Any = load("openpyxl")
pytestmark = pytest.mark.seconds(15)
NETWORK = """[JUNCTIONS]
 Town 4 80
[RESERVOIRS]
 Lake 60
[PIPES]
 P1 Lake Town 1200 200 100 0 Open
[OPTIONS]
 Units LPS
[END]
"""
STOPPED = "The reading was stopped."
# A lake and a mill, 1.5 m/s through a pipe of 200 mm: 1.5 * 3.141593 / 4 * 2^2 * 10 = 47.124.
WATER = """[JUNCTIONS]
 Mill 4 80
[RESERVOIRS]
 Lake 60
[TANKS]
 Tower 50 2 0 5 10 0
[PIPES]
 P1 Lake Mill 1200 200 100 0 Open
 P2 Tower Mill 1200 100 100 0 Closed
[OPTIONS]
 Units LPS
[END]
"""
# The second line begins 0.1 from where the first one ends.
MAP = json.dumps(
    {
        "type": "FeatureCollection",
        "features": [
            {
                "type": "Feature",
                "properties": {"dn": width, "q": most},
                "geometry": {"type": "LineString", "coordinates": points},
            }
            for width, most, points in ((300, 9, [[0, 0], [1, 0]]), (200, 7, [[1.1, 0], [2, 0]]))
        ],
    }
)
ROTA = "name,hours,Fri early,Fri late\npeople needed,,1,1\nAnna,12,x,x\nBen,24,x,x\n"


def book() -> bytes:
    """Return a workbook whose second sheet says 7."""
    import io

    made = openpyxl.Workbook()
    for sheet, most in (made.active, 5), (made.create_sheet("South 'B'"), 7):
        for row in ["from", "to", "capacity"], ["Res", "Town", most]:
            sheet.append(row)
    file = io.BytesIO()
    made.save(file)
    return file.getvalue()


# By the name of a file: its bytes, what is said of it, and what can be sent, by hand.
CASES: dict[str, tuple[bytes, dict[str, object], str]] = {
    "open.csv": (
        b"a,b,Length,Q max\nRes,A,1200,50\nA,Town,900,40\n",
        {"tail": "a", "head": "b", "capacity": "Q max", "ignore": ["Length"]},
        "40",
    ),
    "-odd #1 'a'.csv": (
        "von;nach;Menge\nM\u00fchle;A;1,5\nA;B;2,5\n".encode("latin-1"),
        {
            "encoding": "latin-1",
            "decimal": ",",
            "source": ["M\u00fchle"],
            "sink": ["B"],
        },
        "1.5",
    ),
    "two ways.csv": (
        b"from,to,capacity\nA,B,\nC,B,8\nB,D,3\n",
        {"both_ways": True, "missing": "0", "source": ["D=2", "A"], "sink": ["C"]},
        "2",
    ),
    "matrix.csv": (b",A,B\nRes,3,4\nA,0,9\n", {"matrix": True}, "7"),
    "net.xlsx": (book(), {"sheet": "South 'B'"}, "7"),
    "net.inp": (WATER.encode(), {"velocity": "1.5", "tanks": "none"}, "47.124"),
    "map.geojson": (MAP.encode(), {"capacity": "q", "tolerance": "0.2"}, "7"),
    "rota.csv": (ROTA.encode(), {"shift": "12", "daily": "1"}, "24"),
}


def problem(it: Board) -> bytes:
    """Return the problem of a board, with the names of its table."""
    status, _, text = it.ask(f"{it.root}problem.max?turn={it.turn()}")
    assert status == 200, text
    return text


@pytest.mark.parametrize("name", CASES)
def test_same_problem(tmp_path: Path, name: str) -> None:
    """The command line that the page shows, run in a shell's words, gives the same problem."""
    data, options, value = CASES[name]
    with board("--import", cwd=tmp_path) as it:
        assert sent(it, name, data)[0] == 200
        status, view = asked(it, "import", {"options": {**nothing_said(), **options}})
        assert status == 200 and view["answer"], view
        assert asked(it, "open", {}) == (200, {"opened": True})
        assert it.state()["value"] == value
        wanted = problem(it)
    words = shlex.split(view["command"])
    assert words[:2] == ["dmf", "board"]
    with board(*words[2:], cwd=tmp_path) as again:
        assert (again.state()["value"], problem(again)) == (value, wanted)


def test_map_contents(tmp_path: Path) -> None:
    """The kinds of features of a map are told, also if one of them is not a line."""
    with board("--import", cwd=tmp_path) as it:
        view = sent(it, "lines.geojson", MAP.encode())[1]
        assert view["question"]["option"] == "capacity"
        assert view["contents"] == [{"name": "LINESTRING", "count": 2, "said": "each is a row"}]
        assert view["preview"]["rows"][1][:2] == ["300", "9"]
        mixed = json.loads(MAP)
        mixed["features"][0]["geometry"] = {"type": "Point", "coordinates": [0, 0]}
        view = sent(it, "mixed.geojson", json.dumps(mixed).encode())[1]
        assert [(it["name"], it["count"], it["said"]) for it in view["contents"]] == [
            ("POINT", 1, "not a line"),
            ("LINESTRING", 1, "each is a row"),
        ]
        fault = view["faults"][0]
        assert "is a POINT, not a line" in fault["text"]
        assert (
            fault["text"].startswith("feature 1, column 'WKT': ")
            and view["preview"]["lines"][1] == 2
        )


def test_needs_of_a_matrix(tmp_path: Path) -> None:
    """A row that may have the needs is offered as that. The Lake sends 50 over the Mill, of which 5
    stay, and 25 over the Hill."""
    office = Path(__file__).parent / "tables" / "office"
    with board("--import", cwd=tmp_path) as it:
        for name, row in ("matrix-orders.csv", "Orders"), (
            "matrix-staff-above.csv",
            "Staff per day",
        ):
            view = sent(it, name, (office / name).read_bytes())[1]
            assert "--needs" in view["faults"][0]["text"] and view["answer"] is None
            [setting] = [it for it in view["settings"] if it["option"] == "needs"]
            assert setting["choices"] == [["", "not said"], [row, row]]
            view = asked(it, "import", {"options": {**nothing_said(), "needs": row}})[1]
            assert view["answer"]["said"].startswith("75 can be sent from Lake")


def test_parts(tmp_path: Path) -> None:
    """A part of a shapefile names the file that is read; what was missing beside the .shp is taken
    for it once it is there; and parts that come with a .shp are kept alone."""
    shapefile: Any = load("shapefile")
    with shapefile.Writer(str(tmp_path / "t"), shapeType=3, encoding="utf-8") as writer:
        writer.field("q", "N", 10)
        writer.line([[[0, 0], [1, 1]]])
        writer.record(5)
    parts = {it: (tmp_path / f"t.{it}").read_bytes() for it in ("shp", "shx", "dbf")}
    folder = tmp_path / "in"
    folder.mkdir()
    with board("--import", cwd=folder) as it:
        view = sent(it, "t.shx", parts["shx"])[1]
        assert "index of a shapefile (.shx); give the .shp" in view["faults"][0]["text"]
        view = sent(it, "t.shp", parts["shp"])[1]
        assert "its table, 't.dbf', does not stand beside it" in view["faults"][0]["text"]
        view = sent(it, "t.dbf", parts["dbf"])[1]
        assert view["file"]["name"] == "t.shp"
        assert view["answer"]["said"].startswith("5 q can be sent from 0,0 to 1,1")
        assert sent(it, "u.dbf", parts["dbf"], of="u.shp") == (200, {})
        assert it.told("import")["file"]["name"] == "t.shp"
        view = sent(it, "u.shp", parts["shp"])[1]
        assert view["answer"]["said"].startswith("5 q ")
        assert [entry["name"] for entry in view["contents"]] == ["LINESTRING"]


MANY = 250_000
LARGE = (
    '{"type": "FeatureCollection", "features": [\n'
    + ",\n".join(
        f'{{"type": "Feature", "properties": {{"capacity": {at % 9 + 1}}}, "geometry": {{"type":'
        f' "LineString", "coordinates": [[{at}, 0], [{at + 1}, 0]]}}}}'
        for at in range(MANY)
    )
    + "\n]}"
)


def while_stopped(it: Board, ask: Callable[[], tuple[int, Any]]) -> tuple[int, Any]:
    """Return the reply to a request for a reading, which is stopped until there is one."""
    replies: list[tuple[int, Any]] = []
    thread = threading.Thread(target=lambda: replies.append(ask()))
    thread.start()
    while thread.is_alive():
        time.sleep(0.3)
        assert asked(it, "stop", {})[0] == 200
    return replies[0]


@pytest.mark.seconds(30)
def test_stopped(tmp_path: Path) -> None:
    """A long reading ends when it is stopped. The file is whole, the view says what happened, and
    stays; what is asked for then is read, and so is the next file."""
    with board("--import", cwd=tmp_path) as it:
        asks: list[Callable[[], tuple[int, Any]]] = [
            lambda: sent(it, "slow.geojson", LARGE.encode()),
            lambda: asked(it, "import", {"options": nothing_said()}),
        ]
        for ask in asks:
            status, view = while_stopped(it, ask)
            assert status == 200 and view["is_stopped"] and view["answer"] is None
            assert [fault["text"] for fault in view["faults"]] == ["the reading was stopped"]
            assert (tmp_path / "slow.geojson").read_text() == LARGE
            assert it.told("import") == view and asked(it, "open", {})[0] == 409
        assert not it.sessions()
        view = sent(it, "s.csv", b"from,to,capacity\nRes,Town,40\n")[1]
        assert view["answer"]["said"] == "40 can be sent from Res to Town"
        assert asked(it, "open", {})[0] == 200 and it.state()["value"] == "40"


@pytest.mark.seconds(30)
def test_ended(tmp_path: Path) -> None:
    """Ctrl-C ends a board that reads."""
    (tmp_path / "slow.geojson").write_text(LARGE)
    with board("--import", "slow.geojson", cwd=tmp_path) as it:
        views: list[Any] = []
        thread = threading.Thread(target=lambda: note_view(it, views), daemon=True)
        thread.start()
        time.sleep(1)
        assert it.end() == 130
        thread.join()
        # It did not wait for the end of the reading. It may still answer that this was stopped.
        assert all(view["is_stopped"] for view in views)


def note_view(it: Board, views: list[Any]) -> None:
    """Ask for the view of an import, and note it, unless the board ends first."""
    with contextlib.suppress(OSError, ValueError, EOFError, http.client.HTTPException):
        views.append(it.told("import"))


def test_each_moment() -> None:
    """Whenever work is stopped, it is done or it is stopped, and nothing is raised later."""
    work, ended = Stoppable(), []
    done: list[int] = []
    for pause in range(400):
        stopper = threading.Timer(pause * 2e-6, work.stop)
        stopper.start()
        was_stopped = False
        try:
            work.run(lambda: done.append(sum(range(2_000))), lambda: ended.append(pause))
        except Stopped:
            was_stopped = True
        stopper.join()
        assert was_stopped == (ended[-1:] == [pause])
    work.stop()
    assert sum(range(100_000)) and len(done) >= 400 - len(ended)


# Work that is done, and work that is stopped, and then what a debugger does.
TRACED = """
import sys, threading
from dmf.desk.board.stopping import Stoppable, Stopped
work, begun = Stoppable(), threading.Event()
work.run(lambda: None, lambda: None)
threading.Thread(target=lambda: (begun.wait(), work.stop())).start()
try:
    work.run(lambda: (begun.set(), [None for _ in iter(int, 1)]), lambda: None)
except Stopped:
    print("stopped")
def trace(*_):
    return trace
sys.settrace(trace)
print(sum(number for number in range(10)))
"""


def test_traced_afterwards() -> None:
    """What is stopped leaves nothing behind in its thread, which goes on under a debugger."""
    ran = subprocess.run(
        [sys.executable, "-c", TRACED],
        env={"PYTHONPATH": str(ROOT / "clients" / "python")},
        capture_output=True,
        text=True,
        timeout=SECONDS,
    )
    assert (ran.stdout, ran.stderr) == ("stopped\n45\n", "")


class BusyPage(ImportPage):
    """The page of an import that has only begun to read."""

    def ready(self) -> None:
        pass

    def is_long(self) -> bool:
        """Return True if the page offers to stop."""
        return bool(self.driver.find_element("css selector", "#end").is_displayed())

    def stop(self) -> None:
        self.driver.find_element("css selector", "#end").click()


def test_parts_dropped(driver: Any, tmp_path: Path) -> None:
    """Files of a shapefile need its .shp, and no other file goes with them."""
    with board("--import", cwd=tmp_path) as it:
        page = ImportPage(driver, it.address)
        driver.execute_script(DROP, [["t.dbf", "x"], ["t.SHX", "x"]])
        page.wait(lambda: page.text("#trouble").endswith("Give its lines with them: t.shp."))
        for other in "t.csv", "t.inp", "u.prj":
            driver.execute_script(DROP, [["t.shp", "x"], ["t.dbf", "x"], [other, "x"]])
            page.wait(lambda: page.text("#trouble").startswith("These are several files"))
        assert [*tmp_path.iterdir()] == []
        driver.execute_script(DROP, [["t.shx", "x"]])
        page.says("It is the index of a shapefile (.shx); give the .shp")


def test_sections(driver: Any, tmp_path: Path) -> None:
    """What a network of EPANET has is listed, with what capacities are taken from, before the
    velocity is known and after. A pipe of 200 mm carries 47.124 litres in a second at 1.5 m/s."""
    (tmp_path / "net.inp").write_text(NETWORK)
    with board("net.inp", "--import", cwd=tmp_path) as it:
        page = ImportPage(driver, it.address)
        page.says("How fast does water flow at most?")
        rows = driver.find_elements("css selector", "#contents-table tr")
        assert [found.text.split()[:2] for found in rows] == [
            ["[JUNCTIONS]", "1"],
            ["[RESERVOIRS]", "1"],
            ["[PIPES]", "1"],
        ]
        assert rows[2].text.endswith("(mm) at the velocity that --velocity gives")
        page.named("button", "1.5 m/s, or another velocity").click()
        page.says("47.124 LPS can be sent from Lake to Town")
        rows = driver.find_elements("css selector", "#contents-table tr")
        assert rows[2].text.endswith("from the diameter (mm) at 1.5 m/s")


def test_button(driver: Any, tmp_path: Path) -> None:
    """A button stops a reading that takes long, and another one reads again; the next file is
    read."""
    (tmp_path / "slow.geojson").write_text(LARGE)
    with board("slow.geojson", "--import", cwd=tmp_path) as it:
        page = BusyPage(driver, it.address)
        page.wait(lambda: page.is_long())
        page.stop()
        page.wait(lambda: page.text("#value") == STOPPED)
        [again] = driver.find_elements("css selector", "#choices button")
        assert again.accessible_name == "Read it again"
        again.click()
        page.wait(lambda: page.is_long())
        page.stop()
        page.wait(lambda: not page.is_long() and page.text("#value") == STOPPED)
        driver.execute_script(DROP, [["dropped.csv", VALLEY.replace(TODAY, CAPACITY)]])
        page.wait(lambda: page.text("#value").startswith("40 m³/h can be sent from Res to Town"))
        assert driver.find_elements("css selector", "#choices button") == []
