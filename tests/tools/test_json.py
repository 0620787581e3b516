"""The tools with --json: each line is an object as docs/events.schema.json has it, the events are
all that it has, and their numbers are those of the stories, in the table's terms and the program's.
"""

from __future__ import annotations

import json
import shutil
import subprocess
from pathlib import Path
from typing import Any

import pytest
from built import BUILT
from desk_shared import ODD, PIPES, ROOT, SCRIPT, STORY, run, swept, water_problem
from dmf.text.lexical import display
from limits import SECONDS
from packages import load

jsonschema = load("jsonschema")
SCHEMA = json.loads((ROOT / "docs/events.schema.json").read_text())
# All commands, some of them refused.
COMMANDS = """cut
solve
cut
flow
flow Mill
steps
close Bridge pipe
open
cap "Mill Lane" +0,5
add Mill Station 25 "New ""odd"" pipe"
shut Mill
undo 2
redo
try
drop
try
close Mill Lane
keep
what-if close North rise
what-if each arc of the cut
worst 2
worth Mill Lane
worth Mill Lane and Bridge pipe
worst places 2
worst pairs 2
worth place Mill
scenario
scenario new B from first
cap where name ~ Market +10 %
compare base B
compare first nobody
help cut
nonsense
"""


def events(text: str) -> list[dict[str, Any]]:
    """The lines, each judged by the schema."""
    judge = jsonschema.Draft202012Validator(SCHEMA)
    found = [json.loads(line) for line in text.splitlines()]
    for it in found:
        assert not [error.message for error in judge.iter_errors(it)], it
    return found


def judge_numbers(content: Any, scale: int) -> None:
    """Each amount in an event is the table's times the scale."""
    if isinstance(content, dict) and content.keys() == {"told", "raw"}:
        whole, _, rest = content["told"].partition(".")
        assert int(whole + rest) * scale == content["raw"] * 10 ** len(rest), content
    for part in (
        content.values()
        if isinstance(content, dict)
        else content
        if isinstance(content, list)
        else ()
    ):
        judge_numbers(part, scale)


@pytest.fixture(scope="module")
def folder(tmp_path_factory: pytest.TempPathFactory) -> Path:
    made = tmp_path_factory.mktemp("json")
    shutil.copy(ROOT / PIPES, made)
    for name in "routes.csv", "stock.csv", "orders.csv", "flood.txt":
        shutil.copy(ROOT / "examples/supply" / name, made)
    (made / "water.max").write_bytes(water_problem())
    return made


def all_events(folder: Path) -> list[dict[str, Any]]:
    """What the tools write of the stories."""
    words = ["Reservoir", "Harbour", "--keep", "--json"]
    found = events(run("dmf-plan", f"{folder}/pipes.csv", *words, typed=COMMANDS).stdout)
    problem = folder / "supply.max"
    table = [
        "--table",
        f"{folder}/routes.csv",
        "--sources",
        f"{folder}/stock.csv",
        "--sinks",
        f"{folder}/orders.csv",
    ]
    problem.write_text(run("dmf-problem", *table).stdout)
    commands = (
        folder / "flood.txt"
    ).read_text() + "print problem\nprint cut\nnothing\nprint flow\n"
    (folder / "commands.txt").write_text(commands)
    answer = subprocess.run(
        [BUILT, "session", problem], input=commands, capture_output=True, text=True, timeout=SECONDS
    ).stdout
    found += events(
        run(
            "dmf-names",
            str(problem),
            "--commands",
            f"{folder}/commands.txt",
            "--json",
            typed=answer,
        ).stdout
    )
    # Without the commands.
    found += events(run("dmf-names", str(problem), "--json", typed=answer).stdout)
    return found + events(run("dmf-sweep", str(problem), "--close-each", "--json").stdout)


def test_schema() -> None:
    jsonschema.Draft202012Validator.check_schema(SCHEMA)
    judge = jsonschema.Draft202012Validator(SCHEMA)
    for wrong in (
        {},
        {"event": "other"},
        {"event": "text", "line": 1, "lines": [], "more": 1},
        {"event": "text", "line": 1},
        {"event": "steps", "line": -1},
    ):
        assert [*judge.iter_errors(wrong)], wrong


def test_each_line(folder: Path) -> None:
    """Of all commands and answers; none of the schema's events is missing; the inner nodes are
    never told."""
    found = all_events(folder)
    assert {it["event"] for it in found} == set(SCHEMA["properties"]["event"]["enum"])
    for it in found:
        if "scale" in it:
            judge_numbers(it, int(it["scale"]))
        assert it["event"] == "problem" or not any(
            inner in json.dumps(it) for inner in ("all sinks", "all sources")
        ), it


def test_demands(folder: Path) -> None:
    """What each shop gets of what it orders if the East Depot is shut: 126 pallets in all, as the
    story's page reckons them."""
    words = ["--sources", f"{folder}/stock.csv", "--sinks", f"{folder}/orders.csv", "--json"]
    typed = 'shut "East Depot"\nsolve\nplaces\n'
    *_, found = events(run("dmf-plan", f"{folder}/routes.csv", *words, typed=typed).stdout)
    rows = (line.split(",") for line in (folder / "orders.csv").read_text().splitlines()[1:])
    orders = {name: int(pallets) for name, pallets in rows}
    got = {it["place"]: it["flow"]["raw"] for it in found["demands"]}
    assert {it["place"]: it["demand"]["raw"] for it in found["demands"]} == orders
    assert sum(got.values()) == 126
    assert {name: orders[name] - got[name] for name in orders} == {
        it["place"]: it["short"]["raw"] for it in found["demands"]
    }


def test_the_water_story(folder: Path) -> None:
    """Values of the story; the limit; what each pipe means."""
    told = events(
        run(
            "dmf-plan",
            f"{folder}/water.max",
            "--json",
            typed=SCRIPT + "undo 2\ncut\nwhat-if each arc\nworst 2\nworth Mill Lane\n",
        ).stdout
    )
    solves = [at for at, line in enumerate(SCRIPT.splitlines(), 1) if line == "solve"]
    assert [it["value"]["raw"] for it in told if it["line"] in solves] == STORY
    limit = next(it for it in told if it["event"] == "limit")
    assert {it["name"]: it["capacity"]["raw"] for it in limit["arcs"]} == {
        "North rise": 60,
        "Mill Lane": 45,
        "South main": 60,
    }
    assert all(it["limit"] and it["flow"] == it["capacity"] for it in limit["arcs"])
    trials = next(it for it in told if it["event"] == "sweep")["trials"]
    assert {
        it["arc"]["name"]: (it["closed"]["raw"], it["doubled"]["raw"]) for it in trials
    } == swept()
    worst, worth = (it for it in told if it["event"] == "worth")
    left = {name: closed for name, (closed, _) in swept().items()}
    losses = [*worst["losses"], *worth["losses"]]
    assert [it["arc"]["name"] for it in losses] == [*sorted(left, key=left.__getitem__)[:2], LANE]
    assert all(it["without"]["raw"] == left[it["arc"]["name"]] for it in losses)
    assert all(it["loss"]["raw"] == 165 - left[it["arc"]["name"]] for it in losses)
    assert worst["more"] == sum(value < 165 for value in left.values()) - 2
    assert (worst["together"], worth["together"]["raw"]) == (None, left[LANE])


LANE = "Mill Lane"


def test_names(folder: Path) -> None:
    """Flows and the cut of `dmf-names` are those of the solution; a sweep's values are those of
    trying all sets of places."""
    solution = subprocess.run(
        [BUILT, "solve", "--cut"],
        stdin=open(folder / "water.max"),
        capture_output=True,
        text=True,
        timeout=SECONDS,
    ).stdout
    flows, cut = events(run("dmf-names", f"{folder}/water.max", "--json", typed=solution).stdout)
    assert [it["flow"]["raw"] for it in flows["arcs"]] == [
        int(line.split()[3]) for line in solution.splitlines() if line.startswith("f ")
    ]
    assert (cut["capacity"]["raw"], len(cut["side"])) == (
        165,
        sum(line.startswith("c side") for line in solution.splitlines()),
    )
    cases = events(run("dmf-sweep", f"{folder}/water.max", "--close-each", "--json").stdout)
    assert {it["name"]: it["value"]["raw"] for it in cases} == {
        name: closed for name, (closed, _) in swept().items()
    }
    assert all(it["difference"]["raw"] == it["value"]["raw"] - 165 for it in cases)
    top = events(
        run("dmf-sweep", f"{folder}/water.max", "--close-each", "--json", "--top", "2").stdout
    )
    worst = sorted(swept().items(), key=lambda it: it[1][0])[:2]
    assert [(it["name"], it["value"]["raw"]) for it in top] == [
        (name, closed) for name, (closed, _) in worst
    ]


def test_odd_names_and_decimals(tmp_path: Path) -> None:
    """A German table with a comma, and a name of quotes and markup."""
    quoted = ODD.replace('"', '""')
    (tmp_path / "t.csv").write_text(
        f'Von;Nach;Kapazität (l/s);Leitung\nA;B;47,35;"{quoted}"\nB;C;30,5;=x\n'
    )
    told = events(
        run(
            "dmf-plan",
            f"{tmp_path}/t.csv",
            "--json",
            typed=f'solve\nflow\ncap "{quoted}" 10,125\nsave {tmp_path}/t.max\n',
        ).stdout
    )
    assert [it["value"] for it in told[:1]] == [{"told": "30.5", "raw": 3050}] and (
        told[0]["unit"],
        told[0]["scale"],
    ) == ("l/s", "100")
    assert [it["name"] for it in told[1]["arcs"]] == [display(ODD), "=x"]
    assert told[2]["value"] == {"told": "10.125", "raw": 10125} and told[2]["scale"] == "1000"
    cases = events(run("dmf-sweep", f"{tmp_path}/t.max", "--close-each", "--json").stdout)
    assert [it["name"] for it in cases] == [ODD, "=x"] and cases[0]["difference"] == {
        "told": "-10.125",
        "raw": -10125,
    }


def test_refused(folder: Path) -> None:
    for tool, words in {
        "dmf-names": ["--json", "--csv"],
        "dmf-sweep": ["--json", "--close-each", "--table", f"{folder}/x.csv"],
    }.items():
        ran = run(tool, f"{folder}/water.max", *words)
        assert (ran.returncode, ran.stdout) == (2, "") and "--json" in ran.stderr
