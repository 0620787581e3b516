"""A planner's table given to each tool that reads problems: it answers as for the problem that
dmf-problem makes of the table, and the numbers are those of a second computation."""

from __future__ import annotations

import csv
import re
import shutil
import subprocess
from fractions import Fraction
from pathlib import Path
from typing import Any

import pytest
import town_table as town
from board_running import board
from built import BUILT
from client_shared import dmf
from desk_shared import run

TOOLS: dict[str, list[str]] = {
    "dmf-plan": [],
    "dmf-board": ["--no-browser"],
    "dmf-names": [],
    "dmf-dot": [],
    "dmf-sweep": ["--close-each"],
}


@pytest.fixture(scope="module")
def words(tmp_path_factory: pytest.TempPathFactory) -> list[str]:
    """What names the table. Beside it is the problem of it, and the solution of that."""
    path = tmp_path_factory.mktemp("ways")
    given = town.put(path)
    made = run("dmf-problem", "--table", *given).stdout
    (path / "netz.max").write_text(made)
    ran = subprocess.run(
        [BUILT, "solve", "--cut"], input=made, capture_output=True, check=True, text=True
    )
    (path / "answer").write_text(ran.stdout)
    return given


def beside(words: list[str], name: str) -> Path:
    return Path(words[0]).with_name(name)


def number(cell: str) -> Fraction:
    return Fraction(cell.replace(",", "."))


def test_names(words: list[str]) -> None:
    answer = beside(words, "answer").read_text()
    ran = run("dmf-names", *words, typed=answer)
    assert ran.returncode == 0 and "rows are the same, and each counts: line 72 as 13" in ran.stderr
    assert ran.stdout == run("dmf-names", str(beside(words, "netz.max")), typed=answer).stdout
    value, limit = (
        re.search(rf"^{word} ([0-9.]+) l/s$", ran.stdout, re.MULTILINE)
        for word in ("value", "limit")
    )
    assert value and limit and Fraction(value[1]) == Fraction(limit[1]) == town.wanted().value
    crossing = ran.stdout[limit.end() :].splitlines()[2:]
    assert sum(Fraction(line.rpartition(": ")[2]) for line in crossing) == town.wanted().value


def test_dot(words: list[str]) -> None:
    given = [*words, str(beside(words, "answer"))]
    ran = run("dmf-dot", given[0], given[-1], *given[1:-1])
    assert ran.returncode == 0, ran.stderr
    labels = re.findall(r'^  [0-9]+ \[label="([^"\\]*)', ran.stdout, re.MULTILINE)
    assert sorted(labels) == sorted({place for pipe in town.pipes() for place in pipe[1:3]})
    assert '  label="numbers in l/s, from netz.csv"\n' in ran.stdout
    assert ran.stdout == run("dmf-dot", str(beside(words, "netz.max")), given[-1]).stdout


def test_sweep(words: list[str], tmp_path: Path) -> None:
    """Also where the table comes from a pipe, and the run goes on where another broke off."""
    closed = ["R5", "R20", "R33"]
    numbers = {pipe.name: place for place, pipe in reversed(list(enumerate(town.pipes(), 1)))}
    (tmp_path / "cases").write_text("".join(f"close {numbers[name]}\n" for name in closed))
    ran = run(
        "dmf-sweep",
        "--cases",
        str(tmp_path / "cases"),
        "/dev/stdin",
        *words[1:],
        typed=Path(words[0]).read_text(),
    )
    assert ran.returncode == 0, ran.stderr
    rows = list(csv.DictReader(ran.stdout.splitlines(), delimiter=";"))
    assert [row["name"] for row in rows] == closed
    for row in rows:
        wanted = town.wanted(row["name"]).value
        assert (number(row["value (l/s)"]), number(row["difference (l/s)"])) == (
            wanted,
            wanted - town.wanted().value,
        )
    kept = [
        run(
            "dmf-sweep",
            "--close-each",
            "--of",
            "cut",
            "--table",
            str(tmp_path / "kept.csv"),
            *words,
        ).returncode
        for _ in range(2)
    ]
    assert kept == [0, 0]


@pytest.mark.parametrize("tool", TOOLS)
def test_all_faults_in_each_tool(tmp_path: Path, tool: str) -> None:
    (tmp_path / "netz.csv").write_text("von;nach;Kapazit\u00e4t\nA;B;x\nA;;3\nB;C;-1\n")
    ran = run(tool, *TOOLS[tool], f"{tmp_path}/netz.csv")
    assert (
        ran.returncode,
        ran.stdout,
        [line.split(":")[1].partition(", ")[2] for line in ran.stderr.splitlines()],
    ) == (
        3,
        "",
        [
            "line 2, column 'Kapazit\u00e4t'",
            "line 3, column 'nach'",
            "line 4, column 'Kapazit\u00e4t'",
        ],
    )


@pytest.mark.parametrize("tool", TOOLS)
def test_words_that_do_not_fit(words: list[str], tool: str) -> None:
    """Options of tables beside a problem, and a place that is none."""
    ran = run(tool, *TOOLS[tool], str(beside(words, "netz.max")), "--source", "A")
    assert (ran.returncode, ran.stdout, "the options are for tables" in ran.stderr) == (2, "", True)
    ran = run(tool, *TOOLS[tool], words[0], "--source", "Quelle Nrod", "--sink", town.SINK)
    assert (ran.returncode, ran.stdout) == (3, "")
    assert ran.stderr.endswith(
        "the source 'Quelle Nrod' is in no row of arcs; is it 'Quelle Nord' or 'Quelle S\u00fcd'?\n"
    )


def test_what_is_neither(tmp_path: Path) -> None:
    """A file of which nothing says what it is goes for what the tool has been given so far, unless
    an option says that it is a table."""
    path = tmp_path / "net"
    path.write_text("von nach cap\nA B 3\n")
    assert run("dmf-names", str(path)).stderr == "dmf-names: line 1 of the problem: unknown line\n"
    assert run("dmf-dot", str(path)).stderr == f"dmf-dot: {path}: line 1: unknown line: von\n"
    assert (
        run("dmf-sweep", "--close-each", str(path)).stderr
        == f"dmf-sweep: {path}: unknown line: line 1 of the problem\n"
    )
    path.write_text("von\tnach\tcap\nA\tB\t3\n")
    ran = run("dmf-dot", str(path), "--source", "A", "--sink", "B")
    assert (ran.returncode, '1 -> 2 [label="3"]' in ran.stdout) == (0, True)
    path.write_text("von|nach|cap\nA|B|3\n")
    assert '1 -> 2 [label="3"]' in run("dmf-dot", str(path)).stdout


def test_no_file_loses_the_unit(words: list[str], tmp_path: Path) -> None:
    """Each file that a tool writes of the table tells the unit; and a problem, whose numbers are
    whole, what they were multiplied by."""
    answer, problem = beside(words, "answer").read_text(), str(beside(words, "netz.max"))
    files = [
        tmp_path / f"plan.{kind}"
        for kind in ("csv", "max", "dot", *["svg"] * bool(shutil.which("dot")))
    ]
    typed = "".join(
        f"{'save' if file.suffix in ('.csv', '.max') else 'draw'} {file}\n" for file in files
    )
    assert run("dmf-plan", *words, typed=f"solve\n{typed}").returncode == 0
    texts = {file.name: file.read_text() for file in files}
    for given in words, [problem]:
        table = tmp_path / f"sweep{len(given)}.csv"
        assert (
            run(
                "dmf-sweep", "--close-each", "--of", "cut", "--table", str(table), *given
            ).returncode
            == 0
        )
        name = Path(given[0]).name
        texts[f"dmf-sweep {name}"] = table.read_text()
        texts[f"dmf-names {name}"] = run("dmf-names", *given, typed=answer).stdout
        texts[f"dmf-names --csv {name}"] = run("dmf-names", "--csv", *given, typed=answer).stdout
        texts[f"dmf-dot {name}"] = run("dmf-dot", *given, typed=answer).stdout
    printed = subprocess.run(
        [BUILT, "session", problem],
        input="close 1\nprint problem\n",
        capture_output=True,
        check=True,
        text=True,
    ).stdout
    texts["printed.max"] = run("dmf-names", problem, typed=printed).stdout
    texts["dmf-problem.max"] = Path(problem).read_text()
    opened: list[Any] = [dmf.read_table(tmp_path / "plan.csv"), dmf.read(problem)]
    for at, network in enumerate(opened):
        network.solve()
        network.write(tmp_path / f"written{at}.max")
        network.plot(tmp_path / f"written{at}.dot")
        texts |= {
            file.name: file.read_text()
            for file in (tmp_path / f"written{at}.max", tmp_path / f"written{at}.dot")
        }
        network.end()
    with board(*words) as page:
        turn = page.turn()
        texts["board.csv"] = page.ask(page.root + f"plan.csv?turn={turn}")[2].decode()
        texts["board.max"] = page.ask(page.root + f"problem.max?turn={turn}")[2].decode()
    assert [name for name, text in texts.items() if "l/s" not in text] == []
    scaled = {
        name: text for name, text in texts.items() if name.endswith(".max") and " " not in name
    }
    assert (
        len(scaled) == 6
        and [
            name
            for name, text in scaled.items()
            if "c capacities are those of the table times 100\n" not in text
        ]
        == []
    )
