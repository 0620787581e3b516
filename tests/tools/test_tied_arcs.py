"""A pipe that leads both ways is one thing in what dmf-names and dmf-dot make of answers of the
program, for which it is two arcs. Flows and cuts are worked out by hand."""

from __future__ import annotations

import csv
import json
from pathlib import Path

import pytest
from packages import load
from tool_runs import Tools, text

jsonschema = load("jsonschema")
SCHEMA = json.loads((Path(__file__).parents[2] / "docs/events.schema.json").read_text())
# 5 go from A to D: 3 over Main, from B to C, and 2 over `by`; all of it over `out`.
TIES = "c both ways 2 3 / c both ways 5 6 / "
NAMES = (
    "c node 1 A / c node 2 B / c node 3 C / c node 4 D / c arc 1 one / c arc 2 Main / "
    "c arc 3 Main / c arc 4 by / c arc 5 out / c arc 6 out / "
)
ARCS = "p max 4 6 / n 1 s / n 4 t / a 1 2 5 / a 3 2 3 / a 2 3 3 / a 1 3 2 / a 3 4 7 / a 4 3 7"
SOLVED = "s 5 / f 1 2 3 / f 3 2 0 / f 2 3 3 / f 1 3 2 / f 3 4 5 / f 4 3 0"
CUT = "c cut 5 / c side 1 / c side 2"
# The same value 4 with a unit that goes round on Main, and one on `out`.
ROUND = "s 4 / f 1 2 2 / f 3 2 1 / f 2 3 3 / f 1 3 2 / f 3 4 5 / f 4 3 1"
TABLE = """\
from,to,capacity,name,direction
A,B,5,one,->
C,B,3,Main,<->
A,C,2,by,->
C,D,7,out,<->
"""


def told(tools: Tools, folder: Path, problem: str, answer: str, *words: str) -> str:
    """Return what dmf-names tells of an answer."""
    ran = tools.run(
        "dmf-names", folder, ["problem", *words], text(answer), {"problem": text(problem)}
    )
    assert (ran.status, ran.err) == (0, b"")
    return ran.out.decode()


def test_an_answer(tools: Tools, tmp_path: Path) -> None:
    """Each pipe is a line with both numbers, its net flow and where that goes; and in the cut what
    it can carry out of the side."""
    expected = """\
value 5
    1 one, A -> B: 3 of 5
  2,3 Main, C <-> B: 3 of 3 to C
    4 by, A -> C: 2 of 2
  5,6 out, C <-> D: 5 of 7 to D
limit 5
  source's side: A, B
  2,3 Main, C <-> B: 3 to C
    4 by, A -> C: 2
"""
    assert told(tools, tmp_path, TIES + NAMES + ARCS, f"{SOLVED} / {CUT}") == expected
    (tmp_path / "pipes.csv").write_text(TABLE)
    ran = tools.run("dmf-names", tmp_path, ["pipes.csv", "A", "D"], text(f"{SOLVED} / {CUT}"))
    assert (ran.status, ran.out.decode()) == (0, expected)


def test_flows_there_and_back(tools: Tools, tmp_path: Path) -> None:
    """What flows there and back at once is not told, only the difference; and 0 goes nowhere."""
    lines = told(tools, tmp_path, TIES + NAMES + ARCS, ROUND).splitlines()
    assert lines[2::2] == [
        "  2,3 Main, C <-> B: 2 of 3 to C",
        "  5,6 out, C <-> D: 4 of 7 to D",
    ]
    still = "s 2 / f 1 2 0 / f 3 2 3 / f 2 3 3 / f 1 3 2 / f 3 4 2 / f 4 3 0"
    lines = told(tools, tmp_path, TIES + ARCS, still).splitlines()
    assert lines[2] == "  2,3 3 <-> 2: 0 of 3"


def test_a_session(tools: Tools, tmp_path: Path) -> None:
    """Where one way is closed or carries another amount, both ways are told. A pipe that is closed
    both ways is not listed, and one of which the first way is closed still is."""
    commands = "solve / close 2 / cap 6 4 / print flow / undo 2 / close 6 / close 5 / solve"
    answer = (
        f"{SOLVED} / c close value 5 / c cap value 5 / "
        "s 5 / f 1 2 3 / f 2 3 3 / f 1 3 2 / f 3 4 5 / f 4 3 0 / c undo value 5 / "
        "c close value 5 / c close value 0 / s 0 / f 1 2 0 / f 3 2 0 / f 2 3 0 / f 1 3 0"
    )
    (tmp_path / "commands").write_bytes(text(commands))
    lines = told(tools, tmp_path, TIES + NAMES + ARCS, answer, "--commands", "commands")
    assert lines.splitlines()[5:] == [
        "c close value 5",
        "c cap value 5",
        "value 5",
        "    1 one, A -> B: 3 of 5",
        "  2,3 Main, C <-> B: 3 of 3 to C; closed to B",
        "    4 by, A -> C: 2 of 2",
        "  5,6 out, C <-> D: 5 of 7 to D; 4 to C",
        "c undo value 5",
        "c close value 5",
        "c close value 0",
        "value 0",
        "    1 one, A -> B: 0 of 5",
        "  2,3 Main, C <-> B: 0 of 3",
        "    4 by, A -> C: 0 of 2",
    ]


def test_quantities(tools: Tools, tmp_path: Path) -> None:
    """The amounts are the table's: tenths here."""
    scale = "c capacities are those of the table times 10 / c unit l/s / "
    lines = told(tools, tmp_path, scale + TIES + NAMES + ARCS, f"{SOLVED} / {CUT}").splitlines()
    assert lines[2] == "  2,3 Main, C <-> B: 0.3 of 0.3 to C"
    assert lines[7] == "  2,3 Main, C <-> B: 0.3 to C"


def test_json(tools: Tools, tmp_path: Path) -> None:
    """Each arc is told as without ties, and those of a pipe with what it is."""
    answer = f"{ROUND} / {CUT}"
    problem = NAMES + ARCS
    with_ties, without = (
        [json.loads(line) for line in told(tools, tmp_path, it, answer, "--json").splitlines()]
        for it in (TIES + problem, problem)
    )
    judge = jsonschema.Draft202012Validator(SCHEMA)
    assert [error.message for it in with_ties for error in judge.iter_errors(it)] == []
    solution, cut = ([arc.pop("both_ways", None) for arc in it["arcs"]] for it in with_ties)
    assert with_ties == without

    def number(raw: int) -> dict[str, object]:
        return {"told": str(raw), "raw": raw}

    def pipe(first: int, most: int, flow: int | None) -> dict[str, object]:
        return {
            "arcs": [first, first + 1],
            "capacity": number(most),
            "capacity_back": number(most),
            "flow": None if flow is None else number(flow),
        }

    main, out = pipe(2, 3, -2), pipe(5, 7, 4)
    assert solution == [None, main, main, None, out, out]
    assert cut == [pipe(2, 3, None), None]


@pytest.mark.parametrize("tie", ["c both ways 1 3 / ", "c both ways 2 9 / ", ""])
def test_arcs_that_are_no_pipe(tools: Tools, tmp_path: Path, tie: str) -> None:
    """Arcs that do not lead there and back are told as they are, also in a table."""
    answer = f"{SOLVED} / {CUT}"
    lines = told(tools, tmp_path, tie + NAMES + ARCS, answer).splitlines()
    assert lines[1:4] == [
        "  1 one, A -> B: 3 of 5",
        "  2 Main, C -> B: 0 of 3",
        "  3 Main, B -> C: 3 of 3",
    ]
    rows = list(csv.reader(told(tools, tmp_path, tie + NAMES + ARCS, answer, "--csv").splitlines()))
    assert [row[0] for row in rows[1:7]] == ["1", "2", "3", "4", "5", "6"]
    assert "both ways" not in rows[0]


def test_numbers_that_are_not_known(tools: Tools, tmp_path: Path) -> None:
    """Once only a printed problem tells the arcs, their numbers are not known, nor which are one
    pipe."""
    printed = ARCS.replace("p max 4 6", "p max 4 5").replace(" / a 1 2 5", "")
    answer = f"c close value 2 / {printed} / s 2 / f 3 2 0 / f 2 3 0 / f 1 3 2 / f 3 4 2 / f 4 3 0"
    ran = tools.run(
        "dmf-names", tmp_path, ["problem"], text(answer), {"problem": text(TIES + NAMES + ARCS)}
    )
    assert ran.status == 0
    assert ran.out.decode().splitlines()[-5:-3] == ["  C -> B: 0 of 3", "  B -> C: 0 of 3"]


def drawn(
    tools: Tools, folder: Path, problem: str, answer: str | None, *words: str
) -> dict[str, str]:
    """Return the looks of each arc that dmf-dot draws, by its ends."""
    texts = {"problem": text(problem), "answer": text(answer or "")}
    ran = tools.run("dmf-dot", folder, ["problem", *["answer"] * bool(answer), *words], b"", texts)
    assert (ran.status, ran.err) == (0, b"")
    lines = [line.strip() for line in ran.out.decode().splitlines() if " -> " in line]
    assert len({line.partition(" [")[0] for line in lines}) == len(lines)
    return {ends: looks for ends, _, looks in (line.partition(" [") for line in lines)}


RED = ', color="#c62828", fontcolor="#c62828"]'
GREY = ', color="#8f8f8f", fontcolor="#8f8f8f"'


def test_pictures(tools: Tools, tmp_path: Path) -> None:
    """A pipe is one line, from where it flows, in the colour of the cut if that way is of it."""
    problem = TIES + NAMES + ARCS
    assert drawn(tools, tmp_path, problem, f"{SOLVED} / {CUT}") == {
        "1 -> 2": 'label="one\\n3/5"]',
        "2 -> 3": 'label="Main\\n3/3", penwidth=2.5' + RED,
        "1 -> 3": 'label="by\\n2/2", penwidth=2.5' + RED,
        "3 -> 4": 'label="out\\n5/7"]',
    }
    assert drawn(tools, tmp_path, problem, CUT) == {
        "1 -> 2": 'label="one\\n5"]',
        "2 -> 3": 'label="Main\\n3"' + RED[:-1] + ", dir=both]",
        "1 -> 3": 'label="by\\n2"' + RED,
        "3 -> 4": 'label="out\\n7", dir=both]',
    }
    still = "s 2 / f 1 2 0 / f 3 2 3 / f 2 3 3 / f 1 3 2 / f 3 4 2 / f 4 3 0"
    assert (
        drawn(tools, tmp_path, problem, still)["3 -> 2"] == f'label="Main\\n0/3"{GREY}, dir=none]'
    )
    # A picture of at most so many arcs counts a pipe once.
    assert len(drawn(tools, tmp_path, problem, None, "--most", "4")) == 4


def test_pictures_of_other_capacities(tools: Tools, tmp_path: Path) -> None:
    """Where a pipe carries another amount the other way, or is closed that way, that is told."""
    problem = TIES + NAMES + ARCS.replace("a 3 2 3", "a 3 2 1")
    flows = SOLVED
    assert drawn(tools, tmp_path, problem, flows)["2 -> 3"] == (
        'label="Main\\n3/3\\n1 to B", penwidth=2.5]'
    )
    assert drawn(tools, tmp_path, problem, None)["3 -> 2"] == (
        'label="Main\\n1\\nto B; 3 to C", dir=both]'
    )
    commands = "solve / close 2 / close 5 / close 6"
    answer = f"{SOLVED} / c close value 5 / c close value 0 / c close value 0"
    (tmp_path / "commands").write_bytes(text(commands))
    texts = {"problem": text(TIES + NAMES + ARCS), "answer": text(answer)}
    words = ["problem", "--commands", "commands", "answer"]
    lines = tools.run("dmf-dot", tmp_path, words, b"", texts).out.decode().splitlines()
    looks = {line.strip().partition(" [")[0]: line for line in lines if " -> " in line}
    assert sorted(looks) == ["1 -> 2", "1 -> 3", "2 -> 3", "3 -> 4"]
    assert 'label="Main\\n3/3\\nclosed to B", penwidth=2.5]' in looks["2 -> 3"]
    assert 'label="out\\nclosed", style="dashed"' in looks["3 -> 4"]
    assert "dir=none" in looks["3 -> 4"]


def test_pictures_without_pairs(tools: Tools, tmp_path: Path) -> None:
    """Arcs that no comment ties, or that cannot be one pipe, are drawn as they are."""
    answer = f"{SOLVED} / {CUT}"
    plain = drawn(tools, tmp_path, NAMES + ARCS, answer)
    assert drawn(tools, tmp_path, "c both ways 1 3 / " + NAMES + ARCS, answer) == plain
    assert plain["3 -> 2"] == f'label="Main\\n0/3"{GREY}]'
    assert len(plain) == 6
