"""Tests `worst pairs` of tools/dmf-plan, by the library and by the program, beside values that are
found by trying all sets of places, by networkx, by closing both pipes and solving, or by hand."""

from __future__ import annotations

import json
import re
from collections.abc import Callable
from itertools import combinations, product
from pathlib import Path
from random import Random
from typing import Any

import pytest
from desk_shared import PIPES, desk_of, greatest, run, water
from dmf.desk import worth
from dmf.desk.live_network import LiveNetwork
from dmf.desk.plan.grammar import completed
from dmf.desk.steps import DeskFault
from dmf.desk.workspace import Desk
from dmf.desk.worth import PairLoss, left_without_all, worst_pairs
from dmf.errors import NumberTooLarge
from dmf.session.base import Ranked
from dmf.tables.loader import read_subject
from dmf.text.table_comments import LIMIT
from packages import load
from project_shared import words

(networkx,) = map(load, ["networkx"])
ROW = re.compile("^ +([0-9.]+) +([0-9.]+)  #([0-9]+) (.*) and #([0-9]+) (.*)$", re.MULTILINE)
ENDS = [
    "--source A --sink F",
    "--source A=4 --sink F",
    "--source A --source B=2 --sink F=5 --sink E",
]
LIMITS = ["", "D,2\nA,6\n", "E,1\nF,4\nB,3\n"]


def left_of_pairs() -> dict[tuple[int, int], int]:
    """What is left without each two pipes of the story, by their numbers."""
    numbered = [*enumerate(water(), 1)]
    return {
        (one[0], other[0]): greatest([it for _, it in numbered if it not in (one[1], other[1])])
        for one, other in combinations(numbered, 2)
    }


def test_the_story() -> None:
    names, left = [it.name for it in water()], left_of_pairs()
    costly = [pair for pair in left if left[pair] < 165]
    wanted = [
        (left[pair], 165 - left[pair], *(it for at in pair for it in (at, names[at - 1])))
        for pair in sorted(costly, key=lambda pair: (left[pair], pair))
    ]
    assert len(left) == len(wanted) == 91 and wanted[0][0] == 0
    typed = "worst pairs\nworst pairs 3\nworst pairs 99\n"
    ran = run("dmf-plan", PIPES, typed=f"solve\n{typed}steps\n")
    told = [
        (int(it[0]), int(it[1]), int(it[2]), it[3], int(it[4]), it[5])
        for it in ROW.findall(ran.stdout)
    ]
    assert told == [*wanted[:10], *wanted[:3], *wanted], ran.stderr
    # Nothing has changed.
    assert ran.stdout.count("solve: value 165") == 1


def test_json() -> None:
    """A row has both arcs. The others are not counted."""
    ran = run("dmf-plan", PIPES, "--json", typed="solve\nworst pairs 1\n")
    (told,) = (it for it in map(json.loads, ran.stdout.splitlines()) if it["event"] == "worth")
    (row,) = told["losses"]
    assert [it["name"] for it in row.pop("arcs")] == ["Upper main", "Lower main"]
    assert row == {"without": {"told": "0", "raw": 0}, "loss": {"told": "165", "raw": 165}}
    assert (told["more"], told["together"], told["value"]["raw"]) == (None, None, 165)


@pytest.mark.parametrize(
    ("line", "why"),
    [
        ("worst pairs 1.5", "'1.5' is not a number of pairs"),
        ("worst pairs 0", "give a number of pairs of at least 1"),
        ("worst pairs 1 2", "usage: worst [places | pairs] [NUMBER]"),
        ("undo\nworst pairs", "the flow is not greatest, so nothing can be compared with it"),
    ],
)
def test_refused(line: str, why: str) -> None:
    ran = run("dmf-plan", PIPES, typed=f"solve\n{line}\n")
    assert (ran.returncode, why in ran.stderr) == (1, True), ran.stderr


def table_of(random: Random, is_both: bool) -> str:
    """A table with loops, parallel arcs and arcs of capacity 0, some of which lead both ways."""
    rows = ["from,to,capacity,name,direction"]
    for number in range(random.randrange(3, 8)):
        tail, head = (random.choice("ABCDEF") for _ in range(2))
        way = "<->" if is_both and tail != head and random.randrange(3) else "->"
        rows.append(f"{tail},{head},{random.randrange(6)}.5,p{number},{way}")
    return "\n".join([*rows, "A,B,3,in,->", "A,C,2,by,->", "D,F,3,out,->", "E,F,4,last,->", ""])


def drawn_desk(folder: Path, seed: int) -> Desk:
    """A desk of a table with several sources and sinks that have a limit or none, and places with a
    limit, after changes; every other one has pipes that lead both ways."""
    random, is_both = Random(f"pairs {seed}"), seed % 2 > 0
    (folder / "net.csv").write_text(table_of(random, is_both))
    given = random.choice(ENDS).split()
    if limits := random.choice(LIMITS):
        (folder / "limits.csv").write_text(f"place,limit\n{limits}")
        given += ["--node-limits", "limits.csv"]
    desk = Desk(read_subject(words(folder, "net.csv", *given)), with_solve=True)
    network = desk.network
    for change in random.sample(range(4), random.randrange(3)):
        if change == 0:
            desk.close(network.the_arc("by"))
        elif change == 1:
            # It has another number when it is open again, and so has its way back.
            number = network.the_arc("p0")
            desk.close(number)
            desk.open(number)
        elif change == 2:
            desk.add(network.names.place("B"), network.names.place("D"), 7, "new")
        elif is_both and len(arcs := network.pipes.arcs(network.the_arc("p1"))) > 1:
            # One way of a pipe alone.
            desk.cap_each({arcs[1]: 0}, "one way")
    desk.solve()
    return desk


def left_by_networkx(desk: Desk, closed: tuple[int, ...]) -> int:
    """The greatest value without these arcs, in the session's numbers."""
    network, graph = desk.network, networkx.DiGraph()
    graph.add_nodes_from((network.source, network.sink))
    for number, line in network.opened():
        if number not in closed:
            ends = line.tail, line.head
            so_far = graph.edges[ends]["capacity"] if graph.has_edge(*ends) else 0
            graph.add_edge(*ends, capacity=so_far + network.whole(number))
    return int(networkx.maximum_flow_value(graph, network.source, network.sink))


def wanted_pairs(desk: Desk) -> list[PairLoss]:
    """The pairs of open pipes that cost something, by networkx without all their arcs. Equal ones
    stand in the order of the first two arcs of them without which no more is left."""
    pipes, quantity = desk.network.pipes, desk.network.measure.quantity
    value, found = left_by_networkx(desk, ()), []
    for pair in combinations(sorted(desk.network.opened_pipes()), 2):
        arcs = [*map(pipes.arcs, pair)]
        left = left_by_networkx(desk, (*arcs[0], *arcs[1]))
        by_arcs = {tuple(sorted(it)): left_by_networkx(desk, it) for it in product(*arcs)}
        assert min(by_arcs.values()) == left
        if left < value:
            first = min(it for it in by_arcs if by_arcs[it] == left)
            found.append((left, first, PairLoss(pair, quantity(left), quantity(value - left))))
    return [it for *_, it in sorted(found)]


@pytest.mark.parametrize("seed", range(16))
def test_beside_networkx(seed: int, tmp_path: Path, monkeypatch: pytest.MonkeyPatch) -> None:
    """The same from lists that are as long as can be, and too short at first."""
    desk = drawn_desk(tmp_path, seed)
    wanted = wanted_pairs(desk)
    state = desk.value, len(desk.steps)
    for at_first in 1_000, 0:
        monkeypatch.setattr(worth, "AT_FIRST", at_first)
        desk.state.answers.pairs.clear()
        for most in 1, 2, 5, 0, 1_000:
            assert worst_pairs(desk, most) == wanted[:most]
    assert (desk.value, len(desk.steps)) == state
    for it in wanted[:5]:
        assert left_without_all(desk, it.numbers) == it.left
    desk.end()


def test_what_is_drawn(tmp_path: Path) -> None:
    """The tables above have what the pairs have to get right."""
    desks = [drawn_desk(tmp_path, seed) for seed in range(16)]
    kinds: list[Callable[[LiveNetwork], bool]] = [
        lambda it: len(it.sources) > 1,
        lambda it: any(kind == LIMIT for at in it.roles().values() for _, kind in at),
        lambda it: any(line.is_closed and not line.is_replaced for line in it.lines),
        lambda it: any(line.is_replaced for line in it.lines),
        lambda it: it.pipes.are_two_way,
    ]
    for is_so in kinds:
        assert any(is_so(it.network) for it in desks)
    assert any(len({row.left for row in rows}) < len(rows) for rows in map(wanted_pairs, desks))
    for it in desks:
        it.end()


def test_the_way_back_is_what_costs(tmp_path: Path) -> None:
    """A pipe that leads both ways is one thing: what flows back over it counts, and its two ways
    are no pair."""
    text = "from,to,capacity,name,direction\nB,A,5,Main,<->\nB,C,5,out,<->\nA,C,1,by,->\n"
    (tmp_path / "both.csv").write_text(text)
    ran = run("dmf-plan", f"{tmp_path}/both.csv", "A", "C", typed="solve\nworst pairs\n")
    assert ran.stdout.splitlines()[1:] == [
        "  without  loss",
        "        0     6  #1 Main and #5 by",
        "        0     6  #3 out and #5 by",
        "        1     5  #1 Main and #3 out",
    ], ran.stderr


def test_nothing_is_lost(tmp_path: Path) -> None:
    (tmp_path / "no.csv").write_text("from,to,capacity\nA,B,0\nB,C,4\n")
    ran = run("dmf-plan", f"{tmp_path}/no.csv", typed="solve\nworst pairs\n")
    assert ran.stdout.splitlines()[1:] == ["  no two arcs together cost anything to lose"]


def test_completed() -> None:
    desk = desk_of(b"p max 2 1\nn 1 s\nn 2 t\na 1 2 4\n")
    assert completed(desk, "worst p").texts == ["pairs ", "places "]
    assert completed(desk, "worst pairs ").texts == []


def test_few_pairs() -> None:
    """There may be fewer than are asked for; a closed arc is lost already."""
    desk = desk_of(b"p max 3 3\nn 1 s\nn 3 t\na 1 2 4\na 2 3 4\na 1 3 1\n")
    assert [it.numbers for it in worst_pairs(desk, 9)] == [(1, 3), (2, 3), (1, 2)]
    desk.close(3)
    assert worst_pairs(desk, 9) == [PairLoss((1, 2), 0, 4)]
    desk.close(1)
    assert worst_pairs(desk, 9) == []
    with pytest.raises(DeskFault, match="the flow is not greatest"):
        worst_pairs(desk_of(b"p max 2 1\nn 1 s\nn 2 t\na 1 2 4\n", with_solve=False), 3)


def test_what_is_asked(monkeypatch: pytest.MonkeyPatch) -> None:
    """The session is asked once in each state, and for pairs of arcs of open pipes alone."""
    text = b"".join(b"a 1 %d 3\na %d 2 3\n" % (node, node) for node in range(3, 9))
    desk = desk_of(b"p max 8 12\nn 1 s\nn 2 t\n" + text)
    network, asked = desk.network.network, list[Any]()
    found = network._worst_without

    def noted(ranked: Ranked, most: int, among: bytes) -> Any:
        asked.append((ranked, most, among))
        return found(ranked, most, among)

    monkeypatch.setattr(network, "_worst_without", noted)
    monkeypatch.setattr(worth, "AT_FIRST", 0)
    wanted = wanted_pairs(desk)
    for _ in range(2):
        assert worst_pairs(desk, 2) == wanted[:2]
    assert asked == [(Ranked.PAIRS, 2, b"\1" * 12)]
    desk.close(1)
    # The pairs with the closed arc cost as much as one pipe alone, less than two ways' loss.
    assert worst_pairs(desk, 1) == wanted_pairs(desk)[:1]
    assert asked[1:] == [(Ranked.PAIRS, 1, b"\0" + b"\1" * 11)]


def test_more_than_the_program_ranks(tmp_path: Path, way: None) -> None:
    """If the program lists the pairs, more of them than it ranks are refused, and the message says
    what lists more."""
    del way
    desk = desk_of(b"p max 3 3\nn 1 s\nn 3 t\na 1 2 4\na 2 3 4\na 1 3 1\n")
    if not desk.network.network._asked_worst_without(Ranked.PAIRS, 1, b""):
        with pytest.raises(NumberTooLarge, match="20000 pairs: the program ranks 10,000 at most"):
            worst_pairs(desk, 20_000)
    else:
        assert len(worst_pairs(desk, 20_000)) == 3
