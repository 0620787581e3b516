"""What it costs to send more, beside second computations: each value is a greatest one, each sum is
that of its purchases, and no way is cheaper than the least-cost one."""

from __future__ import annotations

import random
from decimal import Decimal
from pathlib import Path
from typing import Any

import dmf
import pytest
from desk_shared import run
from dmf.desk.analysis import Bought, cheapest, priced, prices
from dmf.desk.steps import DeskFault
from dmf.desk.workspace import Desk
from dmf.tables.loader import read_subject
from project_shared import words

try:
    import networkx
except ImportError:
    networkx = None
Row = tuple[str, str, int, str]


def desk_of(folder: Path, rows: list[Row], title: str = "cost") -> Desk:
    """The desk of a table with prices."""
    lines = [
        f"from,to,capacity,name,{title}",
        *(
            f"{tail},{head},{most},p{at},{price}"
            for at, (tail, head, most, price) in enumerate(rows, 1)
        ),
    ]
    (folder / "cost.csv").write_text("\n".join(lines) + "\n")
    return Desk(read_subject(words(folder, "cost.csv", "S", "T")), with_solve=True)


def drawn(chance: random.Random) -> list[Row]:
    """A network from S over two layers to T, of which some arcs have a price."""
    firsts, seconds = ([f"{layer}{at}" for at in range(chance.randint(1, 3))] for layer in "AB")
    pairs = [
        *(("S", it) for it in firsts),
        *((one, two) for one in firsts for two in seconds),
        *((it, "T") for it in seconds),
        ("S", "T"),
    ]
    return [
        (tail, head, chance.randint(0, 9), chance.choice(["", "1", "2", "3", "5", "0.5"]))
        for tail, head in pairs
    ]


def greatest(rows: list[Row], wider: dict[int, Decimal]) -> Decimal:
    """The greatest value of a network with some arcs wider, by networkx. Numbers are halves
    there."""
    graph: Any = networkx.DiGraph()
    graph.add_nodes_from("ST")
    for at, (tail, head, most, _) in enumerate(rows, 1):
        before = graph.get_edge_data(tail, head, {"capacity": 0})["capacity"]
        graph.add_edge(tail, head, capacity=before + most + wider.get(at, 0))
    return Decimal(networkx.maximum_flow_value(graph, "S", "T"))


def least_cost(rows: list[Row], value: Decimal) -> Decimal | None:
    """The least that a value costs, by networkx: what fits already costs nothing, and each unit
    more its price. Costs are doubled there, which makes them whole."""
    graph: Any = networkx.MultiDiGraph()
    graph.add_node("S", demand=-int(value))
    graph.add_node("T", demand=int(value))
    for tail, head, most, price in rows:
        graph.add_edge(tail, head, capacity=most, weight=0)
        if price:
            graph.add_edge(tail, head, weight=int(Decimal(price) * 2))
    plain: Any = networkx.DiGraph()
    # networkx's simplex takes graphs with several arcs between two nodes; a node in the midst tells
    # them apart for others.
    for at, (tail, head, told) in enumerate(graph.edges(data=True)):
        plain.add_edge(tail, ("mid", at), **told)
        plain.add_edge(("mid", at), head, weight=0)
    for node in "ST":
        plain.add_node(node, demand=graph.nodes[node]["demand"])
    try:
        return Decimal(networkx.network_simplex(plain)[0]) / 2
    except networkx.NetworkXUnfeasible:
        return None


@pytest.mark.parametrize("seed", range(60))
def test_beside_networkx(tmp_path: Path, seed: int) -> None:
    rows = drawn(random.Random(seed))
    desk = desk_of(tmp_path, rows)
    before = [*desk.network.lines], desk.value, desk.at
    way = cheapest(desk, prices(desk), to=int(desk.value) + 7)
    assert ([*desk.network.lines], desk.value, desk.at) == before and desk.value == greatest(
        rows, {}
    )
    wider, total = dict[int, Decimal](), Decimal(0)
    for it in way.bought:
        for number, by in it.wider:
            wider[number] = wider.get(number, Decimal(0)) + by
        assert it.cost == sum(by * Decimal(rows[number - 1][3]) for number, by in it.wider)
        total += it.cost
        assert (it.total, it.value) == (total, greatest(rows, wider))
        least = least_cost(rows, Decimal(it.value))
        assert least is not None and least <= it.total
    assert_end(rows, way.bought, way.end, int(desk.value) + 7)
    desk.end()


def assert_end(rows: list[Row], bought: list[Bought], end: str, wanted: int) -> None:
    """The value is reached, or no money reaches it: then the limit has arcs that cannot be
    bought."""
    reached = bought[-1].value if bought else greatest(rows, {})
    assert (reached == wanted) == (not end)
    if end:
        without_bound = {at: Decimal(1000) for at, row in enumerate(rows, 1) if row[3]}
        assert greatest(rows, without_bound) == reached


def test_one_limit_after_the_other(tmp_path: Path) -> None:
    """Where limits stand one behind the other, the arcs of all are widened together, and on a chain
    that is the least cost."""
    rows = [("S", "A", 4, "2"), ("A", "B", 4, "3"), ("B", "T", 4, "1")]
    desk = desk_of(tmp_path, rows)
    assert priced(desk, prices(desk)) == {1: Decimal(2)}
    (it,) = cheapest(desk, prices(desk), to=10).bought
    assert (
        dict(it.wider) == {1: 6, 2: 6, 3: 6}
        and sums([it]) == [(36, 10)]
        and least_cost(rows, Decimal(10)) == 36
    )
    desk.end()


def sums(bought: list[Bought]) -> list[tuple[int, int]]:
    return [(int(it.total), int(it.value)) for it in bought]


def test_seconds(tmp_path: Path) -> None:
    """The second arc is bought that brings most for its money, and then a third; as worked out by
    hand."""
    desk = desk_of(
        tmp_path, [("S", "A", 10, "5"), ("S", "B", 6, "2"), ("A", "T", 30, ""), ("B", "T", 30, "")]
    )
    way = cheapest(desk, prices(desk, is_second=True), to=30)
    # 6 more for 2, as long as B takes them, and then 10 more for 5.
    assert sums(way.bought) == [(2, 22), (4, 28), (6, 34)] and not way.end
    desk.close(2)
    way = cheapest(desk, prices(desk, is_second=True), to=40)
    # Then p1 three times is a limit, and p3 behind it.
    assert (
        sums(way.bought) == [(5, 20), (10, 30)]
        and way.end == "no second one beside any arc of the limit alone brings more"
    )
    desk.end()


def test_refused(tmp_path: Path) -> None:
    """A column that is not there, or several that may be meant, or a cell that is no price, is
    named."""
    desk = desk_of(tmp_path, [("S", "T", 3, "many")], "cost (EUR)")
    with pytest.raises(
        DeskFault, match="p1, S -> T: 'many' in the column 'cost .EUR.' is not a number"
    ):
        prices(desk)
    with pytest.raises(DeskFault, match="no column is called 'length'; .* are: 'cost .EUR.'"):
        prices(desk, "length")
    desk.end()
    desk = desk_of(tmp_path, [("S", "T", 3, "4")], "remark")
    with pytest.raises(DeskFault, match="no column can be the cost; .* are: 'remark'"):
        prices(desk)
    assert prices(desk, "Remark").of == {1: Decimal(4)}
    with pytest.raises(DeskFault, match="2 is less than the present value, 3"):
        cheapest(desk, prices(desk, "remark"), to=2)
    desk.end()


def test_told(tmp_path: Path) -> None:
    """What dmf-plan and Python say."""
    desk_of(tmp_path, [("S", "A", 4, "2"), ("A", "T", 5, "3")]).end()
    ran = run(
        "dmf-plan",
        f"{tmp_path}/cost.csv",
        "S",
        "T",
        typed="cost\nsolve\ncost\ncost cost to 6\nundo\n",
    )
    assert ran.stdout.splitlines()[1:] == [
        "what one more costs at each arc of the limit, by the column 'cost':",
        "  #1 p1, S -> A: 2",
        "a cheap way, found greedily, so a cheaper one may exist; money and value, 4 at first:",
        "  2: 5 (p1 1 wider: 2)",
        "  17: 8 (p1 3 wider and p2 3 wider: 15)",
        "what one more costs at each arc of the limit, by the column 'cost':",
        "  #1 p1, S -> A: 2",
        "a cheap way, found greedily, so a cheaper one may exist; money and value, 4 at first:",
        "  2: 5 (p1 1 wider: 2)",
        "  7: 6 (p1 1 wider and p2 1 wider: 5)",
        "value 0, 4 less; more can be sent: solve",
    ]
    assert "line 1: the flow is not greatest" in ran.stderr
    with dmf.new_project(tmp_path / "cost.csv", source="S", sink="T") as project:
        (first, second) = project.cheapest()
        assert (first.wider, int(first.cost), int(first.total), first.value) == (
            {"p1, S -> A": 1},
            2,
            2,
            5,
        ) and int(second.total) == 17
        assert project.value == 4 and project.steps == []
        with pytest.raises(dmf.ProjectFault, match="no column is called 'price'"):
            project.cheapest(column="price")
