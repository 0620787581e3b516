"""What is left of the greatest value without the two arcs of a pair, beside closing both arcs of
each pair and solving, and beside networkx; and the arcs and nodes whose loss is greatest, beside
all of them, sorted."""

from __future__ import annotations

from decimal import Decimal
from itertools import combinations
from operator import itemgetter
from pathlib import Path
from random import Random
from typing import Any

import pytest
from client_shared import BUILT, PIPE_PAIRS, dmf, pipes, rows_by_number, script
from dmf import losses
from packages import load

(networkx,) = map(load, ["networkx"])
COUNT = 6


def random_network(random: Random) -> dmf.Network[int]:
    """A network of six nodes with loops, parallel arcs, closed and added ones."""
    rows = [
        (random.randrange(COUNT), random.randrange(COUNT), random.choice([0, 1, 2, 3, 5, 9]))
        for _ in range(random.randrange(1, 15))
    ]
    network = dmf.Network(rows, 0, COUNT - 1, nodes=range(COUNT))
    for _ in range(random.randrange(4)):
        opened = list(network.arcs)
        if opened and random.randrange(2):
            network.close(random.choice(opened))
        else:
            network.add(random.randrange(COUNT), random.randrange(COUNT), random.randrange(9))
    if random.randrange(3):
        network.solve()
    return network


def left_by_closing(network: dmf.Network[Any], pair: tuple[dmf.Arc[Any], ...]) -> Any:
    """The greatest value without these arcs, by closing them and solving."""
    with network.try_out():
        for arc in pair:
            if arc.is_open:
                network.close(arc)
        return network.solve().value


def left_by_networkx(network: dmf.Network[int], pair: tuple[dmf.Arc[int], ...]) -> int:
    """The greatest value without these arcs, by networkx."""
    graph = networkx.DiGraph()
    graph.add_nodes_from(range(COUNT))
    for arc in network.arcs:
        if arc not in pair:
            ends = arc.tail, arc.head
            so_far = graph.edges[ends]["capacity"] if graph.has_edge(*ends) else 0
            graph.add_edge(*ends, capacity=so_far + arc.capacity)
    return int(networkx.maximum_flow_value(graph, 0, COUNT - 1))


@pytest.mark.parametrize("seed", range(40))
def test_networks(seed: int) -> None:
    random = Random(f"vital pairs {seed}")
    with random_network(random) as network:
        before = (network.value, list(network.flow().values()), network.problem())
        arcs = network._kept.every_arc()
        value = network.vital().value
        wanted = sorted(
            (left_by_closing(network, pair), pair[0].number, pair[1].number)
            for pair in combinations(arcs, 2)
        )
        for top in 0, 1, 3, len(wanted), 10_000:
            found = network.vital_pairs(top)
            assert (network.value, list(network.flow().values()), network.problem()) == before
            assert found.value == value and len(found) == len(found.pairs)
            assert [
                (left, first.number, second.number) for (first, second), left, _ in found
            ] == wanted[:top]
            assert list(found.losses) == [value - left for left, *_ in wanted[:top]]
        for pair, left, _ in network.vital_pairs(top=5):
            assert left == left_by_networkx(network, pair)


def test_by_hand() -> None:
    for program in None, BUILT:
        with pipes(program=program) as network:
            for _ in range(2):
                assert rows_by_number(network.vital_pairs()) == PIPE_PAIRS
                assert rows_by_number(network.vital_pairs(top=4)) == PIPE_PAIRS[:4]
                network.solve()
            ((first, second), left, loss) = next(iter(network.vital_pairs(top=1)))
            assert (first, second, left, loss) == (network.arc(first), network.arc(second), 0, 5)


def test_both_together_cost_more_than_each() -> None:
    """Two parallel arcs stand in for each other."""
    rows = [("a", "b", 4), ("a", "b", 4), ("b", "c", 4)]
    with dmf.Network(rows, "a", "c") as network:
        network.solve()
        assert list(network.vital().losses) == [0, 0, 4]
        assert rows_by_number(network.vital_pairs()) == [(1, 2, 4), (1, 3, 4), (2, 3, 4)]


def test_decimals_and_tables(tmp_path: Path) -> None:
    """Only pairs of the table's arcs are told, in its numbers, though those that stand for the
    limits and the several sources cost more."""
    path = tmp_path / "pipes.csv"
    path.write_text("from,to,capacity,name\nA,M,4.5,one\nB,M,3,two\nM,Z,9,out\nB,Z,1.5,by\n")
    for program in None, BUILT:
        with dmf.read_table(
            path, source=["A", "B"], sink="Z", limits={"M": 6}, program=program
        ) as table:
            for _ in range(2):
                found = table.vital_pairs()
                left = {pair: left_by_closing(table, pair) for pair in combinations(table.arcs, 2)}
                # Combinations come by their numbers, and sorting keeps the order of equal ones.
                wanted = sorted(left, key=left.__getitem__)
                assert found.value == Decimal("7.5") and len(found) == 6
                assert [*found.pairs] == wanted
                assert found.values == [left[pair] for pair in wanted]
                assert [*table.vital_pairs(top=1).pairs] == wanted[:1]
                assert {arc.key for pair in found.pairs for arc in pair} == {
                    *("one", "two", "out", "by")
                }
                table.solve()


def test_ranked_in_tables(tmp_path: Path) -> None:
    """What stands for the limit of a place, and for the several sources, costs more than any pipe,
    and is not told."""
    path = tmp_path / "pipes.csv"
    path.write_text("from,to,capacity\nA,M,4\nA,M,2\nB,M,1\nB,M,3\nM,N,5\nM,Y,2\nN,Z,3\nY,Z,2\n")
    for program in None, BUILT:
        with dmf.read_table(
            path, source=["A", "B"], sink="Z", limits={"M": 4, "N": 3}, program=program
        ) as table:
            table.solve()
            arcs = sorted(table.vital(), key=itemgetter(1))
            nodes = sorted(table.vital_nodes(), key=itemgetter(1))
            assert len(arcs) == 8 and [row[0] for row in nodes] == ["M", "N", "Y", "A", "B"]
            assert max(row[2] for row in arcs) < nodes[0][2] == table.value
            for top in range(10):
                assert list(table.vital(top)) == arcs[:top]
                assert list(table.vital_nodes(top)) == nodes[:top]


@pytest.mark.parametrize("seed", range(10))
def test_ranked_and_sorted(seed: int, monkeypatch: pytest.MonkeyPatch) -> None:
    """The arcs and nodes that are ranked are those of all values, sorted."""
    random = Random(f"ranked {seed}")
    with random_network(random) as network:
        for top in 0, 1, 2, 5, 100:
            found = list(network.vital(top)), list(network.vital_nodes(top))
            with monkeypatch.context() as patched:
                patched.setattr(losses, "MOST_RANKED", -1)
                assert (list(network.vital(top)), list(network.vital_nodes(top))) == found


@pytest.mark.parametrize("top", [-1, "three", 1.5])
def test_wrong_counts(top: Any) -> None:
    with pipes() as network:
        with pytest.raises(dmf.NotANumber, match="in 'vital_pairs': a number of pairs is a whole"):
            network.vital_pairs(top)


ANSWERS = [
    *("", "v 1 2 2", "v 1 2 2\nv 1 3 2\nv 2 3 2", "v 1 3 2\nv 1 2 2", "v 1 2 3\nv 1 3 2"),
    *("v 1 2 2\nv 1 2 2", "v 1 2 2\nv 1 6 2", "v 0 2 2\nv 1 3 2", "v 1 2 2\nv 3 1 2"),
    *(
        "v 1 2 2\nv 1 2 3",
        "v 1 2 2\nv 1 3 6",
        "v 1 2\nv 1 3",
        "v 1 2 x\nv 1 3 2",
        "1 2 2\n1 3 2",
        "v 1 2 2\nv 2 2 2",
    ),
]


@pytest.mark.parametrize("answer", ANSWERS)
def test_answers_that_are_not_understood(answer: str) -> None:
    """An answer has the value, and as many pairs as are asked for, the worst first."""
    answers = f'printf "c value 5\n{answer}\n"'
    with script(f'test "$1" = vital || exec "{BUILT}" "$@"\n{answers}') as it:
        with pipes(program=it) as network:
            said = "^dmf's answer to `vital --pairs --worst 2` was not understood$"
            with pytest.raises(dmf.SessionEnded, match=said):
                network.vital_pairs(top=2)


@pytest.mark.parametrize("answer", ["c value 5", "s 5\nv 1 2", "c value 5 6\nv 1 2", "c value x"])
def test_answers_about_arcs(answer: str) -> None:
    with script(f"printf '{answer}\n'") as it:
        said = "^dmf's answer to `vital --worst 1` was not understood$"
        with pytest.raises(dmf.SessionEnded, match=said):
            dmf.vital([("a", "b", 1)], "a", "b", top=1, program=it)


def test_ended() -> None:
    with pipes() as network:
        network.solve()
    with pytest.raises(dmf.SessionEnded, match="^the session was ended$"):
        network.vital_pairs()


def test_shown() -> None:
    with pipes() as network:
        network.solve()
        found = network.vital_pairs(top=2)
        assert repr(found) == "<VitalPairs of value 5 on 2 pairs>"
        table = found._repr_html_()
        assert all(text in table for text in ("first arc", "second arc", "lake", "without", "loss"))
