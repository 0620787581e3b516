"""What second arcs and new arcs would bring, beside adding each arc and solving, and beside
networkx: of changed networks, tables and decimals."""

from __future__ import annotations

from collections.abc import Sequence
from contextlib import suppress
from decimal import Decimal
from pathlib import Path
from random import Random
from typing import Any

import pytest
from c_library import library_file
from client_shared import dmf, pipes
from dmf.session import library as loaded
from dmf.session.statuses import NO_MEMORY
from packages import load

(networkx,) = map(load, ["networkx"])
COUNT = 8
LARGEST = 2**64 - 1
# A new arc: its tail, its head and its capacity.
NewArc = tuple[Any, Any, Any]


def random_network(random: Random) -> dmf.Network[int]:
    """A network of up to 40 arcs with loops, parallel arcs, capacities of 0, and closed, opened and
    added arcs, solved or not."""
    rows = [
        (random.randrange(COUNT), random.randrange(COUNT), random.choice([0, 1, 2, 3, 5, 9]))
        for _ in range(random.randrange(36))
    ]
    network = dmf.Network(rows, 0, COUNT - 1, nodes=range(COUNT))
    for _ in range(random.randrange(5)):
        opened = list(network.arcs)
        step = random.choice(["close", "open", "cap", "add", "solve", "undo"])
        if step == "add" or not opened:
            network.add(random.randrange(COUNT), random.randrange(COUNT), random.randrange(9))
        elif step == "solve":
            network.solve()
        elif step == "undo":
            with suppress(dmf.NothingToUndo):
                network.undo()
        elif step == "cap":
            network.cap(random.choice(opened), random.randrange(9))
        else:
            arc = random.choice(opened)
            network.close(arc)
            if step == "open":
                network.open(arc)
    if random.randrange(3):
        network.solve()
    return network


def value_with(network: dmf.Network[Any], row: NewArc) -> Any:
    """The greatest value with this arc, by adding it and solving."""
    with network.try_out():
        network.add(*row)
        return network.solve().value


def value_by_networkx(network: dmf.Network[int], row: NewArc) -> int:
    """The greatest value with this arc, by networkx."""
    graph = networkx.DiGraph()
    graph.add_nodes_from(range(COUNT))
    for tail, head, capacity in [
        *((arc.tail, arc.head, arc.capacity) for arc in network.arcs),
        row,
    ]:
        so_far = graph.edges[tail, head]["capacity"] if graph.has_edge(tail, head) else 0
        graph.add_edge(tail, head, capacity=so_far + capacity)
    return int(networkx.maximum_flow_value(graph, 0, COUNT - 1))


def second(arc: dmf.Arc[Any]) -> NewArc:
    """A second arc beside this one."""
    return arc.tail, arc.head, arc.capacity if arc.is_open else 0


def told(network: dmf.Network[Any]) -> object:
    """All that a call must leave as it is."""
    return network.value, list(network.flow().values()), network.problem(), network._kept.place


@pytest.mark.parametrize("seed", range(20))
def test_networks(seed: int) -> None:
    random = Random(f"gains {seed}")
    with random_network(random) as network:
        before = told(network)
        arcs = network._kept.every_arc()
        wanted = [value_with(network, second(arc)) for arc in arcs]
        found = network.gains()
        value = network.vital().value
        assert told(network) == before and found.value == value
        assert list(found) == [(arc, more, more - value) for arc, more in zip(arcs, wanted)]
        ranked = sorted(found, key=lambda row: (-row[2], row[0].number))
        for top in 0, 1, 3, len(wanted), 10_000:
            assert list(network.gains(top)) == ranked[:top]
        rows = [
            (random.randrange(COUNT), random.randrange(COUNT), random.choice([0, 1, 4, 30]))
            for _ in range(12)
        ]
        of_new = network.gains_of(iter(rows))
        assert told(network) == before
        wanted = [value_with(network, row) for row in rows]
        assert list(of_new) == [(row, more, more - value) for row, more in zip(rows, wanted)]
        assert wanted[0] == value_by_networkx(network, rows[0])


def by_number(found: Any) -> list[tuple[int, int, int]]:
    return [(arc.number, more, gain) for arc, more, gain in found]


def test_by_hand() -> None:
    """Both cuts of the pipes carry 5, those at the lake and those at the sea. With 1 on pipe 5
    three arrive: beside pipe 4 or 5 one more does, as much as comes to the mill, or to the town."""
    with pipes() as network:
        assert by_number(network.gains(top=1)) == [(1, 5, 0)]
        assert list(network.gains_of([("lake", "sea", 7), ("sea", "lake", 7)]).gains) == [7, 0]
        network.cap(("town", "sea"), 1)
        assert list(network.gains().gains) == [0, 0, 0, 1, 1]
        assert by_number(network.gains(top=3)) == [(4, 4, 1), (5, 4, 1), (1, 3, 0)]
        network.close(("mill", "sea"))
        assert list(network.gains().values) == [1, 1, 1, 1, 2]
        assert repr(network.gains()) == "<SecondArcs of value 1 on 5 arcs>"
        found = network.gains_of([("town", "sea", 9)])
        assert repr(found) == "<NewArcs of value 1 on 1 new arcs>"
        assert (found.value, found.arcs, list(found.values)) == (1, [("town", "sea", 9)], [5])
        assert list(network.gains_of([])) == []


def test_in_a_notebook() -> None:
    with pipes() as network:
        network.solve()
        html = network.gains_of([("lake", "sea", 7)])._repr_html_()
        assert all(word in html for word in ("capacity", "with", "gain", "12", "lake"))
        assert "gain" in network.gains()._repr_html_()


REFUSED: list[tuple[Sequence[Any], type[Exception], str]] = [
    ([("lake", "sea", 1), ("nowhere", "sea", 1)], dmf.NoSuchNode, "'nowhere'"),
    ([("lake", "nowhere", 1)], dmf.NoSuchNode, "'nowhere'"),
    ([("lake", "sea", -1)], dmf.NotANumber, "-1 in .'lake', 'sea'.: a capacity"),
    ([("lake", "sea", LARGEST + 1)], dmf.NumberTooLarge, "65 bits"),
    ([("lake", "sea", LARGEST - 14)], dmf.CapacitiesPast64Bits, r"\('lake', 'sea'\)$"),
    ([("lake", "sea")], dmf.NotAnArc, r"expected \(tail, head, capacity\)$"),
    ([7], dmf.NotAnArc, "not an arc: 7;"),
]


@pytest.mark.parametrize(("rows", "kind", "said"), REFUSED)
def test_refusals(rows: Sequence[Any], kind: type[Exception], said: str) -> None:
    with pipes() as network:
        network.solve()
        before = told(network)
        with pytest.raises(kind, match=said):
            network.gains_of(rows)
        assert told(network) == before
    with pipes() as network, pytest.raises(dmf.NotANumber, match="a number of arcs"):
        network.gains(-1)


def test_large_capacities() -> None:
    """The library takes four arcs for a new one, and all of them at once: if their capacities are
    too large together, it is asked for fewer, and at last each arc is added."""
    rows = [("a", "b", 2**62), ("b", "c", 2**61), ("a", "c", 2**60)]
    with dmf.Network(rows, "a", "c") as network:
        network.solve()
        assert list(network.gains().gains) == [0, 2**61, 2**60]
        most = LARGEST - 2**62 - 2**61 - 2**60
        assert list(network.gains_of([("a", "c", most), ("a", "b", most)]).gains) == [most, 0]
    with dmf.Network([("a", "b", 2**63)], "a", "b") as network:
        network.solve()
        with pytest.raises(dmf.CapacitiesPast64Bits, match="<Arc 1: 'a' to 'b'>"):
            network.gains()


def test_few_calls_where_room_is_short(by_library: None, monkeypatch: pytest.MonkeyPatch) -> None:
    """Of 40 new arcs there is room for a quarter, for one, or for none at a time. Arcs that do not
    leave the cut need no room."""
    library, asked = loaded.load(library_file()), list[int]()
    tell = library.new_arc_gains

    def counted(address: int, *columns: int) -> int:
        asked.append(columns[1])
        return tell(address, *columns)

    monkeypatch.setattr(library, "new_arc_gains", counted)
    rows = [("lake", f"mill {at}", at) for at in range(40)]
    rows += [(f"mill {at}", "sea", 2**57) for at in range(40)]
    with dmf.Network(rows, "lake", "sea") as network:
        network.solve()
        # Where there is none, a solved copy is asked too.
        for more, most in (2**52, 1), (2**57, 15), (2**60, 20), (2**62, 10):
            new_arcs = [("lake", f"mill {at}", more) for at in range(40)]
            new_arcs += [(head, "lake", more) for _, head, _ in new_arcs]
            wanted = [min(more, 2**57 - at) for at in range(40)] + [0] * 40
            asked.clear()
            assert list(network.gains_of(new_arcs).gains) == wanted
            assert asked[0] == 40 and len(asked) <= most


def test_no_program_is_needed(by_library: None, monkeypatch: pytest.MonkeyPatch) -> None:
    monkeypatch.setenv("DMF", "/nowhere")
    with pipes() as network:
        assert list(network.gains().gains) == [0] * 5
        network.solve()
        assert list(network.gains().gains) == [0] * 5


def test_want_of_memory(by_library: None, monkeypatch: pytest.MonkeyPatch) -> None:
    with pipes() as network:
        network.solve()
        with monkeypatch.context() as patched:
            patched.setattr(loaded.load(library_file()), "new_arc_gains", lambda *_: NO_MEMORY)
            with pytest.raises(dmf.NoMemory, match="^no memory$"):
                network.gains()
        assert list(network.gains().gains) == [0] * 5


def test_tables_and_decimals(tmp_path: Path) -> None:
    """Amounts are those of the table, and what stands for several sources is not shown."""
    table = tmp_path / "pipes.csv"
    table.write_text("from,to,capacity\na,c,1.5\nb,c,2.5\nc,d,3.5\nc,e,0.25\n")
    with dmf.read_table(table, source=["a", "b"], sink=["d", "e"]) as network:
        found = network.gains()
        assert found.value == Decimal("3.75")
        assert [(arc.tail, arc.head, more) for arc, more, _ in found] == [
            ("a", "c", Decimal("3.75")),
            ("b", "c", Decimal("3.75")),
            ("c", "d", Decimal("4")),
            ("c", "e", Decimal("4")),
        ]
        assert list(network.gains_of([("a", "d", "1.25")]).gains) == [Decimal("1.25")]
        assert len(network.vital(top=9)) == 4 and len(network.vital_pairs(top=9)) == 6
