"""GraphML files and edge lists, as networkx writes them: its value is that of what is read."""

from __future__ import annotations

import random
from pathlib import Path
from typing import Any

import pytest
from client_shared import dmf
from packages import load

networkx: Any = load("networkx")
ROADS = [("Lake", "Mill", 50), ("Lake", "Hill", 30), ("Mill", "Town", 40), ("Hill", "Town", 25)]


def graph_of(kind: Any) -> Any:
    graph = kind()
    for tail, head, most in ROADS:
        graph.add_edge(tail, head, capacity=most, length=900)
    return graph


def test_graphml(tmp_path: Path) -> None:
    """Each edge is a row; parallel ones stay, and nodes may say what they give and take."""
    graph = graph_of(networkx.MultiDiGraph)
    graph.add_edge("Lake", "Mill", capacity=2.5)
    graph.nodes["Lake"]["supply"] = 45
    graph.nodes["Town"]["demand"] = 90
    networkx.write_graphml(graph, tmp_path / "t.graphml")
    with dmf.read_table(tmp_path / "t.graphml") as network:
        assert network.notes[0] == "from 'source', to 'target', capacity 'capacity'; kept: 'length'"
        assert len([arc for arc in network.arcs if arc.tail == "Lake"]) == 3
        assert network.solve().value == 45


def test_undirected(tmp_path: Path) -> None:
    """Each edge of an undirected graph leads both ways."""
    graph = graph_of(networkx.Graph)
    networkx.write_graphml(graph, tmp_path / "t.graphml")
    value = networkx.maximum_flow_value(graph, "Town", "Lake")
    with dmf.read_table(tmp_path / "t.graphml", source="Town", sink="Lake") as network:
        assert network.solve().value == value == 65
        assert "the graph is undirected: each edge leads both ways" in network.notes


def test_edge_lists(tmp_path: Path) -> None:
    path = tmp_path / "t.edgelist"
    networkx.write_edgelist(graph_of(networkx.DiGraph), path)
    with dmf.read_table(path) as network:
        assert network.notes[0] == "from 'source', to 'target', capacity 'capacity'; kept: 'length'"
        assert network.solve().value == 65
    networkx.write_edgelist(graph_of(networkx.DiGraph), path, data=["capacity"])
    with dmf.read_table(path) as network:
        assert network.notes[0] == (
            "there are no titles: from column 1, to column 2, capacity column 3"
        )
        assert "rows lead from the first place of an edge to the second" in network.notes
        assert network.solve().value == 65
    networkx.write_edgelist(graph_of(networkx.DiGraph), path, data=["capacity", "length"])
    with pytest.raises(dmf.TableFault, match="which column is the capacity"):
        dmf.read_table(path)


@pytest.mark.parametrize(
    ("name", "text", "said"),
    [
        ("t.edgelist", "# of today\nA B 3\nA\n", "t.edgelist, line 3: an edge has two places"),
        ("t.edgelist", "A B {'capacity': 3\n", "t.edgelist, line 1: the edge cannot be read"),
        ("t.edgelist", "# none\n", "t.edgelist: the file has no edge"),
        ("t.graphml", "<graphml><graph>", "t.graphml, line 1: the GraphML file cannot be read"),
        ("t.graphml", "<graphml/>", "t.graphml: the GraphML file cannot be read"),
        ("t.edgelist", "A B 5\nB C x\n", "t.edgelist, line 2, column 3: 'x' is not a number"),
    ],
)
def test_faults(tmp_path: Path, name: str, text: str, said: str) -> None:
    (tmp_path / name).write_text(text)
    with pytest.raises(dmf.TableFault, match=said):
        dmf.read_table(tmp_path / name)


@pytest.mark.parametrize("seed", range(10))
def test_generated(tmp_path: Path, seed: int) -> None:
    rng = random.Random(seed)
    graph = networkx.gnp_random_graph(8, 0.35, seed=seed, directed=True)
    for ends in graph.edges:
        graph.edges[ends]["capacity"] = rng.randint(1, 30)
    graph.add_edge("s", 0, capacity=60)
    graph.add_edge(7, "t", capacity=60)
    value = networkx.maximum_flow_value(graph, "s", "t")
    networkx.write_graphml(graph, tmp_path / "t.graphml")
    networkx.write_edgelist(graph, tmp_path / "t.edgelist")
    for name in "t.graphml", "t.edgelist":
        with dmf.read_table(tmp_path / name, source="s", sink="t") as network:
            assert network.solve().value == value


def test_an_attribute_without_a_type(tmp_path: Path) -> None:
    """What networkx warns of is a note, and no warning of Python."""
    path = tmp_path / "t.graphml"
    networkx.write_graphml(graph_of(networkx.DiGraph), path)
    text = path.read_text()
    assert text.count(' attr.type="long"') == 2
    path.write_text(text.replace(' attr.type="long"', ""))
    with dmf.read_table(path) as network:
        assert "networkx: No key type for id d0. Using string" in network.notes
        assert network.solve().value == 65
