"""What a network shows of itself: files, pictures, dictionaries, both sides of a cut; and nodes
that are added."""

from __future__ import annotations

import os
import shutil
import subprocess
import sys
from pathlib import Path
from typing import Any

import pytest
from client_shared import CLIENT, PIPES, dmf, pipes, process_of
from packages import load

matplotlib = load("matplotlib")
networkx = load("networkx")


def test_a_file(tmp_path: Path) -> None:
    with pipes() as network:
        network.close(("lake", "town"))
        network.write(tmp_path / "net.max")
        assert (tmp_path / "net.max").read_text() == network.problem()
        with dmf.read(tmp_path / "net.max") as again:
            assert again.problem() == network.problem()
        network.write(str(tmp_path / "net.max").encode(), names=False)
        assert (tmp_path / "net.max").read_text() == network.problem(names=False)
        with pytest.raises(FileNotFoundError):
            network.write(tmp_path / "nowhere" / "net.max")
    with dmf.Network([("a\n", "b", 3)], "a\n", "b") as network:
        with pytest.raises(dmf.NameNotWritable):
            network.write(tmp_path / "net.max")
        network.write(tmp_path / "net.max", escapes=True)
        assert "c node 1 a\\x0a\n" in (tmp_path / "net.max").read_text()


def test_a_dictionary() -> None:
    with dmf.Network(
        [*PIPES, ("lake", "sea", 1, "canal"), ("lake", "sea", 2)], "lake", "sea", nodes=["pond"]
    ) as network:
        network.solve()
        wanted = {
            "pond": {},
            "lake": {"mill": 3, "town": 2, "sea": 3},
            "mill": {"town": 1, "sea": 2},
            "town": {"sea": 3},
            "sea": {},
        }
        assert network.flow().flow_dict() == wanted
        network.close("canal")
        network.add("sea", "pond", 4)
        wanted = {**wanted, "lake": {"mill": 3, "town": 2, "sea": 2}, "sea": {"pond": 0}}
        assert network.flow().flow_dict() == wanted


def test_the_dictionary_of_networkx() -> None:
    graph = networkx.DiGraph()
    graph.add_weighted_edges_from(PIPES, weight="capacity")
    with dmf.from_networkx(graph, "lake", "sea") as network:
        assert network.solve().flow_dict() == networkx.maximum_flow(graph, "lake", "sea")[1]


def test_both_sides() -> None:
    with pipes() as network:
        network.solve()
        cut = network.cut()
        assert (cut.side, cut.other_side) == (
            frozenset({"lake"}),
            frozenset({"mill", "town", "sea"}),
        )


def test_a_node() -> None:
    network: Any
    with pipes() as network, pipes() as other:
        plan = network.solve()
        other.solve()
        process = process_of(network)
        network.add_node("mill")
        assert network.solve().value == 5 and process_of(network) is process
        network.undo()
        network.add_node("pond")
        network.add_node(7)
        assert network.nodes == ["lake", "mill", "town", "sea", "pond", 7]
        assert (list(plan.values()), network.flow()) == (list(other.flow().values()), plan)
        canal = network.add("lake", "pond", 4)
        network.add("pond", "sea", 3, "weir")
        assert (network.solve().value, canal.flow, network.arc(("lake", "mill")).flow) == (8, 3, 3)
        # The nodes stay where the changes are undone.
        assert (network.undo(4), network.nodes[-1], network.redo(3)) == (0, 7, 5)
        wrong: list[Any] = [None, float("nan")]
        for node in wrong:
            with pytest.raises(dmf.NotAnArc):
                network.add_node(node)
        assert network.problem(names=False).startswith("p max 6 7\n")
        assert [it.value for it in dmf.sweep(network, [[("add", "mill", "pond", 1)]])] == [8]
        network.add_node("well")
        last = network.solve()
        network.add_node("spring")
        network.end()
        assert sum(last.values()) > 0


def test_a_picture(tmp_path: Path) -> None:
    with pipes() as network:
        network.plot(tmp_path / "net.dot")
        assert (
            'label="lake"' in (tmp_path / "net.dot").read_text()
            and "fillcolor" not in (tmp_path / "net.dot").read_text()
        )
        network.solve()
        network.plot(tmp_path / "net.dot")
        assert "fillcolor" in (tmp_path / "net.dot").read_text() and network.value == 5


def test_forms_of_pictures(tmp_path: Path) -> None:
    with pipes() as network:
        for form, begin in ("svg", b"<?xml"), ("png", b"\x89PNG"), ("pdf", b"%PDF"):
            network.plot(tmp_path / f"net.{form}")
            assert (tmp_path / f"net.{form}").read_bytes().startswith(begin)
        with pytest.raises(RuntimeError, match="^Graphviz did not draw it: .*windy"):
            network.plot(tmp_path / "net.windy")


@pytest.mark.parametrize("has_graphviz", [False, True])
def test_axes(monkeypatch: pytest.MonkeyPatch, has_graphviz: bool) -> None:
    monkeypatch.setenv("MPLBACKEND", "Agg")
    with pipes() as network:
        network.solve()
        if not has_graphviz:
            monkeypatch.setattr(shutil, "which", lambda name: None)
        axes = network.plot()
        texts = {text.get_text() for text in axes.texts}
        assert bool(axes.images) == has_graphviz and (
            has_graphviz or {"lake", "sea", "3/3", "1/5"} <= texts
        )


def test_without_what_draws(tmp_path: Path, monkeypatch: pytest.MonkeyPatch) -> None:
    modules: dict[str, Any] = sys.modules
    with pipes() as network:
        monkeypatch.setattr(shutil, "which", lambda name: None)
        monkeypatch.setitem(modules, "matplotlib.pyplot", None)
        monkeypatch.setitem(modules, "matplotlib", None)
        with pytest.raises(FileNotFoundError, match="a picture needs Graphviz"):
            network.plot(tmp_path / "net.svg")
        with pytest.raises(
            ImportError, match="^a plot without a path needs the package matplotlib"
        ):
            network.plot()


def told(*words: str) -> tuple[int, str, str]:
    ran = subprocess.run(
        [sys.executable, "-m", "dmf", *words],
        env={**os.environ, "PYTHONPATH": CLIENT},
        capture_output=True,
        text=True,
    )
    return ran.returncode, ran.stdout, ran.stderr


def test_a_file_at_the_command_line(tmp_path: Path) -> None:
    path = str(tmp_path / "net.max")
    with dmf.Network(
        [*PIPES[:3], ("mill", "sea", 2, "Mill Lane"), ("town", "sea", 1)], "lake", "sea"
    ) as network:
        network.write(path)
    assert told(path) == (
        0,
        "3 can be sent from lake to sea\nlimit: mill -> sea  2  Mill Lane\nlimit: town -> sea  1\n",
        "",
    )
    Path(path).write_text("p max 2 1\nn 1 s\nn 2 t\na 1 2 x\n")
    assert told(path) == (3, "", f"dmf: {path}: line 4: not a number\n")
    # A word that is no file is the program's.
    status, said, wrong = told(f"{path}.old")
    assert (status, said) == (2, "") and "unrecognized subcommand" in wrong, wrong
