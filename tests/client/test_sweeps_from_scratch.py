"""Sweeps whose cases are networks of their own, solved from scratch: each result is that of a sweep
that goes on from a solved network."""

from __future__ import annotations

import random
from concurrent.futures import ProcessPoolExecutor
from pathlib import Path
from typing import Any

import dmf
import pytest
from dmf.session.base import MOST_COMMANDS
from dmf.session.fresh import FreshSession
from dmf.session.runners import chosen, program_of, start

NODES = 9


def network_of(chance: random.Random) -> dmf.Network[int]:
    """A solved random network, with parallel arcs and loops, one closed arc, and one that was
    added."""
    arcs = [
        (chance.randint(1, NODES), chance.randint(1, NODES), chance.randint(0, 9), f"arc {at}")
        for at in range(24)
    ]
    network: dmf.Network[int] = dmf.Network(arcs, 1, NODES, nodes=range(1, NODES + 1))
    network.close(f"arc {chance.randint(0, 23)}")
    network.add(chance.randint(1, NODES), chance.randint(1, NODES), chance.randint(0, 9), "new")
    network.solve()
    return network


def cases_of(
    network: dmf.Network[int], chance: random.Random, count: int
) -> list[list[tuple[Any, ...]]]:
    """Random cases, some of which are refused: closed and unknown arcs, no nodes, and capacities
    past 64 bits."""

    def command() -> tuple[Any, ...]:
        arc: Any = chance.choice([*network.arcs, f"arc {chance.randint(0, 25)}"])
        node = chance.randint(1, NODES + chance.choice([0, 0, 0, 1]))
        return chance.choice(
            [
                ("close", arc),
                ("cap", arc, chance.choice([0, 3, 12, 12, 2**64 - 1])),
                ("shut", node),
                ("open", arc),
                ("add", node, chance.randint(1, NODES), chance.randint(0, 9)),
            ]
        )

    return [[command() for _ in range(chance.choice([0, 1, 1, 2, 5]))] for _ in range(count)]


def told(results: Any) -> list[tuple[Any, ...]]:
    """What results say, with arcs by their ends and keys, since an arc that a case added has a
    handle of its own."""
    return [
        (
            it.value,
            it.difference,
            str(it.refusal),
            it.cut and [(arc.tail, arc.head, arc.given_key) for arc in it.cut],
        )
        for it in results
    ]


@pytest.mark.parametrize("want_cut", [False, True])
@pytest.mark.parametrize("seed", range(4))
def test_the_same(seed: int, want_cut: bool) -> None:
    chance = random.Random(seed)
    with network_of(chance) as network:
        cases = cases_of(network, chance, 40)
        wanted = told(dmf.sweep(network, cases, want_cut=want_cut))
        assert any(row[0] is None for row in wanted) and any(row[1] for row in wanted)
        assert told(dmf.sweep(network, cases, want_cut=want_cut, anew=True)) == wanted


def test_many_commands() -> None:
    """A case of more commands than go with others, and functions, which may undo what they did."""

    def function(network: dmf.Network[int]) -> None:
        network.cap("arc 3", 40)
        network.solve()
        network.undo(2)
        network.redo(1)
        network.shut(4)

    chance = random.Random(5)
    with network_of(chance) as network:
        many = [("cap", arc, chance.randint(0, 20)) for arc in network.arcs] * (
            2 + MOST_COMMANDS // len(network.arcs)
        )
        cases: list[Any] = [many, function, [("close", network.arcs[0])]]
        assert told(dmf.sweep(network, cases, want_cut=True, anew=True)) == told(
            dmf.sweep(network, cases, want_cut=True)
        )


def test_flows_are_not_told() -> None:
    """A function that asks for a flow is refused, and the next case is tried as ever."""
    with network_of(random.Random(6)) as network:
        cases: list[Any] = [
            lambda tried: list(tried.solve().values()),
            [("close", network.arcs[0])],
        ]
        refused, closed = dmf.sweep(network, cases, anew=True)
        assert isinstance(refused.refusal, dmf.UnknownCommand) and closed == next(
            dmf.sweep(network, cases[1:])
        )


def test_elsewhere() -> None:
    """In the processes of an executor."""
    chance = random.Random(7)
    with network_of(chance) as network, ProcessPoolExecutor(1) as executor:
        cases = cases_of(network, chance, 30)
        assert told(dmf.sweep(network, cases, executor, want_cut=True, anew=True)) == told(
            dmf.sweep(network, cases, want_cut=True)
        )


def test_a_table(tmp_path: Path) -> None:
    """A table with decimals, a limit of a place and several sources."""
    rows = [
        ("a", "m", "1.5"),
        ("b", "m", "2.25"),
        ("m", "x", "3"),
        ("m", "y", "0.5"),
        ("x", "t", "2"),
        ("y", "t", "9"),
    ]
    table = "from,to,capacity\n" + "".join(",".join(row) + "\n" for row in rows)
    (tmp_path / "table.csv").write_text(table)
    with dmf.read_table(
        str(tmp_path / "table.csv"), source=["a", "b"], sink="t", limits={"m": "2.75"}
    ) as network:
        network.solve()
        for want_cut in False, True:
            wanted = told(dmf.sweep(network, dmf.each_arc_closed(), want_cut=want_cut))
            assert (
                told(dmf.sweep(network, dmf.each_arc_closed(), want_cut=want_cut, anew=True))
                == wanted
            )


def test_steps() -> None:
    """Its steps are those of another session, and it tells a cut where that does."""
    chance = random.Random(8)
    with network_of(chance) as network:
        usual, anew = (start(network._kept.copy(), chosen(None)) for _ in range(2))
        anew = FreshSession(anew, program_of(None))
        solved = 0
        for _ in range(300):
            word = chance.choice(
                ["cap", "close", "solve", "solve", "undo", "undo", "redo", "shut", "add"]
            )
            numbers = {
                "cap": (chance.randint(1, 26), chance.randint(0, 9)),
                "close": (chance.randint(1, 26),),
                "solve": (),
                "undo": (chance.randint(0, 3),),
                "redo": (chance.randint(0, 2),),
                "shut": (chance.randint(2, 10),),
                "add": (1, chance.randint(1, 10), 3),
            }[word]
            answers: list[Any] = []
            for session in usual, anew:
                try:
                    value = session.step((word, *numbers))
                    answers.append((value if word == "solve" else None, session.problem()))
                except dmf.Refused as refused:
                    answers.append((type(refused), refused.text))
            assert answers[0] == answers[1], (word, numbers)
            if word == "solve":
                solved += 1
                assert usual.cut() == anew.cut()
        assert solved > 30
        for session in usual, anew:
            session.end()
