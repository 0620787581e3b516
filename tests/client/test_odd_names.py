"""Odd names of nodes and keys: what goes into a problem's text comes back by `dmf.read`, and
nothing in a name is a line of its own."""

from __future__ import annotations

import subprocess
import sys
from collections.abc import Hashable
from random import Random
from typing import Any

import pytest
from client_shared import ROOT, dmf, pipes, written

# Each of these comes back as it is.
ODD = [
    "undo 3",
    "c refused 1 no memory",
    "p max 2 1",
    "a 1 2 5",
    "c node 1 x",
    "s",
    "t",
    "7",
    "-1",
    "0x1f",
    "two  blanks",
    "a\tb",
    '"',
    "'",
    "\\",
    "\\n",
    "%s",
    "{0}",
    "$HOME",
    "`id`",
    "\x1b[31mred",
    "\x00",
    "\x7f",
    "\x85",
    "a\rb",
    "a\x0bb\x0cc",
    "\u2028",
    "\u200e",
    "\xa0",
    "ß",
    "Straße 5, 300 mm",
    "🜄",
    "\ufffd",
    "\ufeff",
    "arc 1",
    "a\r\ta",
    "#",
    "--help",
    "n 1 s\rn 2 t",
    "\x1c",
]
# Each of these would come back as another one.
REFUSED = [
    "a\nb",
    "\n",
    "a\np max 2 1",
    " a",
    "a ",
    "\ta",
    "a\t",
    "a\r",
    "\r",
    "\ud800",
    "a\r\nundo",
]
BLANK = ["", " ", "\t", " \t "]


def back(network: dmf.Network[Any]) -> dmf.Network[int | str]:
    """The network that is read of what this one writes."""
    with written(network.problem().encode()) as path:
        return dmf.read(path)


def test_names_come_back() -> None:
    rows = [(tail, head, 1, f"{tail}>{head}") for tail, head in zip(ODD, ODD[1:])]
    with dmf.Network(rows, ODD[0], ODD[-1]) as network, back(network) as again:
        assert (again.nodes, again.source, again.sink) == (ODD, ODD[0], ODD[-1])
        assert [arc.key for arc in again.arcs] == [row[3] for row in rows]
        assert (network.solve().value, again.solve().value) == (1, 1)
        assert network.problem() == again.problem()


def test_keys_come_back() -> None:
    with dmf.Network([("a", "b", 1, name) for name in ODD], "a", "b") as network, back(
        network
    ) as again:
        assert [arc.given_key for arc in again.arcs] == ODD
        assert again.solve().value == len(ODD)
        assert [again.capacity(name) for name in ODD] == [1] * len(ODD)


def test_random_names_come_back() -> None:
    random = Random("odd names")
    letters = 'ac p1 \t\r"\\\x1b\x00é🜄\u2028'
    for _ in range(300):
        names = ["".join(random.choices(letters, k=random.randint(1, 6))) for _ in range(4)]
        kept = [
            name
            for name in dict.fromkeys(names)
            if name == name.strip(" \t") and not name.endswith("\r") and name
        ]
        rows = [("start", name, 1, name) for name in kept]
        with dmf.Network(rows, "start", "end", nodes=["start", "end"]) as network, back(
            network
        ) as again:
            assert (again.nodes, [arc.given_key for arc in again.arcs]) == (
                ["start", "end", *kept],
                kept,
            )


def test_refused() -> None:
    for name in REFUSED:
        problems: list[list[Any]] = [
            [(name, "b", 1)],
            [("a", "b", 1, name), ("a", name, 1)],
            [("a", "b", 1, name)],
        ]
        for rows in problems:
            with dmf.Network(rows, rows[0][0], "b") as network:
                with pytest.raises(dmf.NameNotWritable) as caught:
                    network.problem()
                assert repr(name) in str(caught.value)
                # Without names the same problem is written, and the session goes on.
                lines = network.problem(names=False).splitlines()
                assert [line[0] for line in lines] == ["p", "n", "n"] + ["a"] * len(rows)
                assert (network.solve().value, network.shut(rows[0][0])) == (1, 0)


def test_two_nodes_of_one_name() -> None:
    with dmf.Network([(5, "5", 1)], 5, "5") as network:
        with pytest.raises(
            dmf.NameNotWritable, match="^name not writable: two nodes are called '5'$"
        ):
            network.problem()
        assert network.problem(names=False) == "p max 2 1\nn 1 s\nn 2 t\na 1 2 1\n"


def test_blank_names_are_left_out() -> None:
    for name in BLANK:
        with dmf.Network([(name, "b", 1, name)], name, "b") as network, back(network) as again:
            assert network.problem() == "c node 2 b\np max 2 1\nn 1 s\nn 2 t\na 1 2 1\n"
            assert (again.nodes, again.arcs[0].given_key) == ([1, "b"], None)


def test_numbers_come_back() -> None:
    """A node that is called by its number has no comment; another number comes back as a text."""
    with dmf.Network([(1, 2, 1), (2, 7, 1, 8)], 1, 7) as network, back(network) as again:
        assert (
            network.problem()
            == "c node 3 7\nc arc 2 8\np max 3 2\nn 1 s\nn 3 t\na 1 2 1\na 2 3 1\n"
        )
        assert (again.nodes, again.arcs[1].key) == ([1, 2, "7"], "8")
        assert again.problem() == network.problem()


def test_what_is_equal_to_its_number_comes_back_as_a_text() -> None:
    for node in True, 1.0:
        with dmf.Network([(node, "b", 1)], node, "b") as network, back(network) as again:
            assert again.nodes == [str(node), "b"]


def test_the_tools_read_them() -> None:
    names: list[Hashable] = ["", "two  blanks", "a\rb", '"', "\x1b[31m", 5]
    with dmf.Network([("a", name, 1) for name in names], "a", names[0]) as network:
        text = network.problem().encode()
    with written(text) as path:
        ran = subprocess.run([sys.executable, f"{ROOT}/tools/dmf-dot", path], capture_output=True)
    assert (ran.returncode, ran.stderr) == (0, b"")


def test_errors_show_names_safely() -> None:
    with pipes() as network:
        for call in network.shut, network.close:
            with pytest.raises(dmf.Refused) as caught:
                call("\x1b[31m\nundo")
            assert str(caught.value).endswith(r": '\x1b[31m\nundo'")
