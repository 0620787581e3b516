"""Sweeps that close each arc or shut each node, answered by one run of the program, beside the same
sweeps in which each case is tried: the results are the same, and so is every byte that dmf-sweep
writes."""

from __future__ import annotations

import subprocess
import sys
import time
from concurrent.futures import ThreadPoolExecutor
from pathlib import Path
from random import Random
from typing import Any

import pytest
from client_shared import (
    BUILT,
    ROOT,
    dmf,
    environment,
    has_written,
    interrupted_when,
    is_running,
    script,
)
from dmf.sweeps import known_values
from limits import SECONDS

COUNT = 8
NEVER = 10**9
# A program that notes each run of `vital`, and one that cannot run it.
NOTING = f'test "$1" != vital || echo >>"$0.runs"\nexec "{BUILT}" "$@"'
FAILING = f'test "$1" != vital || exit 9\nexec "{BUILT}" "$@"'


def random_network(random: Random, program: str) -> dmf.Network[int]:
    """A network with closed and added arcs, whose flow may be less than the greatest."""
    rows = [
        (random.randrange(COUNT), random.randrange(COUNT), random.randrange(9), f"k{number}")
        for number in range(random.randrange(12, 30))
    ]
    network = dmf.Network(rows, 0, COUNT - 1, nodes=range(COUNT), program=program)
    if random.randrange(2):
        network.solve()
    for arc in random.sample(list(network.arcs), 3):
        network.close(arc)
    network.add(0, random.randrange(1, COUNT), 5, "added")
    return network


def told(results: Any) -> list[tuple[object, ...]]:
    """All that results say."""
    return [
        (it.case, it.value, it.difference, it.cut, type(it.refusal), str(it.refusal))
        for it in results
    ]


@pytest.mark.parametrize("seed", range(25))
def test_the_same_results(seed: int, monkeypatch: pytest.MonkeyPatch) -> None:
    """Also for arcs that are closed, for arcs and nodes that do not exist, and while the network
    changes."""
    random = Random(f"closed {seed}")
    with script(NOTING) as program, random_network(random, program) as network:
        runs = Path(f"{program}.runs")
        every: list[Any] = [f"k{number}" for number in range(network._kept.arc_count - 1)]
        arcs = None, [*network.arcs], [*every, "added", "nothing", ("a", "b")]
        nodes = None, range(1, COUNT - 1), [3, 4, "nothing", [], 0, COUNT - 1, 4]
        sweeps = [*map(dmf.each_arc_closed, arcs), *map(dmf.each_node_shut, nodes)]
        for cases in sweeps:
            found = []
            for fewest in NEVER, 1:
                monkeypatch.setattr(known_values, "FEWEST", fewest)
                assert not runs.exists()
                results = dmf.sweep(network, cases, jobs=2)
                network.cap("added", 7)
                found.append(told(results))
                network.undo()
            assert found[0] == found[1]
            assert runs.read_text() == "\n"
            runs.unlink()


@pytest.mark.parametrize("asked", [dmf.each_arc_closed, dmf.each_node_shut])
def test_when_it_is_worthwhile(asked: Any, monkeypatch: pytest.MonkeyPatch) -> None:
    """Many arcs or nodes, and a quarter of all or more. Worked by hand: of a chain of 9 arcs and 10
    nodes, 3 are such a quarter."""
    chain = [(at, at + 1, 1, f"k{at}") for at in range(9)]
    with script(NOTING) as program, dmf.Network(chain, 0, 9, program=program) as network:
        runs = Path(f"{program}.runs")
        things: list[Any] = ["k4", "k5", "k6"] if asked is dmf.each_arc_closed else [4, 5, 6]
        for count, fewest, is_worth_it in (2, 1, False), (3, 4, False), (3, 3, True):
            monkeypatch.setattr(known_values, "FEWEST", fewest)
            results = dmf.sweep(network, asked(things[:count]))
            assert [result.value for result in results] == [0] * count
            assert runs.exists() == is_worth_it


def test_what_needs_more_than_a_value(monkeypatch: pytest.MonkeyPatch) -> None:
    """Cuts, other cases and executors are tried as before."""

    def refuse(*_: object) -> None:
        raise AssertionError

    monkeypatch.setattr(known_values, "FEWEST", 1)
    monkeypatch.setattr(known_values.KnownValues, "beginning", refuse)
    with random_network(Random("more"), BUILT) as network:
        others: list[Any] = [[[("close", "k0")]], [[("shut", 1)]]]
        for cases in others:
            assert told(dmf.sweep(network, cases, jobs=1))
        for cases in (
            dmf.each_arc_closed(),
            dmf.each_node_shut(),
            dmf.each_pair_added([(0, 1)], 2),
            dmf.each_capacity_raised(1),
        ):
            assert told(dmf.sweep(network, cases, want_cut=True, jobs=1))
            with ThreadPoolExecutor(1) as threads:
                assert told(dmf.sweep(network, cases, threads))


def test_a_program_that_fails(monkeypatch: pytest.MonkeyPatch) -> None:
    """The cases are tried one by one."""
    with script(FAILING) as program, random_network(Random("fails"), program) as network:
        wanted = told(dmf.sweep(network, dmf.each_arc_closed()))
        monkeypatch.setattr(known_values, "FEWEST", 1)
        assert told(dmf.sweep(network, dmf.each_arc_closed())) == wanted


def test_interrupted(monkeypatch: pytest.MonkeyPatch) -> None:
    """Ctrl-C ends the program."""
    monkeypatch.setattr(known_values, "FEWEST", 1)
    hanging = f'test "$1" = vital || exec "{BUILT}" "$@"\necho $$ >"$0.process"; exec sleep 60'
    with script(hanging) as program, random_network(Random("stop"), program) as network:
        with pytest.raises(KeyboardInterrupt), interrupted_when(has_written(f"{program}.process")):
            list(dmf.sweep(network, dmf.each_arc_closed()))
        process, until = int(Path(f"{program}.process").read_text()), time.monotonic() + SECONDS
        while is_running(process):
            assert time.monotonic() < until
            time.sleep(0.01)


@pytest.mark.parametrize(
    "words",
    [["--top", "7"], ["--anew"], ["--json"], ["--jobs", "1"], ["--table", "TABLE"]],
    ids=["top", "anew", "json", "jobs", "table"],
)
def test_the_same_bytes(words: list[str], tmp_path: Path) -> None:
    """dmf-sweep, by a program that runs `vital` and by one that cannot."""
    random, count = Random("bytes"), known_values.FEWEST
    arcs = "".join(
        f"a {random.randint(1, 99)} {random.randint(2, 100)} {random.randrange(99)}\n"
        for _ in range(count)
    )
    (tmp_path / "net.max").write_text(f"p max 100 {count}\nn 1 s\nn 100 t\n{arcs}")
    found = []
    for text in FAILING, NOTING:
        with script(text) as program:
            table = tmp_path / Path(program).parent.name
            given = [str(table) if word == "TABLE" else word for word in words]
            ran = subprocess.run(
                [sys.executable, f"{ROOT}/tools/dmf-sweep", "net.max", "--close-each", *given],
                cwd=tmp_path,
                env=environment(DMF=program),
                capture_output=True,
            )
            assert (ran.returncode, ran.stderr) == (0, b"")
            assert Path(f"{program}.runs").exists() == (text == NOTING)
            found.append((ran.stdout, table.read_bytes() if table.exists() else b""))
    assert found[0] == found[1]
    lines = (7 if "--top" in words else count) + ("--json" not in words)
    assert len(b"".join(found[0]).splitlines()) == lines
